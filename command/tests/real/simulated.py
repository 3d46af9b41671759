"""Chips behind an HA7E adapter on a pseudo-terminal: `owserver --ha7e=PATH` talks to it as to hardware, by libow's own drivers. The
chips follow the data sheets of DS2431 and DS2433; a DS2430A is there to be listed."""
import os
import pty
import threading
import tty

READ, WRITE_PAD, READ_PAD, COPY_PAD = 0xF0, 0x0F, 0xAA, 0x55


def crc8(data):
    return crc(data, 0x8C)


def crc16(data):
    """As a chip sends it: inverted, the lower byte first."""
    return (crc(data, 0xA001) ^ 0xFFFF).to_bytes(2, "little")


def crc(data, polynomial):
    value = 0
    for byte in data:
        value ^= byte
        for _ in range(8):
            value = (value >> 1) ^ (polynomial if value & 1 else 0)
    return value


def driven(data):
    """A chip drives these bytes, whatever the master sends meanwhile."""
    for byte in data:
        yield byte


class Chip:
    """`cut` pulls the chip behind so many rows, 0 before the first; with `torn` it is pulled in the row that comes then, which leaves
    any byte where it changes. `protected` has the pages that keep what they hold. A `loose` chip reads otherwise every other time.
    `behind` is called behind each row, with the number of rows."""

    def __init__(self, name, size=0, pad=8):
        self.name = name
        self.memory = bytearray(b"\xff" * size)
        self.pad_size = pad
        self.cut = None
        self.torn = None
        self.protected = set()
        self.loose = False
        self.behind = lambda rows: None
        self.reads = 0
        rom = bytes.fromhex(name.replace(".", ""))
        self.rom = rom + bytes([crc8(rom)])
        self.address = self.rom[::-1].hex().upper()
        self.power_up()

    def power_up(self):
        self.present = True
        self.rows = 0
        self.start, self.end = 0, 0
        self.pad = bytearray(self.pad_size)

    def hold(self, data, cut=None, torn=None):
        """Connected anew, with these bytes. `torn` is a source of random numbers."""
        self.power_up()
        self.memory[:] = data
        self.cut, self.torn = cut, torn

    def select(self):
        self.flow = self.answer()
        self.driven = next(self.flow)

    def exchange(self, byte):
        """The byte on the wire: the master's, or where the chip drives it the chip's."""
        if not self.present or self.flow is None:
            return 0xFF
        seen = byte if self.driven is None else byte & self.driven
        try:
            self.driven = self.flow.send(byte)
        except StopIteration:
            self.flow = None
        return seen

    def answer(self):
        """What follows the selection: None takes a byte from the master, a byte is driven."""
        command = yield None
        if command not in (READ, WRITE_PAD, READ_PAD, COPY_PAD):
            return
        if command == READ_PAD:
            told = self.start.to_bytes(2, "little") + bytes([self.end]) + self.pad[self.start % self.pad_size : self.end + 1]
            yield from driven(told + crc16(bytes([command]) + told))
            return
        low = yield None
        high = yield None
        start = low | high << 8
        if command == READ:
            self.reads += self.loose
            yield from driven(bytes(byte ^ self.reads % 2 for byte in self.memory[start:]))
        elif command == WRITE_PAD:
            yield from self.fill(start, bytes([command, low, high]))
        elif (yield None) == self.end and start == self.start:
            self.program()
            while True:
                yield 0xAA

    def fill(self, start, sent):
        """The scratchpad from an address to its page's end."""
        self.start = start % len(self.memory)
        page = self.start - self.start % self.pad_size
        for at in range(self.start % self.pad_size, self.pad_size):
            byte = yield None
            sent += bytes([byte])
            self.pad[at] = self.memory[page + at] if page // 32 in self.protected else byte
            self.end = at
        yield from driven(crc16(sent))

    def program(self):
        """Rows are counted from the last connection. A chip that is torn is pulled in the next row, else behind this one."""
        row = bytes(self.pad[self.start % self.pad_size : self.end + 1])
        there = self.memory[self.start : self.start + len(row)]
        if self.rows == self.cut:
            self.present = False
            row = bytes(old if old == new or not self.torn else self.torn.randrange(256) for old, new in zip(there, row))
        self.memory[self.start : self.start + len(row)] = row
        self.rows += self.present
        if self.rows == self.cut and not self.torn:
            self.present = False
        self.behind(self.rows)


def ds2430a(name):
    return Chip(name)


def ds2431(name):
    return Chip(name, 128, 8)


def ds2433(name):
    return Chip(name, 512, 32)


class Adapter(threading.Thread):
    """Letters and hexadecimal digits, each answer ended by a carriage return. It is silent until `speaks` is set again."""

    def __init__(self, chips):
        super().__init__(daemon=True)
        self.chips = chips
        self.chosen = None
        self.address = ""
        self.found = iter(())
        self.speaks = threading.Event()
        self.speaks.set()
        self.master, self.slave = pty.openpty()
        tty.setraw(self.slave)
        self.path = os.ttyname(self.slave)
        self.bytes = self.received()

    def received(self):
        while True:
            yield from os.read(self.master, 4096)

    def take(self, count):
        return "".join(chr(next(self.bytes)) for _ in range(count))

    def run(self):
        while True:
            said = self.one(self.take(1))
            self.speaks.wait()
            os.write(self.master, said.encode("ascii") + b"\r")

    def one(self, letter):
        if letter == "R":
            self.chosen = None
            return ""
        if letter == "W":
            count = int(self.take(2), 16)
            data = bytes.fromhex(self.take(2 * count + 1))
            return self.wire(data).hex().upper()
        if letter in "SC":
            self.found = iter(self.there() if letter == "S" else ())
        if letter in "SsCc":
            found = next((chip.address for chip in self.found), "")
            self.address = found or self.address
            return found
        if letter == "A":
            self.address = self.take(17)[:16]
        if letter in "AM":
            self.chosen = next((chip for chip in self.there() if chip.address == self.address), None)
            if self.chosen:
                self.chosen.select()
            return self.address
        return ""

    def there(self):
        return [chip for chip in self.chips if chip.present]

    def wire(self, data):
        if self.chosen:
            return bytes(self.chosen.exchange(byte) for byte in data)
        return self.search(data) if data[0] == 0xF0 and len(data) == 25 else data

    def search(self, data):
        """A search in which the master says each bit it follows: so libow asks whether a chip is there. Of each three bits the
        chips that are left drive two, 0 before 1: their bit, and its inverse."""
        bits = [data[at // 8] >> at % 8 & 1 for at in range(8 * len(data))]
        left = self.there()
        for at in range(64):
            told = [chip.rom[at // 8] >> at % 8 & 1 for chip in left]
            bits[8 + 3 * at] = int(all(told))
            bits[9 + 3 * at] = int(not any(told))
            left = [chip for chip, bit in zip(left, told) if bit == bits[10 + 3 * at]]
        return bytes(sum(bits[8 * at + bit] << bit for bit in range(8)) for at in range(len(data)))
