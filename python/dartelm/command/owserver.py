"""A chip on a 1-Wire bus, through owserver (owfs): its network protocol, and a chip's bytes in place of a file's.

A message is six big-endian words of 32 bits and a payload. To the server: 0, the payload's length, the type, flags, size and
offset; the payload is a path, a NUL and the data of a write. Back come 0, the length, a result, flags, size and offset, then the
payload. A length below 0 says that the server is still at it; a result below 0 is an error's number.
"""
import errno
import os
import re
import socket
import struct
import time

from .trouble import misused, unread

PREFIX = "ow:"
HEAD = struct.Struct(">6i")
READ, WRITE, LIST = 2, 3, 7
UNCACHED, OWNET = 0x20, 0x100
PORT = 4304
SILENCE, PATIENCE = 5.0, 60.0
# No answer that is asked for here is longer, and no error has a greater number.
LONGEST, LAST_ERROR = 65536, 4095
NO_SUCH = 1
READ_ONLY = (errno.EROFS, errno.EACCES, errno.EPERM, errno.ENOTSUP)
# By the family: the chip, its kind and its bytes.
FAMILIES = {"14": ("DS2430A", 0, 40), "2D": ("DS2431", 1, 128), "23": ("DS2433", 2, 512)}
NAME = re.compile(r"[0-9A-F]{2}\.[0-9A-F]{12}")
CONFIGURE = "owserver has to run, with a line like 'server: usb = all' in /etc/owfs.conf in place of 'server: FAKE = ..'"
NO_REGISTER = "this owserver does not hand out the register of a DS2430A: bring a file with its 40 bytes"


class Denied(Exception):
    """The server's error number."""

    def __init__(self, number):
        super().__init__(os.strerror(number))
        self.number = number


class Owserver:
    """A question is a connection of its own: an owserver does not end while one is kept."""

    def __init__(self, place="localhost"):
        """HOST, HOST:PORT or PORT, as ow-shell takes them; an IPv6 address stands in brackets."""
        whole = f"localhost:{place}" if re.fullmatch("[0-9]+", place) else place
        found = re.fullmatch(r"(\[[^][]+\]|[^][:]+)(?::([0-9]{1,5}))?", whole)
        if not found or not 0 < int(found[2] or PORT) < 1 << 16:
            raise misused(f"-s: '{place}' is no HOST:PORT")
        self.host, self.port = found[1], int(found[2] or PORT)

    def where(self):
        return f"{self.host}:{self.port}"

    def ask(self, kind, path, size=0, offset=0, data=b""):
        """The payload of the answer."""
        payload = path.encode("ascii") + b"\0" + data
        try:
            with socket.create_connection((self.host.strip("[]"), self.port), SILENCE) as link:
                link.sendall(HEAD.pack(0, len(payload), kind, UNCACHED | OWNET, size, offset) + payload)
                result, answer = self.answer(link)
        except (TimeoutError, socket.timeout):
            raise unread(f"the server at {self.where()} is silent") from None
        except (OSError, UnicodeError) as error:
            reason = getattr(error, "strerror", None) or error
            raise unread(f"no owserver at {self.where()}: {reason}; {CONFIGURE}") from None
        if result < 0:
            raise Denied(-result)
        return answer

    def answer(self, link):
        """The result and the payload. Silence is counted anew behind each sign of life, but not for ever."""
        began = time.monotonic()
        while True:
            zero, length, result, _, _, _ = HEAD.unpack(self.taken(link, HEAD.size))
            if zero != 0 or length > LONGEST or result < -LAST_ERROR:
                raise unread(f"what answers at {self.where()} is no owserver")
            if length >= 0:
                return result, self.taken(link, length)
            if time.monotonic() - began > PATIENCE:
                raise unread(f"the server at {self.where()} is at it for a minute, and does not answer")

    def taken(self, link, count):
        parts = b""
        while len(parts) < count:
            part = link.recv(count - len(parts))
            if not part:
                raise unread(f"the server at {self.where()} closed the connection in the middle of an answer")
            parts += part
        return parts

    def chips(self):
        """The names of all chips, as FAMILY.ID."""
        try:
            answer = self.ask(LIST, "/")
        except Denied as denied:
            raise unread(f"the server at {self.where()} does not list its chips: {denied}; check the adapter") from None
        names = answer.rstrip(b"\0").decode("ascii", "replace").split(",")
        return [name.strip("/") for name in names if NAME.fullmatch(name.strip("/"))]

    def chip(self, name):
        """The chip that a name stands for; without a name the only one that can hold a sheet."""
        if name:
            if not NAME.fullmatch(name.upper()):
                raise misused(f"ow:{name}: a chip's name is like 2D.0123456789AB, as 'dartelm chips' lists them")
            return Chip(self, name.upper())
        there = [one for one in self.chips() if one[:2] in FAMILIES]
        if len(there) != 1:
            raise unread(f"ow: stands for the only chip, and at {self.where()} there are {listed(there)}")
        return Chip(self, there[0])


def listed(names):
    return ", ".join(names) if names else "none"


class Chip:
    def __init__(self, server, name):
        self.server = server
        self.name = name
        if name[:2] not in FAMILIES:
            raise unread(f"ow:{name}: a chip of family {name[:2]} is none of {', '.join(f'{f} ({c})' for f, (c, *_) in FAMILIES.items())}")
        self.part, self.kind, self.size = FAMILIES[name[:2]]
        if self.kind == 0:
            raise unread(f"ow:{name}: {NO_REGISTER}")

    def path(self):
        return f"/{self.name}/memory"

    def read_once(self):
        try:
            data = self.server.ask(READ, self.path(), self.size)
        except Denied as denied:
            raise self.trouble(denied) from None
        if len(data) != self.size:
            raise unread(f"ow:{self.name}: {len(data)} bytes of {self.size} were read; check the contact")
        return data

    def read(self):
        """The whole image, read twice. A chip that is pulled reads FF with no error on some adapters: one that does is looked
        for in the list before it is called blank."""
        first = self.read_once()
        if self.read_once() != first:
            raise unread(f"ow:{self.name}: two reads differ; check the contact")
        if not first.strip(b"\xff") and self.name not in self.server.chips():
            raise self.trouble(Denied(NO_SUCH))
        return first

    def write_row(self, offset, row):
        """What the server says against it, or None. Neither tells whether it is written: the chip is to be read back."""
        try:
            self.server.ask(WRITE, self.path(), len(row), offset, row)
        except Denied as denied:
            return denied
        return None

    def trouble(self, denied):
        if denied.number == NO_SUCH:
            return unread(f"ow:{self.name}: there is no such chip at {self.server.where()}; there are {listed(self.server.chips())}")
        if denied.number in READ_ONLY:
            return unread(f"ow:{self.name}: it is read-only, or the server is: {denied}")
        return unread(f"ow:{self.name}: the server answers: {denied}; check the contact and the adapter")


# Where chips are looked for: `-s` says another place.
PLACE = "localhost"


def read_bytes(path):
    """The bytes of a chip that is named in place of a file."""
    return Owserver(PLACE).chip(path[len(PREFIX) :]).read()
