"""why: each refusal of a check, whole pages, and what a file may be instead."""
import support
from support import ACCEPTED, sample, sample_bytes


def dumps_of(data):
    """As xxd, od and hexdump have it, plain, as C has it, and as Intel HEX."""
    lines = [(n, data[n : n + 16]) for n in range(0, len(data), 16)]
    letters = "".join(chr(c) if 32 <= c < 127 else "." for c in data)
    yield data.hex()
    yield data.hex().upper() + "\n"
    yield " ".join(f"{c:02x}" for c in data)
    yield "{ " + ", ".join(f"0x{c:02X}" for c in data) + " };"
    yield "\r\n".join(line.hex() for _, line in lines)
    yield "".join(f"{n:08x}: {line.hex(' ', 2)}  {letters[n:n + 16]}\n" for n, line in lines)
    yield "".join(
        f"{n:08x}  {line[:8].hex(' ')}  {line[8:].hex(' ')}  |{letters[n:n + 16]}|\n" for n, line in lines
    ) + f"{len(data):08x}\n"
    yield squeezed([(f"{n:07o} ", line.hex(" ")) for n, line in lines]) + f"{len(data):07o}\n"
    yield "".join(
        f"{n:07x} {' '.join(line[m:m + 2][::-1].hex() for m in range(0, len(line), 2))}\n" for n, line in lines
    ) + f"{len(data):07x}\n"
    yield "\r\n".join(record(n, 0, line) for n, line in lines) + "\r\n" + record(0, 1, b"") + "\r\n"


def squeezed(lines):
    """As od does it: * for lines like the one before."""
    found = []
    for number, (before, line) in enumerate(lines):
        if number and line == lines[number - 1][1]:
            found += [] if found[-1] == "*\n" else ["*\n"]
        else:
            found.append(before + line + "\n")
    return "".join(found)


def record(address, sort, data):
    made = bytes([len(data), address >> 8, address & 255, sort]) + data
    return ":" + (made + bytes([-sum(made) % 256])).hex().upper()


class Why(support.Case):
    def test_accepted(self):
        for name in ACCEPTED:
            self.gives(0, "why", sample(name), out=(": accepted,", "page 0: adds up", "nothing is wrong"))

    def test_damaged(self):
        said, _ = self.gives(
            1,
            "why",
            sample("damaged.kind1"),
            out=(
                "refused: 2 at page 2",
                "page 2: does not add up",
                "manufacturer ID: 1451",
                "model number: 77",
                "serial number: 555",
                "calibration date: 2025-11-03",
                "likely: one page is damaged",
                "read the chip again",
            ),
        )
        self.assertEqual(said.count("adds up"), 3)

    def test_pages_that_are_not_whole_are_not_told(self):
        data = bytearray(sample_bytes("load-cell.kind1"))
        data[40] ^= 1
        said, _ = self.gives(
            1, "why", self.file("one", bytes(data)), out=("serial number: 555", "excitation level, maximum: 12 V")
        )
        self.assertNotIn("calibration date", said)
        data[3] ^= 1
        said, _ = self.gives(1, "why", self.file("two", bytes(data)), out="some pages are damaged")
        self.assertNotIn("still say", said)

    def test_what_whole_pages_say_is_what_the_sheet_says(self):
        for name in ("load-cell.kind1", "temperature.kind1", "brake-pressure.kind1", "many-points.kind2"):
            data = bytearray(sample_bytes(name))
            data[-40] ^= 1
            told, _ = self.gives(1, "why", self.file("bad", bytes(data)))
            shown, _ = self.gives(0, "show", sample(name), *support.TODAY)
            sheet = {
                line[6:45].strip(): line[45:].split(", due")[0]
                for line in shown.splitlines()
                if line[:4].strip().isdigit() and len(line) > 45 and "deviation" not in line
            }
            fields = dict(line.strip().split(": ", 1) for line in told.splitlines() if line.startswith("    "))
            self.assertEqual(fields, {key: value for key, value in sheet.items() if key in fields})
            self.assertGreaterEqual(len(fields), 16)

    def test_blank_zero_and_other_kinds(self):
        self.gives(1, "why", sample("blank.kind1"), out=("refused: 17", "page 3: blank", "a new chip"))
        self.gives(1, "why", self.file("zero", bytes(128)), out=("refused: 5 at bit 0", "every byte is 0", "manufacturer ID"))
        for name, kind, behind in (
            ("oil-pressure.kind0", 0, b"\xff" * 88),
            ("load-cell.kind1", 1, b"\xff" * 384),
            ("load-cell.kind1", 1, b"\n"),
        ):
            data = sample_bytes(name)
            self.gives(
                1,
                "why",
                self.file("longer", data + behind),
                out=(
                    f"another kind's image: the first {len(data)} bytes are an accepted one of kind {kind}",
                    f"why {self.path('longer')} -o NEW.kind{kind}",
                ),
            )
            self.gives(
                0, "why", self.path("longer"), "-o", self.path("new"), "--force", out="written and read again, accepted, kind"
            )
            self.assertEqual(self.bytes("new"), data)

    def test_lengths(self):
        cell = sample_bytes("load-cell.kind1")
        for data, part in (
            (b"", "the file is empty"),
            (cell[:100], "100 bytes are 28 fewer than 128"),
            (cell[1:], "1 fewer than 128"),
            (bytes(32), "one page"),
            (bytes(124), "without the check bytes"),
            (bytes(39), "without the check bytes"),
            (bytes(513), "more than the largest"),
            (bytes(200000), "more than the largest"),
        ):
            self.gives(1, "why", self.file("length", data), out=("refused: 1 at place 0", part))
        self.gives(
            1, "why", self.file("cut", cell[:100]), out=("page 2: adds up", "page 3: is not there whole", "serial number: 555")
        )

    def test_dumps_in_text(self):
        for name in ("load-cell.kind1", "oil-pressure.kind0", "many-points.kind2"):
            data = sample_bytes(name)
            for text in dumps_of(data):
                self.gives(
                    1,
                    "why",
                    self.file("dump", text),
                    out=(f"of {len(data)} bytes, which is kind {name[-1]}; as an image it is accepted", "-o NEW"),
                )
                self.gives(0, "why", self.path("dump"), "-o", self.path("new"), "--force", out="accepted, kind")
                self.assertEqual(self.bytes("new"), data)
        self.gives(
            1,
            "why",
            self.file("blank", "0000000 ff ff ff ff ff ff ff ff ff ff ff ff ff ff ff ff\n*\n0000200\n"),
            out="as an image it is refused: 17",
        )

    def test_a_dump_that_is_refused(self):
        dump = self.file("dump", sample_bytes("damaged.kind1").hex())
        self.gives(
            1,
            "why",
            dump,
            out=("as an image it is refused: 2 at page 2", "page 2: does not add up", "serial number: 555", "likely: one page"),
        )
        self.gives(1, "why", dump, "-o", self.path("new"), err="nothing is written")
        self.gives(1, "why", sample("damaged.kind1"), "-o", self.path("new"), err="nothing is written")
        self.assertEqual(support.os.listdir(self.room), ["dump"])
        self.gives(
            1, "why", self.file("dump", sample_bytes("load-cell.kind1").hex()[:100]), out="of 50 bytes, which no chip has"
        )

    def test_what_is_written_out(self):
        self.gives(0, "why", sample("torque.kind1"), "-o", self.path("same"))
        self.assertEqual(self.bytes("same"), sample_bytes("torque.kind1"))
        self.gives(3, "why", sample("torque.kind1"), "-o", self.path("same"), err="--force")

    def test_texts(self):
        sheet, _ = self.gives(0, "export", sample("load-cell.kind1"))
        self.gives(1, "why", self.file("sheet", sheet), out=("a sheet as 'dartelm export' writes it", "dartelm make"))
        self.gives(1, "why", sample("load-cell.csv"), out=("a certificate, and no chip's bytes", "dartelm certificate"))
        for text in ("this is a letter, not a chip", "x" * 128, "y" * 512):
            self.gives(1, "why", self.file("prose", text), out=("refused: ", "likely: a text, and no chip's bytes"))

    def test_every_stored_image(self):
        numbers = set()
        for number, image in enumerate(support.stored_images()):
            refusal = support.images.refusal_of(image)
            path = self.file("stored", image.data)
            if not refusal and number % 4:
                continue
            for command in ("why", "show"):
                said, _ = self.gives(1 if refusal else 0, command, path)
            if refusal:
                numbers.add(refusal.number)
                self.assertIn(f"refused: {refusal.number} at ", said)
        self.assertEqual(numbers, {2, 3, 4, 5, 6, 7, 17, 22, 24, 25})

    def test_bits_that_fell_over(self):
        chance = support.random.Random(3)
        for _ in range(60):
            data = bytearray(sample_bytes(chance.choice(ACCEPTED)))
            for _ in range(chance.choice((1, 1, 2, 40))):
                data[chance.randrange(len(data))] ^= 1 << chance.randrange(8)
            if chance.random() < 0.6:
                data = support.sealed(data)
            status, said, wrong = self.run_here("why", self.file("fallen", bytes(data)))
            self.assertIn(status, (0, 1))
            self.assertNotIn("Traceback", said + wrong)
            self.assertTrue(status == 0 or "likely: " in said)


if __name__ == "__main__":
    support.unittest.main()
