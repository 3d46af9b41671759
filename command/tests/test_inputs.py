"""What is read in more than one form: recordings, spans, dumps, certificates beside a chip."""
from fractions import Fraction

import support
from dartelm.command import certificate, compare, distance, dumps
from dartelm.command.image import read_image, read_sheet
from dartelm.command.trouble import Trouble
from support import sample

CELL, TEN, SIXTY = sample("load-cell.kind1"), sample("load-cell.ten"), sample("load-cell.sixty")
CERT = sample("load-cell.csv")


class Recordings(support.Case):
    def scale(self, low=0.0, high=5000.0):
        sheet = read_sheet(read_image(CELL))
        sheet.values[7], sheet.values[8] = low, high
        return compare.Scale(sheet, compare.fields.around(sheet).unit())

    def ticks(self, text, **words):
        found = compare.Recording(self.file("run", text), self.scale(), **words).ticks
        return [(tick.input, tick.shown) for tick in found]

    def test_a_sheet_without_a_span(self):
        for low, high in ((None, 5000.0), (0.0, None), (7.0, 7.0)):
            self.assertRaisesRegex(Trouble, "^'5 N': the sheet has no physical span$", self.scale(low, high).billionths, "5 N")
            self.assertEqual(self.scale(low, high).billionths("5 %"), 50000000)
        self.assertEqual(
            [self.scale().billionths(text) for text in ("7", "7 ppb", "5 %", "5 % of span", "1 kN")],
            [7, 7, 5 * 10**7, 5 * 10**7, 2 * 10**8],
        )

    def test_figures_that_no_call_takes(self):
        for sign in (1, -1):
            for size in (0, 1, 1 << 62, (1 << 63) - 1):
                self.assertEqual(compare.whole(Fraction(sign * size), "", ""), sign * size)
            for exact in (Fraction(1, 2), Fraction(1 << 63), Fraction((1 << 63) + 1), Fraction(1 << 64)):
                self.assertRaisesRegex(Trouble, "^'x' is no whole number of y$", compare.whole, sign * exact, "x", "y")

    def test_lines(self):
        """Comments and empty lines are passed over; blanks and empty cells are not."""
        wanted = [(1000, 7), (2000, 8)]
        for text in (
            "1000 7\n2000 8\n",
            "1000  7\n2000   8\n",
            "# a run\n\n1000,7\n2000,8\n",
            '"1000", "7"\n2000, "8"\n',
            "input (nV/V),shown,note\n1000,7,\n\n2000,8,late\n",
            "input (nV/V),shown,note\n1000,7,\n2000,8,\n",
            ",input (nV/V),shown\n,1000,7\n,2000,8\n",
            "10 Hz clock;input (nV/V);fraction (billionths)\n0;1000;7\n1;2000;8\n",
        ):
            self.assertEqual(self.ticks(text), wanted, text)
        for text in ("input 2 (nV/V)\n1000\n2000\n", "1000\n2000\n", "input\n1000 nV/V\n0.002 mV/V\n"):
            self.assertEqual(self.ticks(text, shown=False), [(1000, None), (2000, None)], text)
        for text, said in (
            ("1000,7\n2000\n", "run:2: 1 cell, where others have 2"),
            ("1000,7\n2000,8,9\n", "run:2: 3 cells, where others have 2"),
            ("1000,7,8\n", "run:1: 3 cells without heads; a line has input and shown, or the columns have heads"),
            ("input,shown\n1000,x\n", "run:2: 'x' is no number"),
            ("input,shown\nx,7\n", "run:2: 'x' is no number"),
            ("input,signal,shown\n", "run:1: 'input' and 'signal' may each be the input"),
        ):
            self.assertRaisesRegex(Trouble, f"{said}$", self.ticks, text)

    def test_made(self):
        """Twelve inputs: the first and the seventh are the slow dash's; a tick is a sixtieth of a second."""
        inputs = self.file("inputs", "input (nV/V)\n" + "".join(f"{100000 * n}\n" for n in range(12)))
        words = ("compare", CELL, self.path("ten"), self.path("sixty"))
        self.gives(0, *words, "--make", inputs, out=("ten: written, 2 ticks\n", "sixty: written, 12 ticks\n"))
        slow, fast = (self.bytes(name).decode().splitlines() for name in ("ten", "sixty"))
        self.assertEqual(slow[0], "time (s),input (nV/V),fraction (billionths)")
        self.assertEqual([line.rpartition(",")[0] for line in slow[1:]], ["0.0000,0", "0.1000,600000"])
        times = [line.split(",")[0] for line in fast[1:]]
        self.assertEqual((times[1], times[5], times[11], len(times)), ("0.0167", "0.0833", "0.1833", 12))
        self.gives(0, *words, out="AGREE: 2 ticks at ten a second, 12 at sixty; ")
        self.gives(
            2,
            *words,
            "--make",
            self.file("five", "1000\n" * 5),
            "--force",
            err="five: 5 inputs, which is no multiple of six\n",
        )
        far = self.file("far", "1000\n" * 5 + "9000000\n")
        self.gives(1, *words, "--make", far, "--force", err="nothing is written: input 6, 9 mV/V: refused: 14 at ")


class Spans(support.Case):
    def test_ends_in_other_units(self):
        self.gives(
            2,
            "distance",
            CERT,
            "--span",
            "0Pa..5000N",
            err="'0Pa..5000N' is neither a file nor a span like 0..5000N or 16MPa\n",
        )
        self.gives(3, "distance", CERT, "--span", "x..5000N", err="cannot read x..5000N: ")
        for span in ("1e39..5N", "-1e39..5N", "5..1e39N", "5..-1e39N", "7..7N"):
            self.gives(2, "distance", CERT, "--span", span, err=f"--span: '{span}' is no span\n")

    def test_a_span_as_a_sheet(self):
        for text, ends in (("5000N", (0, 5000)), ("1..5kN", (1000, 5000)), ("1N..5kN", (1, 5000)), ("-5..5N", (-5, 5))):
            sheet = distance.sheet_for(4, text)
            self.assertEqual(
                (sheet.template, sheet.values[6], sheet.values[9], sheet.values[7], sheet.values[8]),
                (33, 4, 0, *ends),
            )
        for text in ("5Pa", "x..5N", "1Pa..5N", "5", "", "5..N"):
            self.assertIsNone(distance.sheet_for(4, text), text)


class Dumps(support.Case):
    def test_eight_bytes_are_the_least(self):
        for count in (1, 7, 8, 9, 40):
            self.assertEqual(dumps.bytes_of(bytes(range(count)).hex().encode()), bytes(range(count)) if count > 7 else None)

    def test_lines_left_out(self):
        """* stands for lines like the last: up to octal 200, which is 128, of od; up to hexadecimal 200, which is 512, of hexdump."""
        for text, count in (
            ("0000000 " + "ff " * 15 + "ff\n*\n0000200\n", 128),
            ("0000000 " + "ffff " * 7 + "ffff\n*\n0000200\n", 512),
            ("00000000  " + "ff " * 8 + " " + "ff " * 7 + "ff  |................|\n*\n00000200\n", 512),
            ("00000000: " + "ffff " * 7 + "ffff\n*\n00000080:\n", 128),
        ):
            self.assertEqual(dumps.bytes_of(text.encode()), b"\xff" * count, text)

    def test_one_line(self):
        """With a colon its first digits are an offset; without one they are bytes."""
        self.assertEqual(dumps.bytes_of(b"00000000: 0001 0203 0405 0607"), bytes(range(8)))
        self.assertEqual(dumps.bytes_of(b"0000 0001 0203 0405 0607"), b"\0\0" + bytes(range(8)))

    def test_a_dump_from_the_middle(self):
        """The first offset may be any."""
        data = bytes(range(16)) * 2
        for form in ("{:08x}: {}", "{:07x} {}", "{:07o} {}", "{:06x} {}"):
            for start in (0x80, 0x40, 0x198):
                lines = [form.format(start + n, data[n : n + 16].hex(" ")) for n in (0, 16)]
                self.assertEqual(dumps.bytes_of("\n".join(lines).encode()), data, lines)
                if (form, start) == ("{:07x} {}", 0x40):
                    continue  # Such lines may be od's, in octal.
                squeezed = [lines[0], "*", form.format(start + 512, "")]
                self.assertEqual(dumps.bytes_of("\n".join(squeezed).encode()), bytes(range(16)) * 32, squeezed)

    def test_words_with_octal_offsets(self):
        """As od -tx2 has them, the low byte first."""
        data = bytes(range(128))
        lines = [
            f"{at:07o} " + " ".join(data[n : n + 2][::-1].hex() for n in range(at, at + 16, 2)) for at in range(0, 128, 16)
        ]
        self.assertEqual(dumps.bytes_of("\n".join([*lines, "0000200"]).encode()), data)


class Beside(support.Case):
    def beside(self, points):
        chip = read_image(CELL)
        return certificate.beside_points(chip, read_sheet(chip), "", points)

    def test_a_difference_in_newtons(self):
        """41,234 billionths of 5000 N are 0.20617 N; more than the span is shown as the span."""
        beside = self.beside([(0, 0), (10**9, 0)])
        for billionths, sign, shown in (
            (41234, True, "+0.2062 N"), (-41234, True, "-0.2062 N"), (41234, False, "0.2062 N"), (-41234, False, "0.2062 N"),
            (0, True, "0 N"), (10**9, True, "+5000 N"), (-2 * 10**9, True, "-5000 N"),
        ):  # fmt: skip
            self.assertEqual(beside.physical(billionths, sign), shown)

    def test_the_worst_by_size(self):
        """The six of the chip's own points that are farthest off, whichever way."""
        sheet, _ = self.gives(0, "export", CELL)
        kept = "".join(line + "\n" for line in sheet.splitlines() if not line.startswith("point"))
        rows = "".join(f"point = {round(n * 10**8 / 15300) * 15300 / 10**7} %, {(-1) ** n * n / 100} %\n" for n in range(10))
        self.gives(0, "make", self.file("sheet", kept + rows), "-o", self.path("ten"))
        said, _ = self.gives(1, "certificate", self.path("ten"), self.file("cert", "point (%),deviation (%)\n0,0\n100,0\n"))
        listed = [line.split()[1] for line in said.splitlines() if line.strip().startswith("chip ")]
        self.assertEqual([round(float(place)) for place in listed], [40, 50, 60, 70, 80, 90])

    def test_a_curve_has_no_marks(self):
        said, _ = self.gives(1, "certificate", sample("exhaust-pressure.kind1"), CERT, out="NO VERDICT: ")
        self.assertNotIn("!", said)


if __name__ == "__main__":
    support.unittest.main()
