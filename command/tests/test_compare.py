"""compare: recordings as a logger writes them, by the proved call, in parts of any number."""
import os
from decimal import Decimal

import support
from dartelm.command import readings
from dartelm.command.image import read_image
from support import sample

CELL, TEN, SIXTY = sample("load-cell.kind1"), sample("load-cell.ten"), sample("load-cell.sixty")


def ticks(path):
    with open(path, encoding="ascii") as file:
        return [tuple(map(int, line.split())) for line in file]


def table(rows, heads, mark, form):
    return "".join(f"{line}\n" for line in (heads, *(mark.join(form(n, *row)) for n, row in enumerate(rows))))


class Compare(support.Case):
    def compare(self, status, ten, sixty, **said):
        return self.gives(status, "compare", CELL, ten, sixty, **said)

    def test_agree(self):
        self.compare(0, TEN, SIXTY, out="AGREE: 5 ticks at ten a second, 30 at sixty; each shows its input's reading\n")
        self.compare(0, self.file("none", ""), self.file("no", ""), out="AGREE: 0 ticks at ten a second, 0 at sixty")

    def test_as_loggers_write_them(self):
        """The same run in other columns and units, each exact: 5000 N is 10^9 billionths."""
        forms = (
            ("input (nV/V),fraction (billionths)", ",", lambda n, v, q: (str(v), str(q))),
            ("Time (s);Input (mV/V);Fraction (%)", ";", lambda n, v, q: (f"{n / 60}", f"{v / 1e6:.6f}", f"{q / 1e7:.7f}")),
            ("clock\tshown (N)\tinput (uV/V)", "\t", lambda n, v, q: (f"12:{n:02}", f"{q * 5e-6:.6f}", f"{v / 1e3:.3f}")),
            ("no,input,figure,note", ",", lambda n, v, q: (str(n), f"{v} nV/V", f"{q * 5e-9:.9f} kN", "x")),
        )
        for heads, mark, form in forms:
            ten = self.file("ten", table(ticks(TEN), heads, mark, form))
            sixty = self.file("sixty", table(ticks(SIXTY), heads, mark, form))
            self.compare(0, ten, sixty, out="AGREE: 5 ticks")
            self.compare(0, TEN, sixty, out="AGREE")

    def test_the_tick_that_fails(self):
        slow, fast = ticks(TEN), ticks(SIXTY)
        for number, part in ((7, "at sixty"), (12, "at ten")):
            wrong = list(fast)
            wrong[number] = (fast[number][0], fast[number][1] + 1)
            heads = "time (s),input (nV/V),fraction (billionths)"
            text = table(wrong, heads, ",", lambda n, v, q: (f"{n / 60:.3f}", str(v), str(q)))
            path = self.file("sixty", text)
            said, _ = self.compare(
                1,
                TEN,
                path,
                out=(
                    f"DIFFER: the first tick that fails is {number} at sixty a second, time {number / 60:.3f}, {path}:{number + 2}\n",
                    f"at sixty: input {fast[number][0] / 1e6:.7g} mV/V, shows ",
                    f"({fast[number][1] + 1} billionths)\n",
                    f"({fast[number][1]} billionths) at ",
                    part,
                ),
            )
            self.assertEqual(f"tick {number // 6}, {TEN}:{number // 6 + 1}" in said, number % 6 == 0)
        wrong = [(v, q + (n == 3)) for n, (v, q) in enumerate(slow)]
        ten = self.file("ten", "".join(f"{v} {q}\n" for v, q in wrong))
        self.compare(1, ten, SIXTY, out=("DIFFER: the first tick that fails is 18 at sixty a second, 0.3000 s", f"{ten}:4\n"))
        far = self.file("far", "".join(f"{v if n != 8 else 9000000} {q}\n" for n, (v, q) in enumerate(fast)))
        self.compare(1, TEN, far, out=("fails is 8 ", "reading: refused: 14"))

    def test_long_recordings(self):
        """More ticks than a line of the console holds."""
        inputs = [n * 37 % 2000000 for n in range(6 * 500)]
        shown = [got.fraction for got in readings.of(read_image(CELL), inputs)]
        for wrong in (None, 0, 479, 480, 481, 2999):
            rows = [(v, q + (n == wrong)) for n, (v, q) in enumerate(zip(inputs, shown))]
            fast = self.file("fast", "".join(f"{v},{q}\n" for v, q in rows))
            slow = self.file("slow", "".join(f"{v},{q}\n" for v, q in zip(inputs[::6], shown[::6])))
            part = "AGREE: 500 ticks at ten a second, 3000 at sixty" if wrong is None else f"fails is {wrong} at sixty"
            self.compare(0 if wrong is None else 1, slow, fast, out=part)

    def test_lists_that_cannot_be_of_one_run(self):
        short = self.file("short", "".join(f"{v} {q}\n" for v, q in ticks(SIXTY)[:-1]))
        self.compare(1, TEN, short, err="refused: 26 at ticks 29: 5 ticks at ten a second, 29 at sixty, which is not six times")
        self.compare(1, TEN, TEN, err="refused: 26 at ticks 5: ")
        self.gives(1, "compare", sample("damaged.kind1"), TEN, SIXTY, err="refused: 2")

    def test_not_understood(self):
        for text, part in (
            ("1\n", "1 cell without heads"),
            ("1 2 3\n", "3 cells without heads"),
            ("input,fraction\n1\n", "1 cell, where others have 2"),
            ("input (mV/V),fraction (%)\n0.0000001,1\n", "no whole number of nV/V"),
            ("input (mV/V),fraction (%)\n0.1,0.00000001\n", "no whole number of billionths"),
            ("input,shown (N)\n1,0.0000001\n", "no whole number of billionths"),
            ("input,shown (Pa)\n1,1\n", "not understood"),
            ("input,signal,shown\n1,1,1\n", "may each be the input"),
            ("a,b\n1,1\n", "there are no columns like"),
            ("input,shown\nx,1\n", "'x' is no number"),
            ("1 2\nx y\n", "cert:2: "),
        ):
            self.compare(2, self.file("cert", text), SIXTY, err=part)
        self.compare(3, self.path("nope"), SIXTY, err="cannot read")

    def test_make(self):
        inputs = self.file("inputs", "input (mV/V)\n" + "".join(f"{n / 10}\n" for n in range(12)))
        ten, sixty = self.path("ten"), self.path("sixty")
        self.gives(0, "compare", CELL, ten, sixty, "--make", inputs, out=("ten: written, 2 ticks\n", "sixty: written, 12 ticks\n"))
        self.compare(0, ten, sixty, out="AGREE: 2 ticks")
        lines = self.bytes("sixty").decode().splitlines()
        self.assertEqual(lines[:2], ["time (s),input (nV/V),fraction (billionths)", "0.0000,0,0"])
        self.assertEqual(lines[11].split(",")[:2], ["0.1667", "1000000"])
        self.assertEqual(lines[11].split(",")[2], "500400001")
        self.gives(3, "compare", CELL, ten, sixty, "--make", inputs, err="--force")
        self.gives(0, "compare", CELL, ten, sixty, "--make", inputs, "--force")
        self.gives(2, "compare", CELL, ten, inputs, "--make", inputs, "--force", err="is the file that is read")
        self.gives(2, "compare", CELL, CELL, sixty, "--make", inputs, "--force", err="is the file that is read")
        self.gives(2, "compare", CELL, self.path("a"), self.path("b"), "--make", self.file("five", "1\n" * 5), err="no multiple of six")
        far = self.file("far", "1\n" * 5 + "9000000\n")
        self.gives(1, "compare", CELL, self.path("a"), self.path("b"), "--make", far, err="input 6, 9 mV/V: refused: 14")
        self.assertFalse(os.path.exists(self.path("a")) or os.path.exists(self.path("b")))


class Span(support.Case):
    def test_what_is_told_of_a_tick(self):
        """44.3064 % of 2 mV/V, and the correction between the points at 40 and 60 %, 0.042 and 0.038 %."""
        lines = self.lines_of(SIXTY)
        lines[8] = lines[8].split(" ")[0] + " 200000000"
        self.gives(
            1,
            "compare",
            CELL,
            TEN,
            self.file("sixty", "\n".join(lines) + "\n"),
            out=(
                "DIFFER: the first tick that fails is 8 at sixty a second, 0.1333 s, ",
                "  at sixty: input 0.886128 mV/V, shows 20 % (200000000 billionths)\n",
                "  reading:  44.3475388 % (443475388 billionths) at 0.886128 mV/V\n",
            ),
        )
        position, low = Decimal("44.3064"), Decimal("40.00032")
        wanted = position + Decimal("0.042") - Decimal("0.004") * (position - low) / Decimal("20.00016")
        self.assertAlmostEqual(float(wanted), 44.3475388, places=6)

    def lines_of(self, path):
        with open(path, encoding="ascii") as file:
            return file.read().splitlines()

    def test_a_span_that_does_not_begin_at_nought(self):
        """-5000 to 5000 N: a figure of F newtons is (F + 5000) times 100,000 billionths."""
        chip, inputs = sample("many-points.kind2"), self.file("in", "input (mV/V)\n-3\n-2\n-1\n0\n1.5\n3\n")
        ten, sixty = self.path("ten"), self.path("sixty")
        self.gives(0, "compare", chip, ten, sixty, "--make", inputs, out=("1 tick\n", "6 ticks\n"))
        for path in (ten, sixty):
            rows = [line.split(",") for line in self.bytes(path).decode().splitlines()[1:]]
            figures = [f"{given},{Decimal(fraction) / 100000 - 5000}\n" for _, given, fraction in rows]
            self.file(path, "input (nV/V),figure (N)\n" + "".join(figures))
        self.gives(0, "compare", chip, ten, sixty, out="AGREE: 1 tick at ten a second, 6 at sixty; each shows its input's reading\n")
        self.file(sixty, self.bytes(sixty).decode().replace("-3000000,-5000", "-3000000,-4999"))
        self.gives(1, "compare", chip, ten, sixty, out=("DIFFER: the first tick that fails is ", "0.01 % (100000 billionths)"))


if __name__ == "__main__":
    support.unittest.main()
