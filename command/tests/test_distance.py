"""distance, and make from a certificate: how far readings can stray is told before a chip is written."""
import os

import support
from dartelm.command import bounds
from dartelm.command.image import read_image, read_sheet
from support import sample, sample_bytes

CELL, CERT = sample("load-cell.kind1"), sample("load-cell.csv")
# Of the load cell's points the steepest slope is 0.03 % in 20 %, 1.5 thousandths, so that K is 2. B is 2000 + 1000 x 1000 +
# 2 x 15301, and B / 2000 is 516.301 billionths of the span: of 5000 N 0.0025815 N.
FARTHEST = "no reading of a chip built from these points is further from their line than 0.000052 % of the span, "


class Distance(support.Case):
    def test_spans(self):
        for span, figure in (
            ("0..5000N", "0.0026 N"),
            ("5000N", "0.0026 N"),
            ("5kN", "0.0026 N"),
            ("0 .. 5 kN", "0.0026 N"),
            ("-5000..5000N", "0.0052 N"),
            ("-5kN..5000N", "0.0052 N"),
            ("5000..0N", "0.0026 N"),
            (CELL, "0.0026 N"),
            ("500kgf", "0.00026 kgf"),
            ("1000lbf", "0.0023 N"),
            ("16MPa", "8.3 Pa"),
            ("160bar", "8.3 Pa"),
            ("-50..250\u00b0C", "0.00016 \u00b0C"),
        ):
            self.gives(0, "distance", CERT, "--span", span, out=("6 points\n", "6 rows\n", FARTHEST + figure + "\n"))
        sheet = self.file("sheet", self.gives(0, "export", CELL)[0])
        self.gives(0, "distance", CERT, "--span", sheet, out=FARTHEST + "0.0026 N\n")

    def test_the_part_of_the_float(self):
        """docs/PROMISES.md: 2^-53 of |least| + |greatest - least| (4 q + 1) / 10^9. The farthest q is 1.1 of the span, and the
        greatest deviation, 1.09715 of it."""
        sheet = read_sheet(read_image(sample("many-points.kind2")))
        for off in (0, 1, 516):
            wanted = support.Fraction(off * 10000, 10**9)
            wanted += (5000 + support.Fraction(10000 * (4 * 2197150000 + 1), 10**9)) / 2**53
            self.assertEqual(bounds.Bound(sheet, support.Fraction(off)).physical(), wanted)

    def test_figures_in_the_senders_unit(self):
        cert = self.file("cert", "load (kN),deviation (N)\n0,0\n1,0.75\n2,2.1\n3,1.9\n4,0.45\n5,-1.05\n")
        self.gives(0, "distance", cert, "--span", "5000N", out=FARTHEST + "0.0026 N\n")
        self.gives(2, "distance", cert, "--span", "5000Pa", err="not understood")
        self.gives(2, "distance", cert, "--span", "500N", err="nor within a tenth of it")
        grams = self.file("grams", "load (g),deviation (g)\n0,0\n100,0.01\n")
        self.gives(0, "distance", grams, "--span", "100g", out="0.000051 % of the span, 0.000051 g\n")
        self.gives(0, "distance", self.file("kg", "mass (kg),deviation (g)\n0,0\n0.1,0.01\n"), "--span", "100g", out="0.000051 g\n")

    def test_within(self):
        for tolerance, status, said in (
            ("0.0026N", 0, "WITHIN 0.0026N"),
            ("0.00258N", 1, "MORE THAN 0.00258N"),
            ("0.0000516301%", 0, "WITHIN"),
            ("0.00005163%", 1, "MORE THAN"),
        ):
            self.gives(status, "distance", CERT, "--span", "5000N", "--within", tolerance, out=said)
        for tolerance in ("2", "2Pa", "x", "-1N"):
            self.gives(2, "distance", CERT, "--span", "5000N", "--within", tolerance, err="--within")

    def test_refused(self):
        rows = "".join(f"{n / 2},0\n" for n in range(150))
        for text, part in (
            (
                "point %,deviation %\n0,0\n20,0\n101,0\n",
                "point 3: refused: 10 at place 2: 101 % is more than a chip can hold (100.26702 %)",
            ),
            ("point %,deviation %\n0,-105\n", "deviation -105 % is less than a chip can hold (-100 %)"),
            ("point %,deviation %\n" + rows, "150 points; a chip takes 127"),
            ("point %,deviation %\n0,0\n0,0\n", "point 2: refused: 7"),
        ):
            self.gives(1, "distance", self.file("cert", text), "--span", "5000N", err=part)
        for span in ("0..0N", "5000", "N", "0..", "..", "1e39N", "0..5x"):
            self.assertIn(self.run_here("distance", CERT, "--span", span)[0], (2, 3), span)
        self.gives(1, "distance", CERT, "--span", sample("damaged.kind1"), err="refused: 2")
        self.gives(3, "distance", self.path("nope"), "--span", "5N", err="cannot read")
        self.gives(2, "distance", CERT, err="--span")


class FromCertificate(support.Case):
    def setUp(self):
        super().setUp()
        sheet, _ = self.gives(0, "export", CELL)
        self.whole = self.file("whole", sheet)
        self.sheet = self.file(
            "sheet", "".join(line + "\n" for line in sheet.splitlines() if not line.startswith(("point", "domain")))
        )

    def test_made(self):
        newtons = self.file("newtons", "load (N);deviation (N)\n0;0\n1000;0,75\n2000;2,1\n3000;1,9\n4000;0,45\n5000;-1,05\n")
        for cert in (CERT, newtons):
            said, _ = self.gives(
                0,
                "make",
                self.sheet,
                "--certificate",
                cert,
                "-o",
                self.path("new"),
                "--force",
                out=("6 rows\n", FARTHEST + "0.0026 N\n", "point 1 20 %, +0.015 % 20.00016 %, +0.015 % +0.00016 %, 0 %\n"),
            )
            self.assertLess(said.index("no reading of"), said.index("field"))
            self.assertEqual(self.bytes("new"), sample_bytes("load-cell.kind1"))
        self.gives(0, "make", self.sheet, "--certificate", CERT, "--within", "1N", "--dry-run")

    def test_refused(self):
        new = ("-o", self.path("new"))
        self.gives(1, "make", self.sheet, "--certificate", CERT, "--within", "0.001N", *new, err="MORE THAN 0.001N")
        self.gives(1, "make", self.sheet, "--certificate", CERT, "--exact", *new, err="point 1: 20 %, +0.015 % is stored as")
        self.gives(2, "make", self.whole, "--certificate", CERT, *new, err="points of its own")
        curve, _ = self.gives(0, "export", sample("exhaust-pressure.kind1"))
        self.gives(2, "make", self.file("curve", curve), "--certificate", CERT, *new, err="a curve of its own")
        self.gives(2, "make", self.sheet, "--within", "1N", *new, err="--within needs --certificate")
        cert = self.file("cert", "point %,deviation %\n0,0\n101,0\n")
        self.gives(1, "make", self.sheet, "--certificate", cert, *new, err="point 2: refused: 10 at place 1: 101 % is more")
        self.gives(2, "make", self.sheet, "--certificate", self.file("two", "point,deviation,error\n"), *new, err="may each be")
        self.assertFalse(os.path.exists(self.path("new")))


if __name__ == "__main__":
    support.unittest.main()
