"""Curve senders: made and exported, shown, read and drawn."""
import os

import support
from support import sample

CURVE = "segment = 0 %\nterm = 0, 0.01\nterm = 1, -0.002\nterm = 2, 0.00001\nsegment = 49.9995 %\nterm = 0, 0.02\n"


class Curves(support.Case):
    def setUp(self):
        super().setUp()
        sheet, _ = self.gives(0, "export", sample("load-cell.kind1"))
        self.head = "".join(line + "\n" for line in sheet.splitlines() if not line.startswith(("point", "domain")))
        self.gives(0, "make", self.file("sheet", self.head + CURVE), "-o", self.path("curve"))
        self.chip = self.path("curve")

    def made(self, status, curve, **said):
        self.gives(status, "make", self.file("sheet", self.head + curve), "-o", self.path("new"), "--force", **said)
        self.assertEqual(os.path.exists(self.path("new")), status == 0)

    def test_made_and_exported(self):
        said, _ = self.gives(0, "export", self.chip)
        for line in CURVE.splitlines():
            self.assertIn(line, said)
        self.gives(0, "make", self.file("again", said), "-o", self.path("new"))
        self.assertEqual(self.bytes("new"), self.bytes("curve"))

    def test_refused_with_the_line(self):
        term, first = "term = 0, 0.02\n", 25
        for curve, line, part in (
            (CURVE.replace("term = 2, ", "term = 6, "), first + 3, "refused: 24 at place 2"),
            (CURVE.replace("term = 1", "term = 0"), first + 2, "24 at place 1"),
            (CURVE.replace("49.9995", "0"), first + 4, "24 at place 1"),
            (CURVE.replace("49.9995", "101"), first + 4, "10 at place 1"),
            (CURVE.replace("0 %", "1 %", 1), first, "24 at place 0"),
            (CURVE.replace("-0.002", "1e39"), first + 2, "10 at place 1"),
            (CURVE.replace(term, "segment = 60 %\n"), first + 4, "24 at place 1"),
        ):
            self.made(1, curve, err=(f"sheet:{line}: refused: ", part))
        self.made(1, "".join(f"segment = {n} %\n{term}" for n in range(21)), err="sheet: refused: 24 at place 21")
        self.made(
            1,
            "".join(f"segment = {n} %\n" + "".join(f"term = {m}, 1\n" for m in range(6)) for n in range(6)),
            err="sheet: refused: 25 at terms 36",
        )

    def test_what_goes_to_a_step(self):
        self.made(0, CURVE.replace("49.9995", "50"), out="segment 1 50 % 49.9995 % -0.0005 %\n")
        self.made(0, CURVE.replace("-0.002", "-0.002000000123"), out="term 1 -0.002000000123 -0.002 1.23e-10\n")

    def test_shown_read_and_drawn(self):
        self.gives(
            0,
            "show",
            self.chip,
            "--curve",
            *support.TODAY,
            out=(
                "2 segments and 4 terms",
                "0  from 0 %: 0.01 x^0, -0.002 x^1, 0.00001 x^2",
                "1  from 49.9995 %: 0.02 x^0",
                "correction over the span, in N:",
                "+1 N |",
            ),
        )
        self.gives(
            0,
            "read",
            self.chip,
            "0.4mV/V",
            "1.6mV/V",
            "--dash",
            "small",
            out=("998.6999999 N", "20 %", "-1.3 N", "4001 N", "80 %", "+1 N"),
        )
        self.gives(0, "read", self.chip, "--table", "9")
        self.gives(0, "report", self.chip, "-o", self.path("page.html"))
        self.assertIn("<svg", self.bytes("page.html").decode())
        self.assertIn("from 49.9995", self.bytes("page.html").decode())

    def test_the_steepest_curve(self):
        """3 10^38 x^5 at 100 % is 3 10^48 % of the span: its figures are finite, and drawn."""
        self.made(0, CURVE.replace("0.00001", "3e38").replace("term = 2", "term = 5"))
        self.gives(0, "show", self.path("new"), "--curve", out="correction over the span, in ")
        self.gives(0, "read", self.path("new"), "--table", "5", out=" of the span")
        self.gives(0, "report", self.path("new"), "-o", self.path("page.html"))
        self.assertEqual(self.bytes("page.html").count(b"<polyline"), 2)


if __name__ == "__main__":
    support.unittest.main()
