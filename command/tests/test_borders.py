"""Borders of what is read and shown: a figure at a limit, a field at a page's end, a line that is nearly another."""
from types import SimpleNamespace

import support
from dartelm.command import why
from support import sample

CELL = sample("load-cell.kind1")


class Borders(support.Case):
    def sheet(self, old, new):
        """The load cell's sheet with one line changed."""
        text, _ = self.gives(0, "export", CELL)
        self.assertEqual(text.count(f"{old}\n"), 1)
        return self.file("sheet", text.replace(f"{old}\n", f"{new}\n"))

    def test_a_sheet_that_needs_more_than_its_kind_has(self):
        # Document 01: the stream of kind 0 has 39 bytes.
        said = "refused: 11 at bits 709: the stream has fewer bits than the sheet needs; kind 0 has 312\n"
        self.gives(1, "make", self.sheet("kind = 1", "kind = 0"), "-o", self.path("chip"), err=said)

    def test_a_point_that_is_no_figure(self):
        wrong = self.sheet("point = 0 %, 0 %", "point = x %, 0 %")
        self.gives(2, "make", wrong, "-o", self.path("chip"), err=f"{wrong}:25: point: 'x %' is no number in %\n")

    def test_initials_of_one_mark(self):
        wrong = self.sheet("calibration initials = J.K", 'calibration initials = "')
        self.gives(2, "make", wrong, "-o", self.path("chip"), err="""calibration initials: '"' cannot stand there""")

    def test_the_points_of_a_report(self):
        said, _ = self.gives(0, "report", CELL, "-o", "-")
        self.assertIn("<h2>6 calibration points, electrical domain</h2>", said)
        said, _ = self.gives(0, "report", sample("oil-pressure.kind0"), "-o", "-")
        self.assertNotRegex(said, "<h2>[^<]*calibration point")

    def test_a_comment_with_a_number(self):
        table = "Point (%),Deviation (%)\n0,0\n{}\n99.99927,-0.021\n"
        for line in ("# 20,checked", "# checked,20"):
            self.gives(1, "certificate", CELL, self.file("c.csv", table.format(line)), out="2 rows")
        self.gives(2, "certificate", CELL, self.file("c.csv", table.format("# 20,0.1")), err="a comment that looks like a row")

    def test_a_pressure_at_ten_thousand(self):
        for given, shown in (("9999.5Pa", "9999.5 Pa"), ("10000Pa", "10 kPa"), ("10000.5Pa", "10.0005 kPa")):
            chip = self.path("chip")
            self.gives(0, "set", sample("brake-pressure.kind1"), f"max phys={given}", "--level", "maker", "-o", chip, "--force")
            self.gives(0, "show", chip, out=f"8 maximum physical value {shown}\n")

    def test_a_field_over_the_end_of_a_page(self):
        # A page has 31 bytes of the stream, 248 bits.
        image = SimpleNamespace(kind=1)
        for offset, length, pages in ((0, 248, {0}), (0, 249, {0, 1}), (247, 2, {0, 1}), (248, 1, {1}), (240, 9, {0, 1})):
            self.assertEqual(why.pages_of(image, offset, length), pages)
        self.assertEqual(why.pages_of(SimpleNamespace(kind=0), 240, 9), {0})
