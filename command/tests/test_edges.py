"""Edges of what is judged: a bound that equals its tolerance, a span that falls, a tenth of a per cent."""
from fractions import Fraction
from types import SimpleNamespace

import support
from dartelm.command import bounds, certificate
from dartelm.command.image import read_image, read_sheet
from support import sample

CELL = sample("load-cell.kind1")


def cell_sheet(low=0.0, high=5000.0):
    """The load cell's sheet with another physical span."""
    sheet = read_sheet(read_image(CELL))
    sheet.values[7], sheet.values[8] = low, high
    return sheet


class Bounds(support.Case):
    def test_a_bound_that_equals_its_tolerance(self):
        bound = bounds.Bound(cell_sheet(), Fraction(516))
        for off, within in ((0, True), (1, True), (-1, False)):
            figure = bound.physical() + Fraction(off, 10**30)
            newtons = SimpleNamespace(unit_is_percent=lambda _: False, figure=lambda _, figure=figure: figure)
            self.assertEqual(bound.is_within(newtons), within)
        for text, within in (("0.0000516%", True), ("0.00005159%", False), ("0.00005161%", True)):
            self.assertEqual(bound.is_within(bounds.Tolerance(text)), within)

    def test_newtons_as_a_share_of_the_span(self):
        """2 N of 5000 N are 400,000 billionths; of a span of nothing there is no share."""
        for low, high, share in (
            (0.0, 5000.0, 400000),
            (5000.0, 0.0, 400000),
            (-5000.0, 5000.0, 200000),
            (2500.0, 5000.0, 800000),
            (7.0, 7.0, 0),
        ):
            self.assertEqual(bounds.Bound(cell_sheet(low, high), Fraction(1)).allowed(bounds.Tolerance("2N")), share, (low, high))
        self.assertEqual(bounds.Bound(cell_sheet(), Fraction(1)).allowed(bounds.Tolerance("0.05%")), 500000)

    def test_a_tolerance_of_nothing(self):
        unit = bounds.Bound(cell_sheet(), Fraction(1)).unit
        self.assertEqual(bounds.Tolerance("0N").figure(unit), 0)
        self.assertRaises(support.main.Trouble, bounds.Tolerance("-0.001N").figure, unit)

    def test_two_digits_upward(self):
        for figure, wanted in (
            (0, "0"),
            (1, "1"),
            (Fraction(1001, 1000), "1.1"),
            (Fraction(99, 1), "99"),
            (Fraction(991, 10), "100"),
            (Fraction(1, 3000), "0.00034"),
        ):
            self.assertEqual(bounds.upward(figure), bounds.EXACT.create_decimal(wanted))

    def test_a_tenth_of_a_per_cent(self):
        """1,000,000 billionths. With a tolerance it is no matter how far off a chip could be."""
        beside = object.__new__(certificate.AgainstTable)
        for billionths, tolerance, is_open in (
            (1000000, None, False),
            (1000001, None, True),
            (1000001, "2N", False),
            (Fraction(1000000) + Fraction(1, 2000), None, True),
        ):
            beside.told_bound, beside.tolerance = SimpleNamespace(billionths=billionths), tolerance
            self.assertEqual(beside.is_open(), is_open)

    def test_what_storing_explains(self):
        """A chip may be as far off as one that is built from the points could be."""
        beside = object.__new__(certificate.AgainstTable)
        beside.tolerance, beside.told_bound = None, SimpleNamespace(billionths=517)
        for billionths, agrees in ((516, True), (517, True), (518, False)):
            beside.own_bound = SimpleNamespace(billionths=billionths)
            self.assertEqual(beside.agrees(), agrees)
            for off in (billionths, -billionths):
                self.assertEqual(beside.within(SimpleNamespace(difference=off)), agrees)

    def test_a_deviation_is_no_error(self):
        scale = certificate.Scale(cell_sheet())
        for point, deviation, turned, wanted in (
            ("20 %", "0.015 %", (), (200000000, 150000)),
            ("20 %", "0.015 %", (True,), (200000000, -150000)),
            ("1000 N", "0.75 N", (), (200000000, 150000)),
            ("1000 N", "0.75 N", (True,), (200000000, -150000)),
        ):
            self.assertEqual(scale.pair(point, deviation, *turned), wanted)

    def test_a_certificate_of_many_points_beside_a_table_against_the_physical_figure(self):
        """Forty points need more than the 992 bits of the sender's own chip."""
        rows = "".join(f"{2.5 * n},0\n" for n in range(40))
        self.gives(1, "certificate", sample("torque.kind1"), self.file("cert", "point (%),deviation (%)\n" + rows), out="DIFFERS: ")


if __name__ == "__main__":
    support.unittest.main()
