"""Figures at the edges of their forms: prefixes, powers of ten, numbers that no call takes, the chips that are built to ask."""
import decimal
from fractions import Fraction
from unittest import mock

import support
from dartelm import calls
from dartelm.command import image, measurands, readings, singles, storing, units
from dartelm.command.image import read_sheet
from dartelm.command.trouble import Refusal, Trouble
from support import sample

CELL = sample("load-cell.kind1")
# Document 000: the least value of each field, in the call's counts; a measurand from 0 to 1, no deviation from nought else.
LEAST = {1: 17, 2: 0, 3: 1, 4: 0, 5: 0, 6: 0, 7: 0.0, 8: 1.0}
LEAST_BRIDGE = {12: 0, 13: 10, 14: 100, 15: 1, 16: 1, 17: 1, 18: 0, 19: 0, 20: 0, 21: 0}
LEAST_RESISTANCE = {12: 0, 13: 100, 14: 10000, 15: 10000, 16: 0, 17: 0, 18: 0, 19: 0}


def number(text):
    return decimal.Decimal(text)


class Units(support.Case):
    def test_prefixes(self):
        """Up to but not at 1000 of a unit, or 10,000 where a measurand says so."""
        for unit, figure, shown in (
            (units.SECOND, "0.0009999", "999.9 us"),
            (units.SECOND, "0.001", "1 ms"),
            (units.SECOND, "-0.001", "-1 ms"),
            (units.SECOND, "0.9999", "999.9 ms"),
            (units.SECOND, "1", "1 s"),
            (units.SECOND, "1000", "1000 s"),
            (units.AMPERE, "0.0009999", "999.9 uA"),
            (units.AMPERE, "0.001", "1 mA"),
            (units.AMPERE, "1", "1 A"),
            (units.VOLT, "1000", "1000 V"),
            (units.OHM, "10000", "10000 ohm"),
            (units.RATIO, "1000", "1000000 mV/V"),
            (units.PERCENT, "1000", "1000 %"),
            (units.DAY, "4095", "4095 days"),
        ):
            self.assertEqual(units.in_unit(number(figure), unit), shown)
        for code, name in ((4, "N"), (10, "Nm"), (12, "Pa"), (26, "Hz"), (45, "W")):
            for figure, shown in (
                ("9999.9", f"9999.9 {name}"),
                ("10000", f"10 k{name}"),
                ("-10000", f"-10 k{name}"),
                ("9999900", f"9999.9 k{name}"),
                ("10000000", f"10 M{name}"),
                ("1e12", f"1000000 M{name}"),
            ):
                self.assertEqual(units.in_unit(number(figure), measurands.unit_of(code)), shown)
        for code in (0, 5, 13, 14, 41, 43):
            unit = measurands.unit_of(code)
            self.assertEqual(units.in_unit(number("1000000"), unit), f"1000000 {unit.name}")

    def test_powers_of_ten(self):
        """From 10^-9 to below 10^16 a figure is written out."""
        for figure, shown in (
            ("0.000000001", "0.000000001"),
            ("0.0000000009", "9e-10"),
            ("-0.0000000009", "-9e-10"),
            ("1e15", "1000000000000000"),
            ("9.5e15", "9500000000000000"),
            ("1e16", "1e+16"),
            ("0", "0"),
            ("0.00", "0"),
            ("100", "100"),
            ("1.500", "1.5"),
        ):
            self.assertEqual(units.plain(number(figure)), shown)

    def test_a_comma(self):
        self.assertRaisesRegex(
            Trouble,
            "^x: '1,5,5 ohm' has a comma; write it with a decimal point, as 1[.]5,5 ohm$",
            units.figure_of,
            " 1,5,5 ohm",
            units.OHM,
            "x",
        )

    def test_a_figure_without_a_unit(self):
        for unit, example in (
            (units.SECOND, "5us"),
            (units.AMPERE, "5uA"),
            (units.RATIO, "5mV/V"),
            (units.DAY, "5days"),
            (measurands.unit_of(4), "5N"),
        ):
            self.assertRaisesRegex(Trouble, f", as {example}$", units.figure_of, "5", unit, "x")

    def test_units_that_are_named(self):
        """A unit, its prefixes, and three others of its quantity."""
        for unit, said in (
            (units.DAY, "days"),
            (units.VOLT, "V, mV or kV"),
            (measurands.unit_of(0), "K"),
            (measurands.unit_of(41), "V, mV, kV or MV"),
            (measurands.unit_of(7), "m/s², g, ft/s2 or ft/s²"),
            (measurands.unit_of(33), "kg/s, kg/h, g/s or kg/min"),
            (measurands.unit_of(28), "kg/m³, g/l, kg/l or g/cm3"),
        ):
            self.assertEqual(unit.takes(), said)

    def test_inputs_that_no_call_takes(self):
        """2^63 - 1 nV/V is asked for, and refused as no sender's; 2^63 is not asked for."""
        for sign in ("", "-"):
            self.gives(1, "read", CELL, f"{sign}9223372036.854775807V/V", out="refused: 14 at ")
            for figure in ("9223372036.854775808", "9223372036.854775809", "99223372036.854775808"):
                self.gives(2, "read", CELL, f"{sign}{figure}V/V", err="is far outside what it counts\n")

    def test_counts(self):
        for figure, exponent, count in (("2.5", -1, 25), ("-2.5", -1, -25), ("0", -9, 0), ("25", 0, 25)):
            self.assertEqual(units.counted(number(figure), exponent, units.VOLT, ""), count)
        for figure, count in ((Fraction(5, 2), 3), (Fraction(-5, 2), -2), (Fraction(249, 100), 2), (Fraction(-251, 100), -3)):
            self.assertEqual(units.nearest_count(figure, 0, ""), count)

    def test_digits_of_a_float(self):
        self.assertEqual(units.float_text(1 / 3), number("0.3333333333"))
        self.assertEqual(units.float_text(2 / 3, 4), number("0.6667"))

    def test_one_and_more(self):
        self.assertEqual([units.many(count, "row") for count in (0, 1, 2)], ["0 rows", "1 row", "2 rows"])


class Singles(support.Case):
    def test_digits(self):
        """The shortest decimal that is stored as a Single: up to nine digits."""
        for bits, digits in (
            (0x3DCCCCCD, "0.1"),
            (0x3F800001, "1.0000001"),
            (0x4120000B, "10.0000105"),
            (0x4B800001, "16777218"),
            (1, "1e-45"),
            (0x7F7FFFFF, "3.4028235e38"),
            (0x0F800001, "1.2621776e-29"),
            (0, "0"),
        ):
            self.assertEqual(singles.digits(singles.as_float(bits)), number(digits))

    def test_rounded_twice(self):
        """A decimal a hair off the middle of two Singles, which a float has as the middle."""
        for text, bits in (
            ("1.00000005960464477539062501", 0x3F800001),
            ("1.000000059604644775390625", 0x3F800000),
            ("1.00000005960464477539062499", 0x3F800000),
            ("1.00000017881393432617187501", 0x3F800002),
            ("1.00000017881393432617187499", 0x3F800001),
            ("-1.00000005960464477539062501", 0xBF800001),
        ):
            self.assertEqual(singles.nearest(number(text)), singles.as_float(bits), text)


class Asked(support.Case):
    """Chips that are built to ask a proved call, and are no sender's."""

    def test_a_plain_chip(self):
        for template, precision, ends in (
            (33, 0, (0, 1000)),
            (33, 1, (0, 1000)),
            (33, 2, (0.0, 1.0)),
            (32, 0, (0, 1000)),
            (32, 1, (0, 1000)),
            (32, 2, (0, 1000)),
            (32, 3, (0.0, 1.0)),
        ):
            sheet = image.plain_sheet(template, precision)
            wanted = {**LEAST, 9: precision, 10: ends[0], 11: ends[1], **(LEAST_BRIDGE if template == 33 else LEAST_RESISTANCE)}
            self.assertEqual((sheet.template, sheet.values), (template, wanted))
            self.assertEqual([type(sheet.values[n]) for n in (10, 11)], [type(end) for end in ends])
            self.assertEqual(
                (sheet.kind, sheet.text, sheet.domain, sheet.points, sheet.segments, sheet.terms),
                (1, None, None, [], [], []),
            )

    def test_what_is_stored_for_a_point(self):
        """One point against the electrical figure without a deviation, one deviation at nought, a second segment of one term."""
        for call, parts, asked, index, member in (
            (storing.points, {"domain": 0, "points": [(7, 0)]}, calls.pair, 0, "point"),
            (storing.deviations, {"domain": 0, "points": [(0, 7)]}, calls.pair, 0, "deviation"),
            (storing.starts, {"segments": [(0, 1), (7, 1)], "terms": [(0, 1.0), (0, 1.0)]}, calls.segment, 1, "start"),
        ):
            with mock.patch.object(storing, "read_back", return_value=9) as read:
                self.assertEqual(call([7]), [9])
            self.assertEqual(read.call_args[0], (parts, asked, index, member))
            with mock.patch.object(storing, "build", side_effect=Refusal(10, 0)) as made:
                self.assertEqual(call([7]), [None])
            sheet = made.call_args[0][0]
            self.assertEqual((sheet.template, sheet.values[9], sheet.kind), (33, 0, 1))

    def test_ties_go_upward(self):
        for below, above, count, geometric, nearer in (
            (4, 9, 6, True, True),
            (4, 9, Fraction(59, 10), True, False),
            (4, 9, Fraction(13, 2), False, True),
            (4, 9, Fraction(64, 10), False, False),
        ):
            self.assertEqual(storing.nearer(below, above, count, geometric), nearer)

    def test_a_reference(self):
        """A plain chip of its precision; of one that no template has, or without one, of precision 0."""
        for template, precision, taken in ((33, 1, 1), (33, 2, 2), (33, 7, 0), (33, None, 0), (32, 3, 3), (32, 4, 0)):
            reference = storing.Reference(template, precision)
            self.assertEqual((reference.sheet.template, reference.sheet.values[9]), (template, taken))

    def test_the_rulers_chip(self):
        """From 0 to 1 V/V in steps of 1 mV/V; what no reading needs is the least or missing."""
        sheet = read_sheet(readings.Ruler(2.0, 3.0).image)
        wanted = {**LEAST, 7: 2.0, 8: 3.0, 9: 0, 10: 0, 11: 10**9, 12: 0, **dict.fromkeys(range(13, 19)), 19: 0, 20: 0, 21: 0}
        self.assertEqual((sheet.template, sheet.values), (33, wanted))


if __name__ == "__main__":
    support.unittest.main()
