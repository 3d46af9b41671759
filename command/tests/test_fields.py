"""Names, units and figures: what is shown is understood again, and names are the console's."""
import decimal
import struct
import subprocess
import unittest

import support
from dartelm.command import measurands, singles, units
from dartelm.command.fields import FIELDS, Around, field_named
from dartelm.command.trouble import Trouble


class Names(support.Case):
    def test_the_console_shows_the_same_names(self):
        for name in ("load-cell.kind1", "temperature.kind1"):
            data = support.sample_bytes(name)
            said = subprocess.run(
                [support.HOME + "/bin/console", "show", "1", data.hex()], capture_output=True, text=True, check=True
            ).stdout
            found = [line[3:].split(": ")[0] for line in said.splitlines() if line[:2].strip().isdigit()]
            template = 33 if "template: 33" in said else 32
            self.assertEqual(found, [field.name for field in FIELDS[template]])

    def test_words_that_fit_one_field(self):
        for words, number in (
            ("impedance", 13),
            ("Impedance", 13),
            ("date", 18),
            ("calibration date", 18),
            ("13", 13),
            (" 9 ", 9),
            ("maker", 1),
            ("least electrical", 10),
            ("greatest_physical", 8),
            ("max phys", 8),
            ("nominal", 15),
            ("minimum electrical value", 10),
            ("excitation level, minimum", 16),
            ("serial", 5),
            ("letter", 3),
        ):
            self.assertEqual(field_named(33, words).number, number, words)
        self.assertEqual(field_named(32, "date").number, 16)
        self.assertEqual(field_named(32, "mapping").number, 12)

    def test_words_that_fit_none_or_more(self):
        for words, part in (
            ("excitation", "fits"),
            ("version", "fits"),
            ("impedence", "did you mean"),
            ("zzz", "there is no field"),
            ("22", "1 to 21"),
            ("0", "1 to 21"),
            ("", "there is no field"),
        ):
            with self.assertRaises(Trouble) as caught:
                field_named(33, words)
            self.assertIn(part, str(caught.exception))


class Values(support.Case):
    def by(self, template, precision):
        return Around(template, 4, precision)

    def again(self, template, number, precision, value):
        field, by = FIELDS[template][number - 1], self.by(template, precision)
        text = field.shown(value, by)
        self.assertEqual(field.parsed(text, by), value, f"{field.name}: {text}")

    def test_stepped_figures_are_understood_again(self):
        for template, number, precision, figures in (
            (33, 10, 0, range(-(10**9), 1046 * 10**6 + 1, 31 * 10**6)),
            (33, 11, 1, range(-6550000, 6557150, 48225)),
            (33, 13, 0, range(10, 262153, 1237)),
            (33, 15, 0, range(1, 512)),
            (32, 10, 1, range(0, 1022001, 1000)),
            (33, 20, 0, range(0, 4096, 7)),
            (33, 18, 0, range(0, 65535, 997)),
            (33, 19, 0, range(0, 1 << 15, 331)),
            (33, 3, 0, range(1, 27)),
            (33, 6, 0, range(46)),
            (33, 12, 0, range(3)),
            (32, 12, 0, range(4)),
            (33, 14, 0, range(100, 791180997, 6543211)),
            (32, 14, 0, range(10000, 10**9, 7654321)),
        ):
            for figure in figures:
                self.again(template, number, precision, figure)

    def test_singles_are_understood_again(self):
        chance = support.random.Random(1)
        for _ in range(1000):
            value = support.random_single(chance)
            self.again(33, 7, 0, value)
            self.again(33, 10, 2, value)
            self.again(32, 11, 3, value)
        self.again(33, 7, 0, None)

    def test_the_nearest_single(self):
        for text, bits in (
            ("0.1", 0x3DCCCCCD),
            ("16777217", 0x4B800000),
            ("16777219", 0x4B800002),
            ("1e-45", 1),
            ("0", 0),
            ("-0", 0x80000000),
            ("7e-46", 0),
            ("7.1e-46", 1),
            ("3.4028235e38", 0x7F7FFFFF),
            ("3.5e38", 0x7F800000),
            ("-1e39", 0xFF800000),
            ("1.00000017881393432617187499", 0x3F800001),
            ("1.00000017881393432617187500", 0x3F800002),
        ):
            self.assertEqual(struct.pack(">f", singles.nearest(decimal.Decimal(text))).hex(), f"{bits:08x}", text)

    def test_every_measurand_is_found_by_its_unit(self):
        self.assertEqual(len(measurands.CASES), 46)
        for code, (_, unit) in enumerate(measurands.CASES):
            self.assertEqual(measurands.code_of(unit.name), code)

    def test_what_is_written_in_another_way(self):
        by = self.by(33, 1)
        for number, text, value in (
            (13, "350.5ohm", 3505),
            (13, "350.55ohm", 3506),
            (13, "350.54ohm", 3505),
            (13, "0.35 kohm", 3500),
            (13, "350 \u03a9", 3500),
            (11, "2mV/V", 2000000),
            (11, "2000uV/V", 2000000),
            (11, "2000\u00b5V/V", 2000000),
            (11, "0.002V/V", 2000000),
            (11, "2000000nV/V", 2000000),
            (14, "1us", 100),
            (14, "1e-6s", 100),
            (15, "10V", 100),
            (15, "10000mV", 100),
            (20, "365d", 365),
            (20, "1 day", 1),
            (8, "5kN", 5000.0),
            (8, "5000N", 5000.0),
            (6, "Pa", 12),
            (6, "12", 12),
            (12, "full", 2),
            (12, "Full", 2),
            (18, "missing", None),
            (19, "AB", Trouble),
            (2, "007", 7),
        ):
            field = FIELDS[33][number - 1]
            if value is Trouble:
                self.assertRaises(Trouble, field.parsed, text, by)
            else:
                self.assertEqual(field.parsed(text, by), value, text)

    def test_what_is_not_understood(self):
        by = self.by(33, 1)
        for number, text, part in (
            (13, "351", "has no unit; write it in ohm"),
            (13, "351V", "not understood"),
            (13, "ohm", "no number"),
            (13, "1,5ohm", "has a comma; write it with a decimal point, as 1.5ohm"),
            (11, "2", "mV/V"),
            (11, "2mV", "not understood"),
            (15, "1e99V", "far outside"),
            (15, "1e999V", "no"),
            (18, "16.11.2026", "2018-01-02"),
            (18, "2026-02-30", "2018-01-02"),
            (19, "abc", "three of"),
            (3, "AA", "A to Z"),
            (2, "5ohm", "no unit"),
            (2, "-1", "whole"),
            (12, "whole", "quarter"),
            (6, "furlong", "temperature"),
            (8, "5000", "has no unit; write it in N"),
            (8, "5000Pa", "not understood"),
            (20, "1year", "days"),
            (7, "9" * 50 + "N", "no number"),
        ):
            with self.assertRaises(Trouble, msg=text) as caught:
                FIELDS[33][number - 1].parsed(text, by)
            self.assertIn(part, str(caught.exception))
            self.assertEqual(caught.exception.status, 2)


class Units(unittest.TestCase):
    def test_prefixes_move_the_point(self):
        for count, exponent, unit, text in (
            (100, -8, units.SECOND, "1 us"),
            (1003, -8, units.SECOND, "10.03 us"),
            (47248519, -8, units.SECOND, "472.48519 ms"),
            (791180996, -8, units.SECOND, "7.91180996 s"),
            (10000000, -10, units.AMPERE, "1 mA"),
            (-7500, -9, units.RATIO, "-0.0075 mV/V"),
            (0, -9, units.RATIO, "0 mV/V"),
            (262152, -1, units.OHM, "26215.2 ohm"),
        ):
            self.assertEqual(units.in_unit(units.uncounted(count, exponent), unit), text)
        self.assertEqual(units.percent(15300), "0.00153 %")
        self.assertEqual(units.percent(-1, True), "-0.0000001 %")
        self.assertEqual(units.percent(1000000000), "100 %")


if __name__ == "__main__":
    unittest.main()
