"""set and make store the nearest step to the figure as it is given, say so beforehand, and on request nothing but what is given."""
import os

import support
from dartelm.command import storing
from dartelm.command.fields import FIELDS, Around
from dartelm.command.trouble import Refusal
from support import sample

CELL = sample("load-cell.kind1")


class Nearest(support.Case):
    def stored(self, template, precision, number, text):
        """What the chip stores, or the refusal's number."""
        by = Around(template, 4, precision)
        field = FIELDS[template][number - 1]
        value = field.parsed(text, by)
        answer = storing.Reference(template, precision).propose(number, value)
        return f"no {answer.number}" if isinstance(answer, Refusal) else field.shown(answer.value, by)

    def test_steps(self):
        """By document 01: precision 0 has steps of 1,000,000 nV/V from -1,000,000,000, precision 1 of 25 from -6,550,000."""
        for precision, number, text, stored in (
            (0, 11, "2499999nV/V", "2 mV/V"),
            (0, 11, "2499999.5nV/V", "2 mV/V"),
            (0, 11, "2499999.999999nV/V", "2 mV/V"),
            (0, 11, "2500000nV/V", "3 mV/V"),
            (0, 11, "-2500000.0001nV/V", "-3 mV/V"),
            (0, 11, "-2500000nV/V", "-2 mV/V"),
            (0, 11, "1046000000nV/V", "1046 mV/V"),
            (0, 11, "1046000000.4nV/V", "no 10"),
            (0, 11, "-1000000000.4nV/V", "no 10"),
            (0, 11, "-999999999.6nV/V", "-1000 mV/V"),
            (1, 11, "2.00001mV/V", "2 mV/V"),
            (1, 11, "12.4nV/V", "0 mV/V"),
            (1, 11, "12.5nV/V", "0.000025 mV/V"),
            (1, 11, "12.49999999999999999999999nV/V", "0 mV/V"),
            (1, 11, "-12.5nV/V", "0 mV/V"),
            (1, 11, "-12.6nV/V", "-0.000025 mV/V"),
            (0, 13, "350.55ohm", "350.6 ohm"),
            (0, 13, "350.5499ohm", "350.5 ohm"),
            (0, 13, "0.99ohm", "no 10"),
            (0, 13, "26215.24ohm", "no 10"),
            (0, 15, "51.14V", "no 10"),
            (0, 15, "51.1V", "51.1 V"),
            (0, 15, "9.97V", "10 V"),
            (0, 20, "364.5days", "365 days"),
            (0, 20, "364.4days", "364 days"),
            (2, 11, "2.0000000001mV/V", "2 mV/V"),
        ):
            self.assertEqual(self.stored(33, precision, number, text), stored, text)

    def test_ratios(self):
        """Note 4: from 1 us on by 1.292, to the nearest 10 ns: 1.00, 1.29 and 1.67. Borders are the roots of the products of
        neighbours: 1.135782 and 1.467753 us."""
        for text, stored in (
            ("1.1357us", "1 us"),
            ("1.13578us", "1 us"),
            ("1.13579us", "1.29 us"),
            ("1.1358us", "1.29 us"),
            ("1.46us", "1.29 us"),
            ("1.46775us", "1.29 us"),
            ("1.46776us", "1.67 us"),
            ("0.999us", "no 10"),
        ):
            self.assertEqual(self.stored(33, 0, 14, text), stored, text)

    def test_points(self):
        """Points have steps of 15,300 billionths, deviations of 1,000: 0.000765 % and 0.00005 % are their first borders."""
        fraction = support.Fraction
        for count, stored in ((fraction("7649.9"), 0), (7650, 15300), (fraction("1002670200.4"), None), (fraction("-0.5"), None)):
            self.assertEqual(storing.points([storing.settled(count, storing.points)]), [stored])
        for count, stored in ((fraction("499.9"), 0), (500, 1000), (fraction("-500.1"), -1000), (-500, 0)):
            self.assertEqual(storing.deviations([storing.settled(count, storing.deviations)]), [stored])
        for count, stored in ((fraction("61499.5"), 0), (61500, 123000), (fraction("184499.999"), 123000)):
            self.assertEqual(storing.starts([storing.settled(count, storing.starts)]), [stored])

    def test_geometric_is_by_ratio(self):
        self.assertEqual([storing.nearer(100, 129, support.Fraction(n, 10), True) for n in (1135, 1136)], [False, True])
        self.assertEqual([storing.nearer(0, 25, support.Fraction(n, 10)) for n in (124, 125)], [False, True])


class Trial(support.Case):
    def setUp(self):
        super().setUp()
        self.sheet, _ = self.gives(0, "export", CELL)

    def edited(self, *changes):
        text = self.sheet
        for old, new in changes:
            self.assertIn(old, text)
            text = text.replace(old, new)
        return self.file("sheet", text)

    def test_set(self):
        words = ("set", CELL, "impedance=350.55ohm", "response=1.14us", "max phys=160bar", "measurand=Pa", "--level", "maker")
        told, _ = self.gives(
            0,
            *words,
            "--dry-run",
            out=(
                "field now given stored difference\n",
                "bridge element impedance 350 ohm 350.55 ohm 350.6 ohm +0.05 ohm\n",
                "response time 1 us 1.14 us 1.29 us +0.15 us\n",
                "maximum physical value 5000 N 160 bar = 16 MPa 16 MPa 0 MPa\n",
                "nothing is written (--dry-run)\n",
            ),
        )
        self.assertEqual(os.listdir(self.room), [])
        said, _ = self.gives(0, *words, "-o", self.path("new"))
        self.assertEqual(said.splitlines()[:5], told.splitlines()[:5])

    def test_set_with_what_is_refused(self):
        self.gives(
            1,
            "set",
            CELL,
            "maker=0",
            "impedance=0.96ohm",
            "bridge type=missing",
            "location=7",
            "precision=0",
            "--level",
            "maker",
            "--dry-run",
            out=(
                "manufacturer ID 1451 0 refused\n",
                "measurement location ID 12 7 7\n",
                "refused: 10 at field 1: manufacturer ID is 0; it has to be 17 to 16381\n",
                "refused: 10 at field 13: bridge element impedance is 0.96 ohm; it has to be 1 ohm to 26215.2 ohm\n",
                "refused: 9 at field 12: bridge type is missing, and has to have a value\n",
                "refused: 12 at field 9",
                "nothing is written (--dry-run)\n",
            ),
        )

    def test_make(self):
        sheet = self.edited(("= 350 ohm", "= 350.55 ohm"), ("40.00032 %, +0.042 %", "40.000000009 %, +0.04249 %"))
        told, _ = self.gives(
            0,
            "make",
            sheet,
            "--dry-run",
            out=(
                "field given stored difference\n",
                "bridge element impedance 350.55 ohm 350.6 ohm +0.05 ohm\n",
                "serial number 555 555\n",
                "point 2 40.000000009 %, +0.04249 % 40.00032 %, +0.0425 % +0.000319991 %, +0.00001 %\n",
                "nothing is written (--dry-run)\n",
            ),
        )
        self.assertEqual(os.listdir(self.room), ["sheet"])
        said, _ = self.gives(0, "make", sheet, "-o", self.path("new"))
        self.assertEqual(said.splitlines()[:28], told.splitlines()[:28])

    def test_make_with_what_is_refused(self):
        sheet = self.edited(("= 350 ohm", "= 30000 ohm"), ("ID = 1451", "ID = 16"), ("= 1 us", "= 1.14 us"))
        self.gives(
            1,
            "make",
            sheet,
            "--dry-run",
            out=(
                "manufacturer ID 16 refused it has to be 17 to 16381\n",
                "bridge element impedance 30000 ohm refused it has to be 1 ohm to 26215.2 ohm\n",
                "response time 1.14 us 1.29 us +0.15 us\n",
            ),
            err="sheet:3: refused: 10 at field 1: manufacturer ID is 16; it has to be 17 to 16381\n",
        )

    def test_exact(self):
        for words, part in (
            (("impedance=350.55ohm",), "bridge element impedance: 350.55 ohm is stored as 350.6 ohm (+0.05 ohm)"),
            (("location=3", "response=1.14us"), "response time: 1.14 us is stored as 1.29 us (+0.15 us)"),
            (("max phys=500lbf",), "500 lbf = 2224.11080763025 N is stored as 2224.1108 N (-0.00000763025 N)"),
        ):
            for way in (("-o", self.path("new")), ("--dry-run",)):
                self.gives(1, "set", CELL, *words, "--exact", "--level", "maker", *way, err=("nothing is written (--exact): ", part))
        self.assertEqual(os.listdir(self.room), [])
        self.gives(0, "set", CELL, "impedance=350.5ohm", "max phys=50kN", "--exact", "--level", "maker", "-o", self.path("new"))
        self.gives(0, "make", self.file("sheet", self.sheet), "--exact", "-o", self.path("again"))
        for old, new, part in (
            ("40.00032", "40", "point 2: 40 %, +0.042 % is stored as 40.00032 %, +0.042 % (+0.00032 %, 0 %)"),
            ("= 5000 N", "= 5000.00001 N", "maximum physical value: 5000.00001 N is stored as 5000 N (-0.00001 N)"),
        ):
            self.gives(1, "make", self.edited((old, new)), "--exact", "-o", self.path("never"), err=part)
        self.assertFalse(os.path.exists(self.path("never")))

    def test_wrong_use(self):
        for command in (("set", CELL, "location=1"), ("make", self.file("sheet", self.sheet))):
            self.gives(2, *command, "--dry-run", "-o", self.path("new"), err="takes either -o NEW or --dry-run")
            self.gives(2, *command, err="takes either -o NEW or --dry-run")


if __name__ == "__main__":
    support.unittest.main()
