"""show and read: every sample, and what is accepted and odd."""
import support
from support import ACCEPTED, REFUSED, TODAY, sample


class Show(support.Case):
    def test_each_accepted_sample(self):
        for name, parts in (
            (
                "load-cell.kind1",
                (
                    "716 of 992 bits",
                    "350 ohm",
                    "2 mV/V",
                    "10 V",
                    "1 us",
                    "5000 N",
                    "due 2026-11-03",
                    "1000.008 N",
                    "shows 1000.758 N",
                    "+0.015 %",
                    '"rolling road 2, left drum"',
                    "large and small",
                ),
            ),
            ("brake-pressure.kind1", ("-0.0075 mV/V", "1.9876 mV/V", "16 MPa", "full precision (2)")),
            ("many-points.kind2", ("missing", "90 more", "large only")),
            ("oil-pressure.kind0", ("294 of 312 bits", "1000 kPa", "no calibration points", "10.03 us")),
            ("temperature.kind1", ("194 ohm", "1 mA", "472.48519 ms", "250 \u00b0C", "resistance sender")),
            (
                "exhaust-pressure.kind1",
                ("300 kPa", "a calibration curve of 2 segments and 5 terms", "1  from 49.9995 %: -0.3 x^0", "large and small"),
            ),
            ("torque.kind1", ("500 Nm", "physical figure (domain 1)", "shown at 25.0402 %")),
        ):
            for flags in ((), ("--curve",), ("--points",)):
                said, wrong = self.gives(
                    0, "show", sample(name), *flags, *TODAY, out=parts if "--points" not in flags else parts[:1]
                )
                self.assertEqual(wrong, "")
                self.assertNotIn("look at: calibration is overdue", said)

    def test_refused_samples_and_several_files(self):
        said, _ = self.gives(1, "show", *map(sample, REFUSED + ACCEPTED), *TODAY)
        self.assertIn("refused: 17 at place 0", said)
        self.assertIn("refused: 2 at page 2", said)
        self.assertEqual(said.count(": accepted,"), len(ACCEPTED))

    def test_every_point(self):
        said, _ = self.gives(0, "show", sample("many-points.kind2"), "--points")
        self.assertEqual(sum("deviation" in line and "%" in line for line in said.splitlines()), 96)

    def test_the_curve_has_some_ten_lines(self):
        plain, _ = self.gives(0, "show", sample("load-cell.kind1"), *TODAY)
        drawn, _ = self.gives(0, "show", sample("load-cell.kind1"), "--curve", *TODAY)
        self.assertEqual(len(drawn.splitlines()) - len(plain.splitlines()), 11)
        self.assertIn("+0.0419996 % |", drawn)

    def look(self, name, changes, *words):
        self.gives(0, "set", sample(name), *changes, "--level", "maker", "-o", self.path("new"), "--force")
        said, _ = self.gives(0, "show", self.path("new"), *words)
        return [line for line in said.splitlines() if line.startswith("look at: ")]

    def test_what_is_odd(self):
        for changes, part in (
            (
                ["excitation min=12V", "excitation max=5V"],
                "least above greatest excitation: 12 V is above 5 V (fields 16 and 17)",
            ),
            (["date=2026-03-02"], "still to come: 2026-03-02"),
            (["date=2025-03-01", "period=364days"], "overdue since 2026-02-28"),
            (["minimum physical value=6000N"], "least above greatest physical value: 6000 N is above 5000 N"),
            (["minimum electrical value=3mV/V"], "least above greatest electrical value"),
            (["nominal=20V"], "not between"),
        ):
            self.assertTrue(any(part in line for line in self.look("load-cell.kind1", changes, *TODAY)), changes)
        self.assertEqual(self.look("load-cell.kind1", ["date=2025-03-01", "period=365days"], *TODAY), [])
        self.assertEqual(self.look("load-cell.kind1", ["date=missing"], *TODAY), [])
        self.assertEqual(len(self.look("temperature.kind1", ["current nominal=6mA"], *TODAY)), 1)

    def test_dates_at_the_end_of_all_dates(self):
        self.look("load-cell.kind1", ["date=2177-06-05"])
        said, _ = self.gives(0, "show", self.path("new"), *TODAY, out="after 2177-06-05")
        self.assertIn("still to come", said)

    def test_ends_that_are_missing(self):
        self.look("load-cell.kind1", ["maximum physical value=missing", "minimum electrical value=missing"])
        self.gives(0, "show", self.path("new"), "--curve", out=("no reading", "no curve"))
        self.gives(1, "read", self.path("new"), "1mV/V", err="refused: 13 at field 8")

    def test_no_date(self):
        self.gives(2, "show", sample("load-cell.kind1"), "--today", "tomorrow", err="--today")

    def test_a_text_that_does_not_print(self):
        for image in support.built_images(40, 5):
            said, _ = self.gives(0, "show", self.file("random", image.data), "--curve", "--points")
            self.assertTrue(all(line.isprintable() for line in said.splitlines()), repr(said))


class Read(support.Case):
    def test_a_reading(self):
        said, _ = self.gives(
            0, "read", sample("load-cell.kind1"), "1.0mV/V", out=("2502.000005 N", "50.0400001 %", "+0.0400001 %", "large dash")
        )
        self.assertEqual(len(said.splitlines()), 3)
        self.gives(0, "read", sample("load-cell.kind1"), "1000uV/V", "1 mV/V", "0.001V/V", "--dash", "small", out="small dash")
        self.gives(0, "read", sample("many-points.kind2"), "-1.5mV/V", "-.5mV/V", out="-1.5 mV/V")

    def test_a_table(self):
        for name in ACCEPTED:
            if name != "temperature.kind1":
                said, _ = self.gives(0, "read", sample(name), "--table", "11")
                self.assertEqual(len(said.splitlines()), 13)
        self.gives(0, "read", sample("torque.kind1"), "--table", "2", out=("0 Nm", "500.075 Nm", "+0.015 %"))
        self.gives(0, "read", sample("brake-pressure.kind1"), "--table", "3", out=("-0.0075 mV/V", "1.9876 mV/V", "0 %"))

    def test_refused(self):
        self.gives(
            1,
            "read",
            sample("temperature.kind1"),
            "1mV/V",
            err="refused: 4 at bit 64: no reading is taken from a resistance sender",
        )
        self.gives(1, "read", sample("many-points.kind2"), "1mV/V", "--dash", "small", err="refused: 23 at points 96")
        self.gives(1, "read", sample("load-cell.kind1"), "1mV/V", "3mV/V", out=("2502.000005 N", "refused: 14"))
        self.gives(1, "read", sample("load-cell.kind1"), "9e9V/V", out="refused: 14")
        self.gives(1, "read", sample("damaged.kind1"), "1mV/V", err=("refused: 2 at page 2", "dartelm why"))

    def test_refused_for_the_ends(self):
        ends = (
            ("21 at field 11", "greatest electrical=3V/V"),
            ("13 at field 11", "least electrical=1.9V/V"),
            ("13 at field 7", "min phys=missing"),
        )
        for number, (part, change) in enumerate(ends):
            chip = self.path(str(number))
            self.gives(0, "set", sample("brake-pressure.kind1"), change, "--level", "maker", "-o", chip)
            self.gives(1, "read", chip, "1mV/V", err=f"refused: {part}")
            self.gives(0, "show", chip, "--curve", out=(f"dashes: none: refused: {part}: no reading: ", f"no curve: refused: {part}"))
            self.gives(0, "report", chip, "-o", self.path("page"), "--force")
            self.gives(1, "certificate", chip, sample("load-cell.csv"), err=f"refused: {part}")

    def test_wrong_use(self):
        for words, part in (
            (("1.0",), "has no unit; write it in V/V, mV/V"),
            (("1mV",), "not understood"),
            ((), "read takes an input"),
            (("--table", "1"), "--table takes"),
            (("--table", "x"), "--table"),
            (("1mV/V", "--dash", "round"), "--dash"),
            (("0.1nV/V",), "finer"),
            (("1e20V/V",), "far outside"),
            (("now",), "no number"),
        ):
            self.gives(2, "read", sample("load-cell.kind1"), *words, err=part)


if __name__ == "__main__":
    support.unittest.main()
