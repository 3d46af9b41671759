"""set: all or nothing, by proposal and commit."""
import os

import support
from support import sample


class Set(support.Case):
    def set(self, status, *words, source="load-cell.kind1", **said):
        return self.gives(status, "set", sample(source), *words, "-o", self.path("new"), **said)

    def unwritten(self, status, *words, source="load-cell.kind1", **said):
        self.set(status, *words, source=source, **said)
        self.assertEqual(os.listdir(self.room), [])

    def test_a_date(self):
        self.set(
            0,
            "date=2026-11-16",
            "--level",
            "calibration",
            out=("calibration date 2025-11-03 2026-11-16 2026-11-16\n", "written and read again, accepted"),
        )
        self.assertEqual(len(self.bytes("new")), 128)
        self.gives(0, "show", self.path("new"), out="2026-11-16")
        self.assertEqual(sorted(os.listdir(self.room)), ["new"])

    def test_it_is_what_a_change_writes(self):
        self.set(0, "impedance=350.5ohm", "--level", "maker", out="350 ohm 350.5 ohm 350.5 ohm 0 ohm")
        changed = support.console("change", 1, "@" + sample("load-cell.kind1"), 13, "w3505", "maker")
        self.assertEqual(changed, ["ok", self.bytes("new").hex()])

    def test_each_sample(self):
        for name in support.ACCEPTED:
            self.gives(0, "set", sample(name), "location=77", "-o", self.path(name), out=" 77 77\n")
            self.gives(0, "show", self.path(name), out="measurement location ID                77")

    def test_what_is_worth_a_look_afterwards(self):
        said, _ = self.set(0, "date=2027-01-01", "nominal=20V", "--level", "maker", *support.TODAY)
        self.assertIn("look at: the calibration date is still to come", said)
        self.assertIn("look at: the nominal excitation", said)
        said, _ = self.set(0, "location=1", "--force", *support.TODAY)
        self.assertNotIn("look at", said)

    def test_the_range_is_told(self):
        for word, part in (
            ("location=3000", "measurement location ID is 3000; it has to be 0 to 2047\n"),
            ("impedance=0.5ohm", "bridge element impedance is 0.5 ohm; it has to be 1 ohm to 26215.2 ohm\n"),
            ("response=8s", "response time is 8 s; it has to be 1 us to 7.91180996 s\n"),
            ("max elec=-7mV/V", "maximum electrical value is -7 mV/V; it has to be -6.55 mV/V to 6.55715 mV/V\n"),
            ("measurand=46", "physical measurand is 46; it has to be temperature, K (0) to power, W (45)\n"),
            ("max phys=1e39N", "is 1e+33 MN; it has to be -3.4028235e+32 MN to 3.4028235e+32 MN\n"),
            ("bridge type=missing", "bridge type is missing, and has to have a value\n"),
            ("maker=0", "refused: 10 at field 1: manufacturer ID is 0; it has to be 17 to 16381\n"),
        ):
            self.unwritten(1, word, "--level", "maker", err=part)

    def test_several_by_names_and_numbers(self):
        self.set(
            0,
            "13=350.5ohm",
            "response=1.14us",
            "initials=A.B",
            "11=2.00039mV/V",
            "bridge type=half",
            "serial=7",
            "--level",
            "maker",
            out=(
                "1 us 1.14 us 1.29 us +0.15 us\n",
                "2 mV/V 2.00039 mV/V 2.0004 mV/V +0.00001 mV/V\n",
                "full (2) half (1) half (1)\n",
                "555 7 7\n",
            ),
        )

    def test_resistance_and_precision(self):
        self.set(
            0,
            "current nominal=1.01mA",
            "mapping=1",
            "max elec=195ohm",
            "--level",
            "maker",
            source="temperature.kind1",
            out="1 mA 1.01 mA 1 mA -0.01 mA\n",
        )
        self.gives(
            0,
            "set",
            sample("brake-pressure.kind1"),
            "greatest electrical=2.1mV/V",
            "--level",
            "calibration",
            "-o",
            self.path("p2"),
            out="1.9876 mV/V 2.1 mV/V 2.1 mV/V 0 mV/V\n",
        )
        self.gives(0, "set", sample("oil-pressure.kind0"), "location=9", "-o", self.path("k0"), out=" 3 9 9\n")

    def test_digits_that_a_single_has_not(self):
        self.set(
            0,
            "max phys=5000.123456789N",
            "--level",
            "calibration",
            out="5000 N 5000.123456789 N 5000.1235 N +0.000043211 N\n",
        )

    def test_the_measurand_gives_the_unit(self):
        self.set(
            0,
            "maximum physical value=7kPa",
            "measurand=Pa",
            "--level",
            "maker",
            out=("5000 N 7000 Pa 7000 Pa 0 Pa\n", "force/weight, N (4) pressure, Pa (12) pressure, Pa (12)\n", "look at:"),
        )

    def test_measurands_that_are_none(self):
        self.unwritten(1, "measurand=46", "--level", "maker", err="refused: 10")
        self.unwritten(1, "measurand=missing", "--level", "maker", err="refused: 9")
        self.unwritten(2, "measurand=46", "max phys=5N", "--level", "maker", err="0 to 45")
        self.unwritten(2, "bridge type=banana (2)", "--level", "maker", err="none of")
        self.unwritten(2, "bridge type=half (2)", "--level", "maker", err="none of")

    def test_levels(self):
        self.unwritten(1, "date=2026-11-16", err=("refused: 20 at field 18", "--level calibration may"))
        self.unwritten(1, "impedance=351ohm", err="--level maker may")
        self.unwritten(1, "impedance=351ohm", "--level", "calibration", err="--level maker may")
        self.unwritten(1, "location=5", "date=2026-11-16", err="nothing is written")
        self.set(0, "location=5")

    def test_refused(self):
        for words, part in (
            (("precision=0",), ("refused: 12 at field 9", "dartelm export")),
            (("impedance=30000ohm",), "refused: 10"),
            (("serial=16777216",), "refused: 10"),
            (("bridge type=missing",), "refused: 9"),
            (("maximum physical value=1e39N",), "refused: 10"),
            (("letter=missing",), "refused: 9"),
            (("impedance=1ohm", "bridge type=3"), "refused: 10"),
        ):
            self.unwritten(1, *words, "--level", "maker", err=part)
        for name in support.REFUSED:
            self.unwritten(1, "location=1", source=name, err="dartelm why")

    def test_wrong_use(self):
        for words, part in (
            (("impedance=351",), "has no unit; write it in ohm"),
            (("impedance",), "no NAME=VALUE"),
            (("impedence=3ohm",), "did you mean"),
            (("version=3",), "fits"),
            (("location=1", "21=2"), "twice"),
            (("text=hello",), "not changed alone"),
            (("22=1",), "no field 22"),
            (("location=1", "--level", "king"), "--level"),
            ((), "NAME=VALUE"),
            (("date=",), "2018-01-02"),
            (("=5",), "no field"),
        ):
            self.unwritten(2, *words, err=part)
        self.gives(2, "set", sample("load-cell.kind1"), "location=1", err="-o NEW or --dry-run")
        self.gives(2, "set", sample("load-cell.kind1"), "location=1", "-o", "", err="-o takes a file's name")

    def test_files(self):
        self.unwritten(3, "location=1", source="nope", err="cannot read")
        self.gives(3, "set", sample("load-cell.kind1"), "location=1", "-o", self.path("no/such/folder"), err="cannot write")
        path = self.file("there", "precious")
        self.gives(3, "set", sample("load-cell.kind1"), "location=1", "-o", path, err="--force")
        self.assertEqual(self.bytes("there"), b"precious")
        self.gives(0, "set", sample("load-cell.kind1"), "location=1", "-o", path, "--force")
        self.assertEqual(len(self.bytes("there")), 128)
        self.gives(0, "set", path, "location=2", "-o", path, "--force")
        for force in ((), ("--force",)):
            self.gives(3, "set", sample("load-cell.kind1"), "location=1", "-o", self.room, *force, err="no regular file")
        os.symlink("nowhere", self.path("link"))
        self.gives(3, "set", sample("load-cell.kind1"), "location=1", "-o", self.path("link"), err="cannot be followed")
        self.assertEqual(sorted(os.listdir(self.room)), ["link", "there"])


if __name__ == "__main__":
    support.unittest.main()
