"""What is said is about the field and its rule, the file, the pipe."""
import html
import subprocess
from unittest import mock

import support
from dartelm.command import files
from dartelm.command.trouble import Trouble
from support import sample, sample_bytes

CELL = sample("load-cell.kind1")


class Messages(support.Case):
    def chip(self, *changes, source="load-cell.kind1"):
        self.gives(0, "set", sample(source), *changes, "--level", "maker", "-o", self.path("chip"), "--force")
        return self.path("chip")

    def test_no_reading(self):
        for changes, source, part in (
            (("max elec=0mV/V",), CELL, "13 at field 11: no reading: minimum and maximum electrical value are both 0 mV/V\n"),
            (
                ("min elec=3mV/V",),
                CELL,
                "13 at field 11: no reading: minimum electrical value, 3 mV/V, is not below the maximum, 2 mV/V\n",
            ),
            (("min phys=missing",), CELL, "13 at field 7: no reading: minimum physical value is missing\n"),
            (("max phys=missing",), CELL, "13 at field 8: no reading: maximum physical value is missing\n"),
            (("min elec=missing",), CELL, "13 at field 10: no reading: minimum electrical value is missing\n"),
            (("max elec=missing",), CELL, "13 at field 11: no reading: maximum electrical value is missing\n"),
            (
                ("max elec=3V/V",),
                sample("brake-pressure.kind1"),
                "21 at field 11: no reading: maximum electrical value is 3000 mV/V; it has to be -2000 mV/V to 2000 mV/V\n",
            ),
        ):
            chip = self.chip(*changes, source=source)
            self.gives(1, "read", chip, "1mV/V", err=f"{chip}: refused: {part}")
            self.gives(1, "certificate", chip, sample("load-cell.csv"), err=f"dartelm: refused: {part}")
            self.gives(0, "show", chip, "--curve", out=(f"dashes: none: refused: {part}", f"no curve: refused: {part}"))

    def test_quantities(self):
        for text, part in (
            ("pressure", "'pressure' fits 12 (Pa) and 13 (psi)\n"),
            ("Force/Weight", "fits 4 (N), 5 (lb) and 6 (kgf)\n"),
            ("velocity", "fits 19 (m/s), 20 (mph) and 21 (fps)\n"),
        ):
            self.gives(2, "set", CELL, f"measurand={text}", "--level", "maker", "--dry-run", err=part)
        for text, shown in (("power", "power, W (45)"), ("frequency", "frequency, Hz (26)"), ("psi", "pressure, psi (13)")):
            self.gives(0, "set", CELL, f"measurand={text}", "--level", "maker", "--dry-run", out=f"{shown} {shown}\n")

    def test_units_that_are_taken(self):
        for change, part in (
            ("period=1year", "calibration period: 'year' is not understood here; write it in days\n"),
            ("excitation nominal=5", "'5' has no unit; write it in V, mV or kV, as 5V\n"),
            ("impedance=5", "'5' has no unit; write it in ohm, mohm, kohm or Mohm, as 5ohm\n"),
            ("max elec=2", "'2' has no unit; write it in V/V, mV/V, uV/V or nV/V, as 2mV/V\n"),
            ("max phys=5Pa", "'Pa' is not understood here; write it in N, mN, kN, MN, daN, lbf or kgf\n"),
        ):
            self.gives(2, "set", CELL, change, "--level", "maker", "--dry-run", err=part)

    def test_points_of_a_sheet(self):
        sheet, _ = self.gives(0, "export", CELL)
        for old, new, part in (
            ("60.00048 %", "101 %", "sheet:28: refused: 10 at point 3: 101 % is more than a chip can hold (100.26702 %)\n"),
            ("60.00048 %", "-0.0001 %", "sheet:28: refused: 10 at point 3: -0.0001 % is less than a chip can hold (0 %)\n"),
            ("+0.038 %", "+110 %", "sheet:28: refused: 10 at point 3: deviation 110 % is more than a chip can hold (109.715 %)\n"),
        ):
            self.gives(1, "make", self.file("sheet", sheet.replace(old, new)), "--dry-run", err=part)
        many = sheet + "".join(f"point = {n / 10} %, 0 %\n" for n in range(144))
        self.gives(1, "make", self.file("sheet", many), "--dry-run", err="refused: 16 at length 300: 150 points; a chip takes 127\n")

    def test_streams(self):
        for words in ("show -", "why -", f"certificate {CELL} -", "make - --dry-run"):
            done = subprocess.run(f"'{support.PROGRAM}' {words} <&-", shell=True, capture_output=True, text=True, check=False)
            self.assertEqual((done.returncode, done.stderr), (3, "dartelm: cannot read -: standard input is closed\n"))

        done = subprocess.run(f"'{support.PROGRAM}' tray - <&-", shell=True, capture_output=True, text=True, check=False)
        self.assertEqual((done.returncode, "-  cannot read -: standard input is closed\n" in done.stdout), (3, True))

    def test_a_reader_that_has_seen_enough(self):
        done = subprocess.run(
            ["bash", "-c", f"'{support.PROGRAM}' read --table 9999 '{CELL}' | head -1; echo ${{PIPESTATUS[0]}}"],
            capture_output=True,
            text=True,
            check=True,
        )
        self.assertEqual((done.stdout, done.stderr), (f"{CELL}, large dash\n0\n", ""))

    def test_no_room(self):
        with mock.patch.object(files.os, "fsync", side_effect=OSError(28, "No space left on device")):
            with self.assertRaises(Trouble) as caught:
                files.write_new(self.path("new"), b"one", False)
        self.assertIn(f"no room for a temporary file in {self.room}: No space left", str(caught.exception))


class Words(support.Case):
    """Sentences that no other test reads whole."""

    def sheet(self, old, new):
        return self.file("sheet", self.gives(0, "export", sample("load-cell.kind1"))[0].replace(old, new))

    def test_lines_of_a_sheet(self):
        for old, new, said in (
            ("domain = electrical\n", "", "sheet:24: points need a line 'domain = electrical' or 'domain = physical'\n"),
            ("manufacturer ID = 1451\n", "", "sheet: there is no line 'manufacturer ID = ..'\n"),
            ("template = 33\n", "", "sheet: there is no line 'template = ..', one of 33, 32\n"),
            ('"rolling road 2, left drum"', "left", 'sheet:31: the text stands between ", as text = "left drum"\n'),
            ("kind = 1\n", "kind = 1\nsegment = 0 %\nterm = 0, 1\n", "sheet:2: a sheet has points or a curve, not both\n"),
            ("20.00016 %, +0.015 %", "20 %", "sheet:26: a point has two parts with a comma between them\n"),
            ("kind = 1\n", "kind = 1\nserial number = 9\n", "sheet:8: 'serial number' stands in line 2 already\n"),
        ):
            self.gives(2, "make", self.sheet(old, new), "--dry-run", err=said)
        certificate = sample("load-cell.csv")
        said = "sheet: it has points of its own; leave them out, or --certificate\n"
        self.gives(2, "make", self.sheet("", ""), "--certificate", certificate, "--dry-run", err=said)

    def test_bytes_that_no_text_has(self):
        """0xB0 is a degree sign to a spreadsheet, unless there are control codes: then the file is no text."""
        table = b"Point (%),Deviation (%),Temp \xb0C\n0,0,20\n20,0.015,20\n"
        for code in range(32):
            text = table + b"# " + bytes([code]) + b"\n"
            control = code < 9 or code > 13
            status, _, err = self.run_here("distance", self.file("cert", text), "--span", "5000N")
            self.assertEqual((status == 3, "cert: it is no text (byte 29)" in err), (control, control), code)

    def test_inputs_that_are_too_fine(self):
        """An input is a whole number of nV/V; the ones below and above are named."""
        for text, near in (
            ("1.5nV/V", "0.000001 mV/V or 0.000002 mV/V"),
            ("-1.5nV/V", "-0.000002 mV/V or -0.000001 mV/V"),
            ("-0.5nV/V", "-0.000001 mV/V or 0 mV/V"),
            ("0.5nV/V", "0 mV/V or 0.000001 mV/V"),
        ):
            self.gives(2, "read", sample("load-cell.kind1"), text, err=f" is finer than it counts; write {near}\n")

    def test_closing_texts(self):
        for text in ('"', "left", '"left', 'left"', ""):
            sheet = self.sheet('"rolling road 2, left drum"', text)
            self.gives(2, "make", sheet, "--dry-run", err="sheet:31: ")
        for text, bad in (('"a"b"', '"'), ('"\\y"', "\\"), ('"\u00e9"', "\u00e9"), ('"\\x4"', "\\")):
            sheet = self.sheet('"rolling road 2, left drum"', text)
            self.gives(2, "make", sheet, "--dry-run", err=f"sheet:31: '{bad}' cannot stand in the text; ")
        for text, shown in (('""', '""'), ('"a"', '"a"'), ('"\\x41\\x22"', '"A\\x22"')):
            self.gives(0, "make", self.sheet('"rolling road 2, left drum"', text), "-o", self.path("chip"), "--force")
            self.gives(0, "show", self.path("chip"), out=f"closing text {shown}\n")

    def test_points_far_outside(self):
        """2^62 billionths of the span."""
        for figure, status, said in (
            ("461168601842.7387903", 1, "is more than a chip can hold"),
            ("461168601842.7387904", 2, "sheet:26: point: '461168601842.7387904 %' is far outside the span\n"),
            ("-461168601842.7387904", 2, "sheet:26: point: '-461168601842.7387904 %' is far outside the span\n"),
        ):
            found, out, err = self.run_here("make", self.sheet("20.00016 %", f"{figure} %"), "--dry-run")
            self.assertEqual((found, said in out + err), (status, True), (figure, out, err))

    def test_terms_of_a_curve(self):
        text, _ = self.gives(0, "export", sample("exhaust-pressure.kind1"))
        for term in ("x, 0.004", "1000, 0.004", "1.0, 0.004", "1, x", "1, 0.004 N", "1, 0.004%"):
            sheet = self.file("sheet", text.replace("term = 1, 0.004\n", f"term = {term}\n"))
            self.gives(2, "make", sheet, "--dry-run", err="sheet:25: a term is an exponent and a coefficient, as 2, -0.015\n")
        for term in ("1", "1, 2, 3"):
            sheet = self.file("sheet", text.replace("term = 1, 0.004\n", f"term = {term}\n"))
            self.gives(2, "make", sheet, "--dry-run", err="sheet:25: a term has two parts with a comma between them\n")

    def test_a_sheet_of_which_one_figure_is_refused(self):
        """The others are told as they would be stored, the precision too, which is not changed alone."""
        sheet = self.sheet("manufacturer ID = 1451", "manufacturer ID = 0")
        said = (
            "manufacturer ID 0 refused it has to be 17 to 16381\n",
            "full-scale electrical value precision steps of 25 nV/V (1) steps of 25 nV/V (1)\n",
            "maximum electrical value 2 mV/V 2 mV/V 0 mV/V\n",
        )
        self.gives(1, "make", sheet, "--dry-run", out=said)

    def test_values(self):
        cell = sample("load-cell.kind1")
        for words, said in (
            (("location=1", "location=2"), "'measurement location ID' is given twice\n"),
            (("initials=a",), "calibration initials: 'a' cannot stand there; write it as three of A to Z, blank , . / _ @\n"),
            (("date=1.1.2020",), "'1.1.2020' cannot stand there; write it as 2018-01-02, from 1998-01-01 to 2177-06-05\n"),
        ):
            self.gives(2, "set", cell, *words, "--level", "maker", "--dry-run", err=said)
        self.gives(2, "certificate", cell, sample("load-cell.csv"), "--within=-1N", err="--within: '-1N' is below 0\n")
        self.gives(1, "set", cell, "serial=1", "--dry-run", out="too low for the field; --level maker may\n")
        whole = "; 'dartelm export' the sheet, edit it and 'dartelm make' the image anew\n"
        self.gives(1, "set", cell, "9=0", "--level", "maker", "--dry-run", out=whole)

    def test_likely_causes(self):
        cell = sample_bytes("load-cell.kind1")
        odd = bytearray(cell)
        odd[10] |= 0xFC
        for data, said in (
            (cell[:100], ("  taken as the beginning of kind 1:\n", "likely: cut short, or with bytes too many: 100 bytes are 28 fewer than 128\n")),
            (bytes(600), ("likely: no chip's image: 600 bytes are more than the largest chip's 512\n",)),
            (support.sealed(bytes(odd)), ("likely: a whole chip whose sheet was written wrongly, or for another device: the pages add up\n",)),
            (cell[:32] + b"\xff" * 32 + cell[64:], ("page 1: blank (every byte FF)\n",)),
        ):
            self.gives(1, "why", self.file("chip", data), out=said)
        self.gives(1, "show", sample("damaged.kind1"), out=f"  'dartelm why {sample('damaged.kind1')}' tells more\n")

    def test_captions(self):
        for name, words, said in (
            ("load-cell.kind1", (sample("load-cell.csv"),), "Circles: the certificate's points."),
            ("load-cell.kind1", (), "by 241 readings of the large dash. Circles: the stored points.</figcaption>"),
            ("oil-pressure.kind0", (), "readings of the large dash. There are no calibration points.</figcaption>"),
            ("torque.kind1", (), "The stored points are against the physical figure, below.</figcaption>"),
            ("exhaust-pressure.kind1", (), "Line: figure shown minus the figure without the curve, in kPa, by 241 readings.</figcaption>"),
            ("many-points.kind2", (), "<p>Dashes: large only (the small one takes 32 points)</p>"),
        ):
            self.gives(0, "report", sample(name), *words, "-o", self.path("page"), "--force")
            self.assertTrue(said in html.unescape(self.bytes("page").decode()).replace("\u00a0", " "), said)


if __name__ == "__main__":
    support.unittest.main()
