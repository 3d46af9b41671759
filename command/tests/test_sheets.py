"""export and make: an unchanged export gives the same bytes; errors name the line."""
import os

import support
from dartelm.command import export, make, sheets
from dartelm.command.image import build, read_sheet
from support import ACCEPTED, REFUSED, sample, sample_bytes


class Again(support.Case):
    def test_every_sample(self):
        for name in ACCEPTED:
            self.gives(0, "export", sample(name), "-o", self.path(name + ".txt"))
            self.gives(0, "make", self.path(name + ".txt"), "-o", self.path(name), out="written and read again, accepted")
            self.assertEqual(self.bytes(name), sample_bytes(name))
            said, _ = self.gives(0, "export", sample(name))
            self.assertEqual(said.encode(), self.bytes(name + ".txt"))

    def test_random_images(self):
        """Some hundreds, of every template, precision and kind, with points of both domains, with curves, and without."""
        sorts = set()
        for number, image in enumerate(support.built_images(300, 7)):
            sheet = read_sheet(image)
            text = "\n".join(sheets.written(sheet)) + "\n"
            draft = sheets.parsed("again", text)
            again = build(draft.sheet)
            self.assertEqual(again.data, image.data, text)
            if number % 8 == 0:
                self.assertEqual(export.exported(image, sheet), (text, True))
                rows = make.stored_rows(draft, read_sheet(again))
                self.assertEqual([row.told() for row in rows if not row.is_exact], [])
            sorts |= {(sheet.template, sheet.values[9]), (sheet.kind,), (sheet.template, sheet.domain, sheet.curve())}
        self.assertEqual(len(sorts), 3 + 4 + 3 + 2 * 4)

    def test_stored_images(self):
        """Bits behind the end are not the sheet's: where they are not 0 that is said, and the rest is the same."""
        count = differing = 0
        for image in support.stored_images():
            if support.images.refusal_of(image):
                continue
            count += 1
            sheet = read_sheet(image)
            text, same = export.exported(image, sheet)
            differing += not same
            self.assertEqual(text.startswith("#"), not same)
            again = read_sheet(
                build(sheets.parsed("again", text).sheet)
            )
            self.assertEqual(
                (again.values, again.points, again.text, again.domain), (sheet.values, sheet.points, sheet.text, sheet.domain)
            )
        self.assertGreater(count, 50)

    def test_bits_behind_the_end_are_said(self):
        data = bytearray(sample_bytes("load-cell.kind1"))
        data[127], data[96] = 1, 255
        self.gives(0, "export", self.file("tail", bytes(data)), err="bits behind the sheet's end")

    def test_refused(self):
        for name in REFUSED:
            self.gives(1, "export", sample(name), "-o", self.path("no"), err="refused: ")
        self.assertEqual(os.listdir(self.room), [])


class Make(support.Case):
    def setUp(self):
        super().setUp()
        self.text, _ = self.gives(0, "export", sample("load-cell.kind1"))

    def make(self, status, text, *words, **said):
        self.gives(status, "make", self.file("sheet", text), "-o", self.path("new"), *words, **said)
        if status:
            self.assertEqual(os.listdir(self.room), ["sheet"])
        else:
            os.unlink(self.path("new"))

    def edited(self, old, new):
        self.assertIn(old, self.text)
        return self.text.replace(old, new)

    def test_edits(self):
        self.make(0, self.edited("= 350 ohm", "= 350.5 ohm"))
        self.make(0, "\ufeff# a comment\r\n\r\n" + self.text.replace("\n", "\r\n"))
        self.make(0, self.edited("manufacturer ID", "maker"))
        self.make(0, self.edited("= 350 ohm", "= 350 ohm  # measured"))
        self.make(0, self.edited('left drum"', 'left # drum" # where it is'))
        self.make(0, self.edited("bridge element impedance", "13"))
        self.make(0, self.edited("= 1 us", "= 1.14us"), out="response time 1.14 us 1.29 us +0.15 us\n")
        self.make(
            0,
            self.edited("= 5000 N", "= 5.000123456789 kN"),
            out="maximum physical value 5000.123456789 N 5000.1235 N +0.000043211 N\n",
        )
        self.make(
            0, self.edited("20.00016 %", "20%"), out="point 1 20 %, +0.015 % 20.00016 %, +0.015 % +0.00016 %, 0 %\n"
        )
        self.make(0, "\n".join(reversed(self.text.splitlines()[:23])), out="kind 1")
        self.make(0, self.text, "--kind", "2", out="kind 2 (512 bytes)")
        self.make(0, self.text.replace("kind = 1\n", ""), "--kind", "2")
        self.make(0, self.text.replace("kind = 1\n", "kind = 2\n"), "--kind", "1", out="kind 1 (128 bytes)")
        plain = "".join(line + "\n" for line in self.text.splitlines() if not line.startswith(("point", "domain", "text")))
        self.make(0, plain, "--kind", "0", out="kind 0 (40 bytes)")
        self.make(0, self.edited('"rolling road 2, left drum"', '""'))
        self.make(0, self.edited('"rolling road 2, left drum"', '"a\\x0ab # = \\x22"'))

    def test_lines_that_are_not_understood(self):
        for old, new, line, part in (
            ("= 350 ohm", "= 350", 15, "has no unit"),
            ("= 350 ohm", "", 15, "no line 'name = value'"),
            ("template = 33", "template = 34", 2, "no template"),
            ("kind = 1", "kind = 5", 1, "no kind"),
            ("serial number = 555", "serial = five", 7, "whole number"),
            ("serial number = 555", "serial = 5\nserial number = 5", 8, "stands in line 7"),
            ("N (4)", "N (5)", 8, "none of"),
            ("model number = 77", "model number = 77\nmodel number = 77", 5, "stands in line 4"),
            ("= 5000 N", "= 5000 Pa", 10, "not understood"),
            ("domain = electrical", "domain = both", 24, "domain"),
            ("point = 0 %, 0 %", "point = 0, 0", 25, "has no unit"),
            ("point = 0 %, 0 %", "point = 0 %", 25, "two parts"),
            ("point = 0 %, 0 %", "point = 1e40 %, 0 %", 25, "far outside"),
            ('text = "rolling', "text = rolling", 31, "between"),
            ("rolling road", "r\u00f6lling road", 31, "cannot stand"),
            ("rolling road", "r\\ad", 31, "cannot stand"),
            ("2025-11-03", "3.11.2025", 20, "2018-01-02"),
            ("version letter", "colour", 5, "no field"),
            ("domain = electrical\n", "", 24, "points need"),
        ):
            self.make(2, self.edited(old, new), err=(f"sheet:{line}: ", part))

    def test_lines_that_are_not_there(self):
        for number, line in enumerate(self.text.splitlines()):
            if number < 23:
                self.make(
                    2,
                    "\n".join(self.text.splitlines()[:number] + self.text.splitlines()[number + 1 :]),
                    err="there is no line '" + line.split(" = ")[0],
                )
        self.make(2, "", err="there is no line")
        without = "\n".join(line for line in self.text.splitlines() if not line.startswith("point"))
        self.make(2, without, err="a domain without points")
        self.make(2, self.text + "segment = 0 %\nterm = 1, 2\n", err="not both")
        self.make(2, self.text + "term = 1, 2\n", err="a term before")

    def test_refused_with_the_line(self):
        for old, new, line, number in (
            ("= 350 ohm", "= 0.5 ohm", 15, 10),
            ("= 1451", "= 16", 3, 10),
            ("bridge type = full (2)", "bridge type = missing", 14, 9),
            ("40.00032", "20.00016", 27, 7),
            ("40.00032", "20.0002", 27, 7),
            ("0.042", "110", 27, 10),
            ("60.00048", "101", 28, 10),
            ("rolling", "roll\\x00ing", 31, 10),
            ("rolling", "roll\\xffing", 31, 10),
        ):
            self.make(1, self.edited(old, new), err=(f"sheet:{line}: refused: {number} ", "nothing is written"))
        self.make(1, self.text, "--kind", "0", err="refused: 11 at bits ")
        self.make(1, self.edited("rolling", "r" * 400), err="refused: 11 at bits ")
        self.make(1, self.text + "".join(f"point = {n} %, 0 %\n" for n in range(130)), err="refused: 16")
        self.make(1, self.edited("rolling", "r" * 40000), err="refused: 11 at bits 65535")
        torque, _ = self.gives(0, "export", sample("torque.kind1"))
        self.make(1, torque.replace("50.0004 %, +0.065", "50.0004 %, -90"), err=("sheet:27: refused: 22 ",))

    def test_files(self):
        self.gives(3, "make", self.path("nope"), "-o", self.path("new"), err="cannot read")
        self.gives(3, "make", self.file("bytes", bytes(range(256))), "-o", self.path("new"), err="no text")
        self.gives(3, "make", self.file("sheet", self.text), "-o", self.file("there", "precious"), err="--force")
        self.gives(3, "export", sample("load-cell.kind1"), "-o", self.path("there"), err="--force")
        self.assertEqual(self.bytes("there"), b"precious")
        self.gives(0, "make", self.path("sheet"), "-o", self.path("there"), "--force")


if __name__ == "__main__":
    support.unittest.main()
