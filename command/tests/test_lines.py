"""Lines and marks that are shown whole: their first letters, their columns, what stands between them."""
import csv
import io
import json
import os
import re
from types import SimpleNamespace
from unittest import mock

import support
from dartelm.command import drawing, panels, readings, report, show, tray, why
from dartelm.command.image import read_image
from support import TODAY, sample, sample_bytes

CELL, HEAT = sample("load-cell.kind1"), sample("temperature.kind1")
OVERDUE = ("--today", "2026-11-16")


class Shown(support.Case):
    def heat(self, domain, *lines):
        """The resistance sender's sheet, -50 to 250 °C, with other points or a curve."""
        text, _ = self.gives(0, "export", HEAT)
        kept = [line for line in text.splitlines() if not line.startswith(("point", "domain"))]
        kept += ([f"domain = {domain}"] if domain else []) + list(lines)
        self.gives(0, "make", self.file("sheet", "\n".join(kept) + "\n"), "-o", self.path("heat"), "--force")
        return self.path("heat")

    def test_several_files(self):
        """An empty line between two files, and none elsewhere."""
        one, two = (self.gives(0, "show", path, *TODAY)[0] for path in (CELL, HEAT))
        self.assertFalse("\n\n" in one + two or (one + two).startswith("\n"))
        self.assertEqual(self.gives(0, "show", CELL, HEAT, *TODAY)[0], f"{one}\n{two}")

    def test_letters_of_a_closing_text(self):
        """Blank to ~ print; the mark and the backslash would end or change a text."""
        for code, shown in (
            (31, "\\x1f"),
            (32, " "),
            (33, "!"),
            (34, "\\x22"),
            (35, "#"),
            (91, "["),
            (92, "\\x5c"),
            (93, "]"),
            (126, "~"),
            (127, "\\x7f"),
            (1, "\\x01"),
        ):
            self.assertEqual(show.quoted(bytes([code])), f'"{shown}"')

    def test_dashes(self):
        for name, said in (
            ("temperature.kind1", "dashes: no reading is taken from a resistance sender"),
            ("many-points.kind2", "dashes: large only (the small one takes 32 points)"),
            ("load-cell.kind1", "dashes: large and small"),
        ):
            lines, _ = self.gives(0, "show", sample(name), *TODAY)
            self.assertEqual([line for line in lines.splitlines() if line.startswith("dashes")], [said])

    def test_columns_of_points(self):
        """To the right, each as wide as its longest figure; -50 to 250 °C over 80 to 194 ohm."""
        said, _ = self.gives(0, "show", HEAT, *TODAY)
        self.assertEqual(
            [line for line in said.splitlines() if " deviation " in line],
            [
                "   0    0.26928 %   80.3069792 ohm  deviation -0.2687 %",
                "   1   26.08344 %  109.7351216 ohm  deviation  -1.083 %",
                "   2   51.32079 %  138.5057006 ohm  deviation -1.3206 %",
                "   3   75.98898 %  166.6274372 ohm  deviation -0.9883 %",
                "   4  100.08648 %  194.0985872 ohm  deviation -0.0861 %",
            ],
        )

    def test_points_without_figures(self):
        """Without a physical end a point is a share of the span alone."""
        self.gives(0, "set", CELL, "max phys=missing", "--level", "maker", "-o", self.path("chip"))
        self.gives(0, "show", self.path("chip"), *TODAY, out="\n1 20.00016 % deviation +0.015 %\n")
        self.gives(0, "report", self.path("chip"), "-o", self.path("page"))
        self.assertIn("<p>1: 20.00016\u00a0%: +0.015\u00a0%</p>", self.bytes("page").decode())

    def test_a_resistance_sender_against_the_physical_figure(self):
        """50.0004 % of -50 to 250 °C is 100.0012 °C, and is shown at 50.0654 % of the ohms."""
        chip = self.heat("physical", "point = 0 %, 0 %", "point = 50.0004 %, +0.065 %")
        self.gives(0, "show", chip, *TODAY, out="1 50.0004 % 100.0012 °C deviation +0.065 % shown at 50.0654 %\n")
        self.gives(0, "report", chip, "-o", self.path("page"))
        page = self.bytes("page").decode().replace("\u00a0", " ")
        for part in ("-50 °C", "25 °C", "100 °C", "175 °C", "250 °C"):
            self.assertEqual(page.count(f">{part}</text>"), 1 if part in ("25 °C", "175 °C") else 2, part)

    def test_a_curve_that_is_not_drawn(self):
        chip = self.heat(None, "segment = 0 %", "term = 0, 0.01")
        self.gives(0, "show", chip, "--curve", *TODAY, out="\nno curve is drawn: no reading is taken from a resistance sender\n")
        plain, _ = self.gives(0, "show", sample("oil-pressure.kind0"), *TODAY)
        self.assertEqual(self.gives(0, "show", sample("oil-pressure.kind0"), "--curve", *TODAY)[0], plain)

    def test_a_curve_of_one_figure(self):
        """0.0123457 % of 5000 N is 0.617285 N, shown with four digits; one input for each of 61 columns."""
        text, _ = self.gives(0, "export", CELL)
        kept = [line for line in text.splitlines() if not line.startswith(("point", "domain"))]
        sheet = self.file("sheet", "\n".join([*kept, "segment = 0 %", "term = 0, 0.0123457"]) + "\n")
        self.gives(0, "make", sheet, "-o", self.path("chip"))
        said, _ = self.gives(0, "show", self.path("chip"), "--curve", out="correction over the span, in N:\n")
        self.assertIn("\n+0.6173 N |" + 61 * "*" + "\n", said)
        self.assertIn("\n      0 N |" + 61 * "-" + "\n", said)
        with mock.patch.object(readings, "evenly", side_effect=readings.evenly) as asked:
            self.gives(0, "show", CELL, "--curve")
        self.assertEqual([words[1] for words, _ in asked.call_args_list], [61])

    def test_where_a_line_is_drawn(self):
        """Nine rows from the greatest to the least; nought has a line, and is among them."""
        found = drawing.text_curve([(0, 0), (0.5, 8), (1, -8)], str)
        self.assertEqual([line.partition(" |")[0] for line in found[:9]], [" 8", "  ", "  ", "  ", " 0", "  ", "  ", "  ", "-8"])
        self.assertEqual(found[0], " 8 |" + " " * 30 + "*")
        self.assertEqual(found[4], " 0 |*" + "-" * 60)
        self.assertEqual(found[8], "-8 |" + " " * 60 + "*")
        self.assertEqual(found[9], "    0 %" + " " * 25 + "50 %" + " " * 25 + "100 % of the span")
        for row, figure in enumerate((4, 3, 2, 1, 0, -1, -2, -3, -4)):
            self.assertEqual(drawing.row_of(figure, -4, 4), row)
        flat = drawing.text_curve([(0, 0), (1, 0)], str)
        self.assertEqual(flat[0], "0 |*" + "-" * 59 + "*")
        above = drawing.text_curve([(0, 4), (1, 8)], str)
        self.assertEqual((above[0], above[4], above[8]), ("8 |" + " " * 60 + "*", "  |*", "0 |" + "-" * 61))
        outside = drawing.text_curve([(-0.1, 8), (1.1, -8)], str)
        self.assertEqual((outside[0], outside[8]), (" 8 |*", "-8 |" + " " * 60 + "*"))


class Page(support.Case):
    def page(self, status, *words):
        self.gives(status, "report", *words, "-o", self.path("page"), "--force")
        return self.bytes("page").decode().replace("\u00a0", " ")

    def test_first_letters(self):
        page = self.page(0, CELL, sample("load-cell.csv"), *OVERDUE)
        for part in (
            '<p class="look">Look at: calibration is overdue since <span class="one">2026-11-03</span></p>',
            "<p>Dashes: large and small</p>",
            "<p>No reading of this chip, at any input, is further from the certificate than ",
            "<p>A chip built from these points could be off by ",
            "<p>Taken: point from ",
            "<p>AGREES says that the chip holds these points; ",
        ):
            self.assertEqual(page.count(part), 1, part)
        page = self.page(0, sample("exhaust-pressure.kind1"), *TODAY)
        for part in (
            "<h2>A calibration curve of 2 segments and 5 terms, in per cent of the span</h2>",
            "<p>0 from 0 %: ",
            "<p>1 from 49.9995 %: ",
        ):
            self.assertEqual(re.sub(" +", " ", page).count(part), 1, part)
        self.assertNotIn("AGREES says", self.page(1, sample("many-points.kind2"), sample("load-cell.csv")))

    def test_a_refusal(self):
        page = self.page(1, sample("damaged.kind1"))
        self.assertEqual(page.count('<p class="verdict">REFUSED: 2 at page 2: '), 1)
        self.assertNotIn(f">{sample('damaged.kind1')}: refused", page)

    def test_labels(self):
        """Per cent with four digits."""
        for billionths, said in ((0, "0 %"), (123456, "+0.01235 %"), (-123456, "-0.01235 %"), (10**9, "+100 %")):
            self.assertEqual(report.percent_label(billionths), said)

    def test_a_picture_in_words(self):
        band = SimpleNamespace(distance=7, words="7 N")
        for places, said in (
            ([(1 / 3, 5), (2 / 3, -7)], "stays in it"),
            ([(1 / 3, 7), (2 / 3, 5)], "stays in it"),
            ([(1 / 3, 5), (2 / 3, -8)], "leaves it"),
            ([(1 / 3, 8), (2 / 3, 5)], "leaves it"),
        ):
            (_, first), (_, last) = places
            greatest, least = (f"{one} at {'33.33' if one == first else '66.67'} % of the span" for one in (max(first, last), min(first, last)))
            told = f"T: from {first} at 33.33 % of the span to {last} at 66.67 % of the span; greatest {greatest}, least {least}"
            self.assertEqual(report.described("T", places, str, None), told)
            self.assertEqual(
                report.described("T", places, str, band),
                f"{told}; the proved band is 7 N, either way, and the line {said}",
            )

    def test_a_band_is_in_its_frame(self):
        page = self.page(0, CELL, sample("load-cell.csv"))
        for svg in re.findall(r"<svg .*?</svg>", page)[2:]:
            (top, height), (first, room) = (
                map(float, re.search(f'class="{kind}" [^>]*y="([^"]*)" [^>]*height="([^"]*)"', svg).groups()) for kind in ("band", "frame")
            )
            self.assertGreater(top, first)
            self.assertLess(top + height, first + room)
            self.assertAlmostEqual(top + height / 2, first + room / 2, delta=2)
        self.assertEqual(page.count('class="band"'), 2)

    def test_where_labels_stand(self):
        """Left of the frame by 8 and 4 below their line; under it by 18 and 36. The last foot ends at its line."""
        panel = panels.Panel("", [0, 1], str)
        panel.axes([(0, "a"), (0.5, "b"), (1, "c")])
        texts = re.findall('<text x="([^"]*)" y="([^"]*)" text-anchor="([^"]*)">([^<]*)</text>', panel.svg())
        feet = [(x, y, anchor, word) for x, y, anchor, word in texts if float(y) > 168 + 4]
        self.assertEqual(
            feet,
            [
                ("112.0", "186.0", "middle", "0 %"),
                ("112.0", "204.0", "middle", "a"),
                ("409.0", "186.0", "middle", "50 %"),
                ("409.0", "204.0", "middle", "b"),
                ("706.0", "186.0", "end", "100 %"),
                ("706.0", "204.0", "end", "c"),
            ],
        )
        left = [(x, anchor) for x, y, anchor, _ in texts if float(y) <= 172]
        self.assertEqual(set(left), {("104.0", "end")})
        lines = re.findall('class="(zero|grid)" x1="112.0" x2="706.0" y1="([^"]*)"', panel.svg())
        self.assertEqual([float(y) for _, y, _, _ in texts[: len(lines)]], [float(y) + 4 for _, y in lines])
        self.assertEqual([kind for kind, _ in lines].count("zero"), 1)
        self.assertAlmostEqual(float(next(y for kind, y in lines if kind == "zero")), 14 + 154 * 1.08 / 1.16, delta=0.06)


class Tray(support.Case):
    def test_columns(self):
        """The longest name gives the width."""
        out, _ = self.gives(0, "tray", CELL, sample("torque.kind1"), *TODAY)
        one, two, _ = out.splitlines()
        self.assertEqual(one.index(" bits"), two.index(" bits"))
        self.assertTrue(one.startswith(f"{CELL}    716 bits  model 77"), one)

    def test_comma_separated_values(self):
        os.mkdir(self.path("certs"))
        self.file("certs/one.csv", sample_bytes("load-cell.csv"))
        out, err = self.gives(
            3, "tray", CELL, sample("damaged.kind1"), self.path("nope"), "--csv", "--certificates", self.path("certs"), *OVERDUE
        )
        rows = list(csv.DictReader(io.StringIO(out)))
        self.assertEqual([row["bytes"] for row in rows], ["128", "128", ""])
        self.assertEqual([row["refused"] for row in rows], ["", "2", ""])
        self.assertEqual(
            [rows[0][name] for name in ("manufacturer", "why", "look at")],
            ["1451", "", "calibration is overdue since 2026-11-03"],
        )
        self.assertEqual(rows[0]["certificate"], self.path("certs/one.csv"))
        self.assertTrue(rows[0]["verdict"].startswith("AGREES: "))
        self.assertEqual([row["verdict"] for row in rows[1:]], ["", ""])
        self.assertIn(
            "dartelm: 3 chips: 1 accepted, 1 refused, 1 not read; total 716 bits; 1 agree with their certificate; 1 to look at\n",
            err,
        )

    def test_progress(self):
        """Of more than 200 chips, at each 200 and at the end."""
        self.assertEqual(tray.AT_ONCE, 200)
        with mock.patch.object(tray, "AT_ONCE", 2):
            for count, said in (
                (1, ""),
                (2, ""),
                (3, "dartelm: 2 of 3 chips\ndartelm: 3 of 3 chips\n"),
                (4, "dartelm: 2 of 4 chips\ndartelm: 4 of 4 chips\n"),
            ):
                names = [self.file(f"{n}.kind0", sample_bytes("oil-pressure.kind0")) for n in range(count)]
                self.assertEqual(self.gives(0, "tray", *names)[1], said)

    def test_a_folder_that_cannot_be_read(self):
        os.mkdir(self.path("folder"))
        with mock.patch.object(tray.os, "scandir", side_effect=PermissionError(13, "Permission denied")):
            out, _ = self.gives(3, "tray", self.path("folder"), CELL, *TODAY)
        lines = out.splitlines()
        self.assertTrue(lines[0].endswith(f"  cannot read {self.path('folder')}: Permission denied"), lines[0])
        self.assertEqual(lines[-1], "2 chips: 1 accepted, 0 refused, 1 not read; total 716 bits")

    def test_one_of_two_is_worth_a_look(self):
        for words, status in (((), 0), (("--strict",), 1)):
            out, _ = self.gives(status, "tray", CELL, HEAT, *words, *OVERDUE)
            self.assertTrue(out.endswith("2 chips: 2 accepted, 0 refused; total 1395 bits; 1 to look at\n"), out)
        self.gives(3, "tray", CELL, self.path("nope"), "--strict", *OVERDUE)

    def test_another_senders_serial(self):
        """Maker, model and serial number are a sender's; the same version number is not."""
        for change, same in (
            ("maker=1452", False),
            ("model=78", False),
            ("serial=556", False),
            ("version number=5", True),
            ("version letter=D", True),
        ):
            self.gives(0, "set", CELL, change, "--level", "maker", "-o", self.path("other"), "--force")
            out, _ = self.gives(0, "tray", CELL, self.path("other"), *TODAY)
            self.assertEqual(out.count("look at: serial 555 is that of "), 2 * same, change)

    def test_json(self):
        found = json.loads(self.gives(1, "tray", CELL, sample("damaged.kind1"), "--json", *OVERDUE)[0])
        cell, damaged = found["chips"]
        self.assertEqual(
            (cell["accepted"], cell["refused"], cell["error"], cell["certificate"], cell["verdict"]),
            (True, None, None, None, None),
        )
        self.assertEqual((damaged["points"], damaged["bits"], damaged["serial"], damaged["look_at"]), (None, None, None, []))


class Why(support.Case):
    def test_a_chip_cut_at_a_page(self):
        for count, whole in ((41, 1), (64, 2), (95, 2), (96, 3), (97, 3), (127, 3)):
            said, _ = self.gives(1, "why", self.file("cut", sample_bytes("load-cell.kind1")[:count]))
            pages = re.findall(r"^  page \d: (.*)$", said, re.MULTILINE)
            self.assertEqual(pages, ["adds up"] * whole + ["is not there whole"] * (4 - whole), count)
            self.assertIn("  taken as the beginning of kind 1:\n", said)
        said, _ = self.gives(1, "why", self.file("cut", sample_bytes("many-points.kind2")[:129]))
        self.assertIn("  taken as the beginning of kind 2:\n", said)
        self.assertEqual(len(re.findall(r"^  page \d+: ", said, re.MULTILINE)), 16)
        self.assertNotIn("taken as", self.gives(1, "why", self.file("cut", bytes(range(1, 40))))[0])

    def test_a_template_that_is_not_known(self):
        """What whole pages say then ends with the serial number."""
        data = bytearray(sample_bytes("load-cell.kind1"))
        data[9] ^= 8
        said, _ = self.gives(1, "why", self.file("chip", support.sealed(bytes(data))))
        told = [line.strip() for line in said.splitlines() if line.startswith("    ")]
        self.assertEqual(
            told,
            ["manufacturer ID: 1451", "model number: 77", "version letter: C", "version number: 4", "serial number: 555"],
        )

    def test_a_measurand_that_is_none(self):
        """Physical values have no unit then and are not told; the other fields are."""
        data = bytearray(sample_bytes("load-cell.kind1"))
        data[10] |= 0xFC
        said, _ = self.gives(1, "why", self.file("chip", support.sealed(bytes(data))))
        told = [line.strip() for line in said.splitlines() if line.startswith("    ")]
        self.assertEqual(told[4:8], [
            "serial number: 555",
            "physical measurand: bits that it cannot have (5 at bit 74)",
            "full-scale electrical value precision: steps of 25 nV/V (1)",
            "minimum electrical value: 0 mV/V",
        ])  # fmt: skip
        self.assertEqual(len(told), 19)

    def test_resistance_senders(self):
        """Their layout has 19 fields, of which whole pages tell those that stand in them."""
        data = bytearray(sample_bytes("temperature.kind1"))
        data[100] ^= 1
        said, _ = self.gives(1, "why", self.file("chip", bytes(data)))
        told = [line.strip() for line in said.splitlines() if line.startswith("    ")]
        self.assertEqual(
            (len(told), told[9], told[10], told[11]),
            (19, "minimum electrical value: 80 ohm", "maximum electrical value: 194 ohm", "mapping method: linear (0)"),
        )

    def test_which_pages_are_bad(self):
        cell = bytearray(sample_bytes("load-cell.kind1"))
        for places, said in (
            ((5,), "likely: one page is damaged, or changed by a writer that did not mend its check byte: page 0\n"),
            ((100,), "did not mend its check byte: page 3\n"),
            ((40, 70), "likely: some pages are damaged or were never written: pages 1, 2\n"),
            ((5, 40, 70, 100), "likely: no page adds up: a bad contact, a dump that does not begin at the first byte, or no such chip\n"),
        ):
            data = bytearray(cell)
            for place in places:
                data[place] ^= 1
            self.gives(1, "why", self.file("chip", bytes(data)), out=said)

    def test_what_to_do(self):
        """By docs/REFUSALS.md: the number's part for the bench, and its meaning where the first line has not all of it."""
        odd = bytearray(sample_bytes("load-cell.kind1"))
        odd[10] |= 0xFC
        for data, last in (
            (
                sample_bytes("blank.kind1"),
                [
                    "likely: a new chip, to which nothing has been written (or a reader that had no contact: read it again)",
                    "to do: not a damaged sender but a new one; build its sheet: 'dartelm export' that of a sender like it, edit its lines "
                    "and 'dartelm make' the image",
                ],
            ),
            (
                sample_bytes("damaged.kind1"),
                [
                    "likely: one page is damaged, or changed by a writer that did not mend its check byte: page 2",
                    "to do: read the chip again; if it stays, the page is damaged, or is the only one that was never written, or the chip "
                    "was pulled while an image was written to it: then write that image again. Nothing on the chip is trusted then",
                ],
            ),
            (
                support.sealed(bytes(odd)),
                [
                    "to do: the sheet was written wrongly; the sender itself may be sound",
                    "5 is: a code that the field's table has not: a maker below 17, a letter outside A to Z, a count of points of 0, domain 1 "
                    "of a curve. All ones in a calibration point, or in a start, exponent or coefficient of a curve, is one too. In a fetch it "
                    "is also an entry whose length the field cannot have or that ends past the stream",
                ],
            ),
        ):
            self.assertEqual(self.gives(1, "why", self.file("chip", data))[0].splitlines()[-2:], last)

    def test_an_image_in_json(self):
        """What is written out is told on standard error: standard output has the JSON value alone."""
        longer = self.file("longer", sample_bytes("load-cell.kind1") + b"\n")
        out, err = self.gives(0, "why", longer, "--json", "-o", self.path("new"))
        self.assertFalse(json.loads(out)["accepted"])
        self.assertTrue(
            err.startswith(f"{self.path('new')}: written and read again, accepted, kind 1 (128 bytes), 716 of 992 bits"),
            err,
        )
        out, _ = self.gives(0, "why", longer, "-o", self.path("again"))
        self.assertIn("again: written and read again, accepted, ", out)

    def test_noughts(self):
        said, _ = self.gives(1, "why", self.file("zero", bytes(128)))
        self.assertEqual(said.count(": adds up, every byte 0\n"), 4)
        self.assertIn("to do: read the chip again; if it stays, it holds no sheet: 'dartelm make' one\n", said)
        self.assertEqual(said.count("to do: "), 1)
        self.assertNotIn("still say", said)

    def test_what_is_a_page(self):
        image = read_image(CELL)
        self.assertEqual([why.page_bytes(image, page) for page in range(4)], [image.data[n : n + 32] for n in (0, 32, 64, 96)])
        smallest = read_image(sample("oil-pressure.kind0"))
        self.assertEqual(why.page_bytes(smallest, 0), smallest.data)


if __name__ == "__main__":
    support.unittest.main()
