"""Rules at their borders: what a field takes, what is worth a look, how much is read, where a refusal is."""
import errno
import io
import json
import os
import re
from fractions import Fraction
from types import SimpleNamespace
from unittest import mock

import bus
import support
from dartelm import calls
from dartelm.command import fields, files, looks, objects, owserver, panels, read, readings, refusals, rules, singles, storing, write
from dartelm.command.fields import FIELDS, Around
from dartelm.command.image import Image, from_stream, read_image, read_sheet
from dartelm.command.trouble import Refusal, Trouble
from support import TODAY, sample, sample_bytes

CELL, HEAT = sample("load-cell.kind1"), sample("temperature.kind1")


class Fields(support.Case):
    def test_initials_between_marks(self):
        """Blanks at an end need marks; elsewhere marks are allowed."""
        form, by = FIELDS[33][18], Around(33, 4, 1)
        for text, shown in ((" AB", '" AB"'), ("AB ", '"AB "'), ("   ", '"   "'), ("A B", "A B"), ("A.B", "A.B")):
            code = calls.code(19, text)
            self.assertEqual(form.shown(code, by), shown)
            self.assertEqual(form.parsed(f'"{text}"', by), code)
        for text, told in (('""', ""), ('"A.B', '"A.B'), ('A.B"', 'A.B"'), ('"A.B.', '"A.B.'), ('"AB"', "AB"), ('"', '"')):
            said = re.escape(f"calibration initials: '{told}' cannot stand there; write it as three of A to Z, blank , . / _ @")
            self.assertRaisesRegex(Trouble, f"^{said}$", form.parsed, text, by)

    def test_counts_that_no_call_takes(self):
        """2^62 tenths of a volt are too many, whichever way."""
        form, by = FIELDS[33][14], Around(33, 4, 1)
        for sign in ("", "-"):
            self.assertEqual(form.parsed(f"{sign}461168601842738790.3V", by), int(f"{sign}{2**62 - 1}"))
            for figure in ("461168601842738790.4", "461168601842738790.5", "922337203685477580.8"):
                self.assertRaisesRegex(Trouble, "is far outside what it counts$", form.parsed, f"{sign}{figure}V", by)

    def test_halfway_by_difference_or_by_ratio(self):
        """Steps of a difference have their border in the middle: 1.05 of 1 and 1.1. Steps of a ratio at the root of their product."""
        for template, precision, field, below, above in (
            (33, 1, 13, ("1.0499ohm", 10), ("1.05ohm", 11)),
            (33, 1, 15, ("0.1499V", 1), ("0.15V", 2)),
            (33, 1, 16, ("0.1499V", 1), ("0.15V", 2)),
            (33, 1, 17, ("0.1499V", 1), ("0.15V", 2)),
            (33, 1, 20, ("1.4999d", 1), ("1.5d", 2)),
            (33, 1, 10, ("37.4nV/V", 25), ("37.5nV/V", 50)),
            (33, 1, 11, ("37.4nV/V", 25), ("37.5nV/V", 50)),
            (33, 1, 14, ("1.13578us", 100), ("1.13579us", 129)),
            (32, 2, 10, ("1.4999ohm", 1), ("1.5ohm", 2)),
            (32, 2, 11, ("1.4999ohm", 1), ("1.5ohm", 2)),
            (32, 2, 13, ("1.13578us", 100), ("1.13579us", 129)),
            (32, 2, 14, ("1.0232uA", 10000), ("1.0234uA", 10471)),
            (32, 2, 15, ("1.0232uA", 10000), ("1.0234uA", 10471)),
            (32, 2, 18, ("1.4999d", 1), ("1.5d", 2)),
        ):
            reference = storing.Reference(template, precision)
            for text, stored in (below, above):
                value = FIELDS[template][field - 1].parsed(text, Around(template, 4, precision))
                self.assertEqual(reference.stored(field, value), stored, (template, field, text))

    def test_names_that_are_near(self):
        for text, name in (
            ("impedence", "bridge element impedance"),
            ("calibration dte", "calibration date"),
            ("sereal number", "serial number"),
        ):
            self.assertRaisesRegex(
                Trouble,
                f"^there is no field '{text}' in template 33; did you mean '{name}'[?]$",
                fields.field_named,
                33,
                text,
            )
        self.assertRaisesRegex(Trouble, "^there is no field 'zzz' in template 33$", fields.field_named, 33, "zzz")
        self.assertRaisesRegex(Trouble, "^there is no field 20 in template 32: they are 1 to 19$", fields.field_named, 32, " 20")

    def test_fields_that_a_sheet_ends_with(self):
        text, _ = self.gives(0, "export", CELL)
        for old, new, said in (
            ("ID = 12\n", "ID = 3000\n", "sheet:23: refused: 10 at field 21: measurement location ID is 3000; it has to be 0 to 2047\n"),
            ('"rolling', '"roll\\x00ing', "sheet:31: refused: 10 at place 22: a character 0 or above 127\n"),
        ):
            self.assertEqual(text.count(old), 1)
            self.gives(
                1,
                "make",
                self.file("sheet", text.replace(old, new)),
                "--dry-run",
                err=f"nothing is written: {self.room}/{said}",
            )


    def test_what_each_field_counts(self):
        """Document 01: nV/V, 0.1 ohm, 10 ns, 0.1 V, days, ohm and 0.1 nA; at full precision a Single of V/V or ohm."""
        for template, precision, field, text, value in (
            (33, 0, 10, "-3 mV/V", -3000000),
            (33, 1, 10, "-3 mV/V", -3000000),
            (33, 2, 10, "-3 mV/V", -0.003),
            (33, 0, 11, "2 mV/V", 2000000),
            (33, 1, 11, "2 mV/V", 2000000),
            (33, 2, 11, "2 mV/V", 0.002),
            (33, 1, 13, "350.5 ohm", 3505),
            (33, 1, 14, "1.29 us", 129),
            (33, 1, 15, "10.1 V", 101),
            (33, 1, 16, "5.1 V", 51),
            (33, 1, 17, "12.1 V", 121),
            (33, 1, 20, "365 days", 365),
            (33, 1, 21, "12", 12),
            (33, 1, 18, "1998-01-02", 1),
            (33, 1, 3, "C", 3),
            (32, 0, 10, "80 ohm", 80),
            (32, 2, 10, "80 ohm", 80),
            (32, 3, 10, "80.5 ohm", 80.5),
            (32, 0, 11, "190 ohm", 190),
            (32, 2, 11, "194 ohm", 194),
            (32, 3, 11, "194.5 ohm", 194.5),
            (32, 2, 13, "1.29 us", 129),
            (32, 2, 14, "1.0471 uA", 10471),
            (32, 2, 15, "5.0118723 mA", 50118723),
            (32, 2, 16, "1998-01-02", 1),
            (32, 2, 18, "365 days", 365),
            (32, 2, 19, "12", 12),
        ):
            form, by = FIELDS[template][field - 1], Around(template, 4, precision)
            stored = value if isinstance(value, int) else singles.nearest(fields.EXACT.create_decimal(str(value)))
            self.assertEqual(form.number, field)
            self.assertEqual(form.shown(stored, by), text)
            found = form.parsed(text, by)
            self.assertEqual((found, type(found)), (stored, type(value)), (template, precision, field))
            if value and template == 33 and field not in (3, 18, 21):
                self.assertEqual(form.difference(text, stored, by).split(" ")[0], "0")

    def test_calibration_dates_and_periods(self):
        self.assertEqual((fields.DATE, fields.PERIOD), ({33: 18, 32: 16}, {33: 20, 32: 18}))


class Rows(support.Case):
    def test_rows_that_are_told(self):
        """Eight bytes each, counted from 1, until the chip holds the image."""
        name, wanted = "2D.0123456789AB", sample_bytes("torque.kind1")
        held, said = bytearray(sample_bytes("load-cell.kind1")), []

        def write_row(offset, row):
            held[offset : offset + len(row)] = row

        chip = SimpleNamespace(name=name, kind=1, write_row=write_row, read=lambda: bytes(held))
        write.Rows(chip, bytes(held), wanted, said.append).write()
        self.assertEqual(bytes(held), wanted)
        *rows, last = said
        found = [tuple(map(int, re.fullmatch(r"  row (\d+): bytes (\d+) to (\d+)", line).groups())) for line in rows]
        self.assertEqual([number for number, _, _ in found], list(range(1, len(rows) + 1)))
        self.assertTrue(all(first % 8 == 0 and end == first + 7 for _, first, end in found), found)
        self.assertGreater(len(rows), 4)
        self.assertEqual(last, f"ow:{name}: written and read back, accepted, {len(rows)} rows")

    def test_a_lock(self):
        """Another's link is not followed; the file is for all to read and for its owner to write."""
        self.addCleanup(os.umask, os.umask(0o022))
        with mock.patch.object(write.tempfile, "tempdir", self.room):
            with write.Lock("one"):
                self.assertEqual(os.stat(self.path("dartelm-one.lock")).st_mode & 0o777, 0o644)
                self.assertRaisesRegex(Trouble, "^ow:one: another command writes this chip now$", write.Lock("one").__enter__)
            os.symlink("dartelm-one.lock", self.path("dartelm-two.lock"))
            self.assertRaisesRegex(Trouble, "^cannot lock .*/dartelm-two.lock: ", write.Lock("two").__enter__)

    def test_what_cannot_be_said(self):
        """Standard output is given up, and the error is raised at the end; a line is told when it is said."""
        say = write.Progress()
        full = mock.Mock(**{"flush.side_effect": OSError(28, "No space left on device")})
        with mock.patch.object(write.os, "dup2") as given_up, mock.patch.object(write.sys, "stdout", full):
            say("one")
        self.assertEqual(given_up.call_args[0][1], 1)
        os.close(given_up.call_args[0][0])
        self.assertRaises(OSError, say.end)

    def test_what_was_on_a_chip_replaces_no_file(self):
        chip = SimpleNamespace(name=self.path("one"), kind=1)
        with mock.patch.object(write.files, "write_new") as made:
            write.keep(chip, b"old", None, [].append)
            write.keep(chip, b"old", self.path("asked"), [].append)
        self.assertEqual(
            [words for words, _ in made.call_args_list],
            [(self.path("one-old.kind1"), b"old", False), (self.path("asked"), b"old", False)],
        )


class Looks(support.Case):
    def look(self, name, *changes):
        self.gives(0, "set", sample(name), *changes, "--level", "maker", "-o", self.path("chip"), "--force", *TODAY)
        sheet = read_sheet(read_image(self.path("chip")))
        return list(looks.looks(sheet, TODAY[1]))

    def test_orders(self):
        for name, changes, said in (
            ("load-cell.kind1", ("min phys=6000N",), ["least above greatest physical value: 6000 N is above 5000 N (fields 7 and 8)"]),
            ("temperature.kind1", ("min phys=251°C",), ["least above greatest physical value: 251 °C is above 250 °C (fields 7 and 8)"]),
            ("temperature.kind1", ("min elec=195ohm",), ["least above greatest electrical value: 195 ohm is above 194 ohm (fields 10 and 11)"]),
            ("temperature.kind1", ("max elec=missing",), []),
            ("temperature.kind1", ("min phys=missing",), []),
            ("temperature.kind1", ("min phys=missing", "max phys=missing"), []),
            ("temperature.kind1", ("current nom=missing",), []),
            ("temperature.kind1", ("current max=missing",), []),
            ("temperature.kind1", ("period=4095days",), []),
            (
                "temperature.kind1",
                ("current nom=5.2480746mA",),
                ["nominal above greatest excitation current: 5.2480746 mA is above 5.0118723 mA (fields 14 and 15)"],
            ),
            ("load-cell.kind1", ("excitation min=12V", "excitation max=5V"), ["least above greatest excitation: 12 V is above 5 V (fields 16 and 17)"]),
            ("load-cell.kind1", ("nominal=11V", "excitation min=10V", "excitation max=10V"), ["the nominal excitation, 11 V, is not between 10 V and 10 V"]),
            ("load-cell.kind1", ("nominal=missing",), []),
            ("load-cell.kind1", ("nominal=20V", "excitation min=missing"), []),
            ("load-cell.kind1", ("nominal=20V", "excitation max=missing"), []),
            ("load-cell.kind1", ("nominal=20V", "response=missing"), ["the nominal excitation, 20 V, is not between 5 V and 12 V"]),
        ):
            self.assertEqual(self.look(name, *changes), said, changes)

    def test_an_end_that_is_outside(self):
        said = "no reading is possible: maximum electrical value is 3000 mV/V; it has to be -2000 mV/V to 2000 mV/V"
        self.assertEqual(self.look("brake-pressure.kind1", "max elec=3V/V", "date=2026-01-01"), [said])

    def test_ends_that_are_both_missing(self):
        said = self.look("load-cell.kind1", "min phys=missing", "max phys=missing")
        self.assertEqual(said, ["no reading is possible: minimum physical value is missing"])

    def test_a_pointer_that_drops_back(self):
        """A point of 153,000 billionths is ten steps; with a deviation of as much before it both sums are the same."""
        sheet = read_sheet(read_image(CELL))
        said = "the pointer drops back between calibration points {} and {}: point plus deviation falls from {} % to {} %"
        for points, wanted in (
            ([(0, 153000), (153000, 0), (306000, 0)], []),
            ([(0, 154000), (153000, 0), (306000, 0)], [said.format(0, 1, "0.0154", "0.0153")]),
            ([(0, 0), (153000, 154000), (306000, 0)], [said.format(1, 2, "0.0307", "0.0306")]),
            ([(0, 154000), (153000, 0), (306000, -160000)], [said.format(0, 1, "0.0154", "0.0153")]),
        ):
            sheet.points = points
            for domain, found in ((0, wanted), (1, []), (None, [])):
                sheet.domain = domain
                self.assertEqual(list(looks.sums(sheet)), found)


class Read(support.Case):
    def test_a_mebibyte_of_a_file(self):
        path = self.file("long", bytes((1 << 20) + 3))
        self.assertEqual(len(files.read_bytes(path)), 1 << 20)

    def test_a_closed_input(self):
        with mock.patch.object(files.sys, "stdin", None):
            self.assertRaisesRegex(Trouble, "^cannot read -: standard input is closed$", files.read_bytes, "-")
            self.assertEqual(files.read_bytes(CELL), sample_bytes("load-cell.kind1"))

    def test_a_file_is_written_in_its_own_folder(self):
        for path, folder in ((self.path("new"), self.room), ("new", ".")):
            with mock.patch.object(files, "nameless", side_effect=OSError(30, "Read-only file system")) as made:
                said = f"^cannot write {re.escape(path)}: Read-only file system$"
                self.assertRaisesRegex(Trouble, said, files.write_new, path, b"", False)
            self.assertEqual(made.call_args[0][0], folder)
            self.assertEqual(os.path.dirname(made.call_args[0][1]), folder)

    def test_which_dartelm(self):
        self.assertRegex(self.gives(0, "--version")[0], r"^Dartelm [0-9]+( \(.*\))?, library [^\n]*\n$")

    def test_streams(self):
        """Document 01: check bytes by which the bytes of a page add up to 0 modulo 256, of kind 0 with the register."""
        for name in ("oil-pressure.kind0", "load-cell.kind1", "many-points.kind2"):
            data = sample_bytes(name)
            first = 8 if len(data) == 40 else 0
            stream = data[:first] + b"".join(data[n + 1 : n + 32] for n in range(first, len(data), 32))
            found = from_stream(stream)
            self.assertEqual((found.data, found.kind), (data, int(name[-1])))
            for other in (stream[:-1], stream + b"\0", b""):
                self.assertIsNone(from_stream(other))

    def test_a_chip_is_asked_by_its_kind(self):
        for size, kind in ((40, 0), (128, 1), (512, 2)):
            self.assertEqual(Image(bytes(size)).kind, kind)
            self.assertEqual(Image(bytes(size), 1).kind, 1)

    def test_columns_of_readings(self):
        """To the right; a refusal may be longer than its column."""
        rows = [("input", "figure", "of the span", "correction"), ("1 mV/V", "2500 N", "50 %", "0 %"), ("-10 mV/V", "refused: 14 at place 0", "", "")]
        self.assertEqual(
            list(read.table(rows)),
            ["     input  figure  of the span  correction", "    1 mV/V  2500 N         50 %         0 %", "  -10 mV/V  refused: 14 at place 0"],
        )

    def test_even_inputs(self):
        self.assertEqual(readings.evenly((10, 20), 1), [10])
        self.assertEqual(readings.evenly((10, 20), 2), [10, 20])
        self.assertEqual(readings.evenly((0, 10), 4), [0, 3, 6, 10])

    def test_ends_in_nanovolts(self):
        """A Single of V/V to the nearest nV/V, a half upward."""
        sheet = read_sheet(read_image(CELL))
        for ends, wanted in (
            ((0, 2000000), (0, 2000000)),
            ((-7.5e-06, 0.0019876), (-7500, 1987600)),
            ((0.5e-9, 2.5e-9), (1, 3)),
            ((0.4e-9, 1.0), (0, 10**9)),
            ((-0.6e-9, 1.0), (-1, 10**9)),
        ):
            sheet.values[10], sheet.values[11] = ends
            self.assertEqual(readings.ends_of(sheet), wanted)
        for ends in ((None, 1), (1, None)):
            sheet.values[10], sheet.values[11] = ends
            self.assertIsNone(readings.ends_of(sheet))
            self.assertIsNone(readings.electrical_ruler(sheet))

    def test_the_nearest_place(self):
        """Of a figure halfway between two places the lower; up to a tenth outside."""
        for low, high in ((0.0, 1e9), (1e9, 0.0)):
            ruler, turned = readings.Ruler(low, high), low > high

            def place(figure):
                return ruler.place(Fraction(10**9 - figure if turned else figure))

            for figure, wanted in (
                (0, 0),
                (7, 7),
                (Fraction(74, 10), 7),
                (Fraction(76, 10), 8),
                (Fraction(15, 2), 7),
                (-(10**8), -(10**8)),
                (11 * 10**8, 11 * 10**8),
            ):
                self.assertEqual(place(figure), wanted, (low, figure))
            for figure in (-(10**8) - 1, 11 * 10**8 + 1):
                self.assertIsNone(place(figure))
        self.assertIsNone(readings.Ruler(7.0, 7.0).place(Fraction(7)))

    def test_each_billionth_has_its_place(self):
        chance = support.random.Random(8)
        places = [chance.randrange(-(10**8), 11 * 10**8) for _ in range(200)]
        for low, high in ((0.0, 1e9), (1e9, 0.0)):
            ruler = readings.Ruler(low, high)
            figures = [Fraction(place if low < high else 10**9 - place) for place in places]
            self.assertEqual(ruler.places(figures), places)

    def test_a_span_without_nought(self):
        """Whether readings are taken is asked at the least electrical value."""
        self.gives(0, "set", CELL, "min elec=1mV/V", "--level", "maker", "-o", self.path("chip"))
        self.gives(0, "show", self.path("chip"), *TODAY, out="dashes: large and small\n")
        self.gives(0, "set", sample("brake-pressure.kind1"), "min elec=-3e30V/V", "--level", "maker", "-o", self.path("far"))
        self.gives(0, "show", self.path("far"), *TODAY, out="dashes: none: refused: 21 at field 10: no reading: ")

    def test_a_curves_correction(self):
        """To a billionth of the greater end's power of ten: of 5000 N to 0.000001 N, of -50,000 N to 0.00001 N."""
        sheet = read_sheet(read_image(CELL))
        unit = fields.around(sheet).unit()
        for low, high, shown in ((0.0, 5000.0, "+0.123457 N"), (-50000.0, 5000.0, "+0.12346 N"), (0.0, 9.0, "+0.123456789 N")):
            sheet.values[7], sheet.values[8] = low, high
            one = SimpleNamespace(figure=0.1234567891, straight=0.0)
            self.assertEqual(readings.curve_text(sheet, one, unit, ""), shown)
        self.assertEqual(readings.sheet_prefix(sheet, unit), "")
        sheet.values[7], sheet.values[8] = -50000.0, 5000.0
        self.assertEqual(readings.sheet_prefix(sheet, unit), "k")
        for ends in ((None, 5000.0), (-50000.0, None), (None, None)):
            sheet.values[7], sheet.values[8] = ends
            self.assertEqual(readings.sheet_prefix(sheet, unit), "")


# docs/REFUSALS.md by hand: what the place is, where a number has one sort of place alone.
PLACES = {
    1: "place", 2: "page", 3: "bit", 4: "bit", 5: "bit", 6: "bit", 7: "place", 8: "number", 9: "place", 10: "place", 11: "bits",
    12: "field", 13: "field", 14: "place", 16: "length", 17: "place", 18: "bytes", 19: "field", 20: "field", 21: "field", 22: "place",
    23: "points", 24: "place", 25: "terms", 26: "ticks",
}  # fmt: skip


class Refusals(support.Case):
    def test_places(self):
        for number, place in PLACES.items():
            self.assertTrue(refusals.headline(Refusal(number, 3)).startswith(f"refused: {number} at {place} 3: "), number)
            field = "field" if number in (9, 10) else place
            self.assertEqual(rules.numbered(Refusal(number, 3), "said"), f"refused: {number} at {field} 3: said")

    def test_a_long_line(self):
        """Of more than 110 characters what stands before a colon is enough; brackets are not cut."""
        for before, after, cut in ((50, 58, False), (50, 59, True), (100, 8, False), (100, 9, True)):
            text = "a" * before + ": " + "b" * after
            self.assertEqual(refusals.shortened(text + ". More"), "a" * before if cut else text)
            self.assertEqual(refusals.shortened(text + "; more"), "a" * before if cut else text)
        self.assertEqual(refusals.shortened("one (two. three) four. five"), "one (two. three) four")
        self.assertEqual(refusals.part_with("one, two (three, four), five", "four"), "two (three, four)")
        self.assertEqual(refusals.part_with("one, two, five", "six"), "one, two, five")
        self.assertEqual(refusals.shortened("(one. two) three. four"), "(one. two) three")

    def test_how_far_figures_are_taken(self):
        for inside, least, greatest in (
            (0, 0, 0),
            (0, -1, 1),
            (5, 5, 6),
            (5, -1000, 10**9),
            (17, 17, 16381),
            (0, 0, (1 << 40) + 3),
        ):
            self.assertEqual(rules.ends_of(inside, lambda one: least <= one <= greatest), [least, greatest])

    def test_points_at_their_ends(self):
        """Document 01: points 0 to 65,534 in steps of 15,300 billionths; deviations from -100 % in steps of 1000 up to 109.715 %."""
        for stored, inside, count, said in (
            (storing.points, (0, 1002670200), 1002670201, "100.2670201 % is more than a chip can hold (100.26702 %)"),
            (storing.points, (0, 1002670200), -1, "-0.0000001 % is less than a chip can hold (0 %)"),
            (storing.deviations, (-1000000000, 1097150000), -1000000001, "-100.0000001 % is less than a chip can hold (-100 %)"),
            (storing.deviations, (-1000000000, 1097150000), 1097150001, "109.7150001 % is more than a chip can hold (109.715 %)"),
        ):
            self.assertEqual([rules.billionths_rule(stored, one) for one in inside], [None, None])
            self.assertEqual(rules.billionths_rule(stored, count), said)
        self.assertEqual(rules.point_rule((-1, -1000000001)), "-0.0000001 % is less than a chip can hold (0 %)")
        self.assertEqual(rules.point_rule((0, -1000000001)), "deviation -100.0000001 % is less than a chip can hold (-100 %)")
        self.assertEqual(rules.point_rule((0, 0)), "out of range")


class Server(support.Case):
    def test_ports(self):
        for port in ("1", "65535"):
            self.assertEqual(owserver.Owserver(f"bench:{port}").port, int(port))
        for port in ("0", "65536", "99999"):
            self.assertRaisesRegex(Trouble, f"^-s: 'bench:{port}' is no HOST:PORT$", owserver.Owserver, f"bench:{port}")

    def test_how_long_it_waits(self):
        """Five seconds of silence, and a minute in all, as its message says."""
        self.assertEqual((owserver.SILENCE, owserver.PATIENCE), (5, 60))

    def answer(self, *heads, data=b""):
        """What a server's words are taken for, which come in pieces."""
        told = io.BytesIO(b"".join(owserver.HEAD.pack(*head) for head in heads) + data)
        link = SimpleNamespace(recv=lambda count: told.read(max(1, count * 2 // 3)))
        return owserver.Owserver("bench").answer(link)

    def test_answers(self):
        self.assertEqual(self.answer((0, 3, 3, 0, 0, 0), data=b"abc"), (3, b"abc"))
        self.assertEqual(self.answer((0, -1, 0, 0, 0, 0), (0, 0, 0, 0, 0, 0)), (0, b""))
        self.assertEqual(self.answer((0, 0, -4095, 0, 0, 0)), (-4095, b""))
        self.assertEqual(self.answer((0, 65536, 0, 0, 0, 0), data=bytes(65536)), (0, bytes(65536)))
        for head in ((0, 0, -4096, 0, 0, 0), (1, 0, 0, 0, 0, 0), (-1, 0, 0, 0, 0, 0), (0, 65537, 0, 0, 0, 0)):
            self.assertRaisesRegex(Trouble, "^what answers at bench:4304 is no owserver$", self.answer, head)
        self.assertRaisesRegex(
            Trouble,
            "closed the connection in the middle of an answer$",
            self.answer,
            (0, 3, 3, 0, 0, 0),
            data=b"ab",
        )

    def test_questions(self):
        """Six words of 32 bits, the high byte first: 0, the payload's length, the type, uncached and ownet, size and offset."""
        for words, head, payload in (
            ((7, "/"), "00000000 00000002 00000007 00000120 00000000 00000000", b"/\0"),
            ((2, "/x/memory", 128), "00000000 0000000a 00000002 00000120 00000080 00000000", b"/x/memory\0"),
            ((3, "/x/memory", 3, 8, b"abc"), "00000000 0000000d 00000003 00000120 00000003 00000008", b"/x/memory\0abc"),
        ):
            link = mock.MagicMock()
            link.__enter__.return_value = link
            link.recv.side_effect = [owserver.HEAD.pack(0, 2, 2, 0, 0, 0), b"ok"]
            with mock.patch.object(owserver.socket, "create_connection", return_value=link) as made:
                self.assertEqual(owserver.Owserver("[::1]:7").ask(*words), b"ok")
            self.assertEqual(made.call_args[0], (("::1", 7), 5))
            self.assertEqual(link.sendall.call_args[0][0], bytes.fromhex(head) + payload)

    def test_no_server(self):
        """The reason alone; an error that has none is told as it is."""
        for error, said in ((OSError(111, "Connection refused"), "Connection refused"), (UnicodeError("label too long"), "label too long")):
            with mock.patch.object(owserver.socket, "create_connection", side_effect=error):
                with self.assertRaises(Trouble) as caught:
                    owserver.Owserver("bench").ask(7, "/")
            self.assertEqual(str(caught.exception), f"no owserver at bench:4304: {said}; {owserver.CONFIGURE}")

    def test_patience(self):
        with mock.patch.object(owserver.time, "monotonic", side_effect=(100.0, 160.0, 160.1)):
            said = "^the server at bench:4304 is at it for a minute, and does not answer$"
            self.assertRaisesRegex(Trouble, said, self.answer, *[(0, -1, 0, 0, 0, 0)] * 3)
        with mock.patch.object(owserver.time, "monotonic", side_effect=(100.0, 160.0)):
            self.assertEqual(self.answer((0, -1, 0, 0, 0, 0), (0, 0, 7, 0, 0, 0)), (7, b""))

    def test_a_chip_that_is_read_only(self):
        one = "2D.0123456789AB"
        there = bus.Bus({one: sample_bytes("load-cell.kind1")})
        self.addCleanup(there.close)
        chip = owserver.Owserver(there.place).chip(one)
        for number in (errno.EROFS, errno.EACCES, errno.ENOTSUP):
            self.assertIn(
                f"ow:{one}: it is read-only, or the server is: {os.strerror(number)}",
                str(chip.trouble(owserver.Denied(number))),
            )
        self.assertIn("there is no such chip at", str(chip.trouble(owserver.Denied(1))))
        self.assertIn("the server answers: No such file or directory; check", str(chip.trouble(owserver.Denied(2))))


class Json(support.Case):
    def object(self, status, *words):
        return json.loads(self.gives(status, *words, "--json")[0])

    def test_a_curve(self):
        """Both segments' own terms, as the sheet's lines have them."""
        (found,) = self.object(0, "show", sample("exhaust-pressure.kind1"), *TODAY)
        lines = self.gives(0, "export", sample("exhaust-pressure.kind1"))[0].splitlines()
        told = [f"segment {one['start_billionths']}" for one in found["segments"]]
        self.assertEqual(told, ["segment 0", "segment 499995000"])
        terms = [f"term = {term['exponent']}, {term['coefficient']}" for one in found["segments"] for term in one["terms"]]
        self.assertEqual(terms, [line for line in lines if line.startswith("term")])
        self.assertEqual([len(one["terms"]) for one in found["segments"]], [2, 3])
        self.assertEqual((found["domain"], found["points"], found["accepted"]), (None, [], True))
        reading = self.object(0, "read", sample("exhaust-pressure.kind1"), "0.5mV/V")["readings"][0]
        self.assertAlmostEqual(reading["correction"], 300000 * (0.004 * 25 - 0.00008 * 25**2) / 100, places=3)
        self.assertEqual(reading["correction_billionths"], 0)

    def test_a_damaged_chip(self):
        found = self.object(1, "why", sample("damaged.kind1"))
        self.assertEqual((found["accepted"], [one["page"] for one in found["pages"]]), (False, [0, 1, 2, 3]))
        lines = self.gives(1, "why", sample("damaged.kind1"))[0].splitlines()
        self.assertEqual(found["likely"], ["one page is damaged, or changed by a writer that did not mend its check byte: page 2"])
        self.assertEqual(["to do: " + line for line in found["to_do"]], [line for line in lines if line.startswith("to do: ")])
        self.assertTrue(found["to_do"][0].startswith("read the chip again"))
        self.assertEqual(found["refusal"]["text"].partition(":")[0], "refused")
        self.assertTrue(self.object(0, "why", CELL)["accepted"])
        longer = self.file("longer", sample_bytes("load-cell.kind1") + b"\n")
        self.assertFalse(self.object(1, "why", longer)["accepted"])

    def test_a_point_of_a_certificate(self):
        cert = self.file("cert", "point (%),deviation (%)\n0,0\n40,0.046\n100,-0.021\n")
        found = self.object(1, "certificate", CELL, cert)
        self.assertEqual(found["verdict"], "DIFFERS")
        self.assertTrue(found["text"].startswith("DIFFERS: by up to "))
        self.assertEqual([one["point"] for one in found["points"]], ["1", "2", "3"] + ["chip"] * 6)
        second = found["points"][1]
        self.assertEqual(
            (second["point"], second["at_billionths"], second["input_nV_per_V"], second["within"]),
            ("2", 400000000, 800000, False),
        )
        self.assertEqual(second["difference_billionths"], second["chip_billionths"] - second["certificate_billionths"])
        self.assertEqual(second["certificate_billionths"], 400460000)

    def test_its_form(self):
        """A level is two blanks deeper, and letters are written as they are."""
        said, _ = self.gives(0, "show", HEAT, "--json", *TODAY)
        self.assertTrue(said.startswith(f'[\n  {{\n    "file": "{HEAT}",\n    "accepted": true,\n'), said[:80])
        self.assertIn('"unit": "°C"', said)

    def test_a_tray(self):
        os.mkdir(self.path("certs"))
        self.file("certs/one.csv", sample_bytes("load-cell.csv"))
        (found,) = self.object(0, "tray", CELL, "--certificates", self.path("certs"), *TODAY)["chips"]
        self.assertEqual((found["certificate"], found["verdict"].partition(":")[0]), (self.path("certs/one.csv"), "AGREES"))
        self.assertEqual(
            (found["manufacturer"], found["model"], found["version"], found["date"], found["due"]),
            ("1451", "77", "C4", "2025-11-03", "2026-11-03"),
        )

    def test_a_figure_that_is_not_finite(self):
        self.assertEqual([objects.number(figure) for figure in (1.5, float("inf"), float("-inf"))], [1.5, None, None])


class Panels(support.Case):
    def test_marks_in_words(self):
        """What a picture shows stands between marks, and may have some."""
        self.assertIn('aria-label="a &quot;b&quot; &lt; c">', panels.Panel('a "b" < c', [0, 1], str).svg())

    def test_ticks(self):
        """A figure a hair outside an end, by the float's own digits, counts as at it."""
        self.assertEqual([round(one, 9) for one in panels.ticks(0.1, 0.5)], [0.1, 0.2, 0.3, 0.4, 0.5])
        self.assertEqual([round(one, 9) for one in panels.ticks(0.3 - 1e-17, 0.7)], [0.3, 0.4, 0.5, 0.6, 0.7])
        self.assertEqual(panels.ticks(1 + 5e-9, 6), [2, 3, 4, 5, 6])
        self.assertEqual(panels.ticks(1, 6 - 5e-9), [1, 2, 3, 4, 5])
        self.assertEqual(panels.ticks(0.01, 4.09), [1, 2, 3, 4])
        self.assertEqual(panels.ticks(-4.09, -0.01), [-4, -3, -2, -1])
        self.assertEqual(panels.ticks(0, 80), [0, 10, 20, 30, 40, 50, 60, 70, 80])
        self.assertEqual(panels.ticks(0, 81), [0, 20, 40, 60, 80])


if __name__ == "__main__":
    support.unittest.main()
