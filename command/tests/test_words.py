"""What is understood of a table's, a sheet's and a command's words, and what is told of those that are not."""
from types import SimpleNamespace
from unittest import mock

import support
from dartelm.command import certificate, chips, main, sheets, storing, tables
from dartelm.command.image import read_image, read_sheet
from dartelm.command.trouble import Refusal, Trouble
from support import TODAY, sample

CELL = sample("load-cell.kind1")


class Tables(support.Case):
    def points(self, text, **columns):
        table = tables.read_table(self.file("cert", text), tables.Asked(**columns))
        return certificate.points_of(table, certificate.Scale(read_sheet(read_image(CELL))))

    def refused(self, said, text, **columns):
        self.assertRaisesRegex(Trouble, said, self.points, text, **columns)

    def test_a_deviation_that_is_headed_like_a_point(self):
        text = "Load (N),Load difference (N)\n1000,0.75\n"
        self.assertEqual(self.points(text, deviation="Load difference (N)"), [(200000000, 150000)])
        self.refused(
            "'Load [(]N[)]' and 'Load difference [(]N[)]' may each be the point",
            "Load (N),Load difference (N),Deviation (N)\n1,2,3\n",
        )
        self.assertEqual(self.points("Load error (N),Point (N)\n-0.75,1000\n", error="Load error (N)"), [(200000000, 150000)])

    def test_thousands(self):
        """Per cent has none, whether a head or a cell says it; a figure in newtons may."""
        thousands = "may be thousands; write it without a mark, or with other than three digits behind it$"
        self.assertEqual(self.points("Point;Deviation\n20.000 %;1.000 %\n"), [(200000000, 10000000)])
        self.assertEqual(self.points("Point (%);Deviation (% of span)\n20.000;1.000\n"), [(200000000, 10000000)])
        self.refused(thousands, "Load (N);Deviation (%)\n1.000;1.015\n")
        self.refused(thousands, "Load;Deviation\n1.000 N;1.015 %\n")
        self.assertEqual(self.points("Load;Deviation\n1.0000 N;1.015 %\n"), [(200000, 10150000)])

    def test_rows_that_are_no_rows(self):
        self.refused("cert:3: 3 cells under 2 heads$", "Point (%);Deviation (%)\n0;0\n20;0.015;x\n")
        self.refused("cert:2: 1 cell under 2 heads$", "Point (%),Deviation (%)\n0\n")
        self.refused(
            "cert:5: a row behind line 4, which is none; leave out what stands between$",
            "Point (%),Deviation (%)\n0,0\nx,y\nz,w\n20,1\n",
        )
        self.refused("cert:2: '007' is no figure; write it without the first 0$", "Point (%);Deviation (%)\n007;0\n")
        self.assertEqual(self.points("Certificate;5\nPoint (%);Deviation (%)\n0;0\n"), [(0, 0)])
        self.assertEqual(self.points("5;Certificate\nPoint (%);Deviation (%)\n0;0\n"), [(0, 0)])
        self.refused("cert:1: a row above the heads of the columns$", "5;5\nPoint (%);Deviation (%)\n0;0\n")

    def test_the_mark_between_columns(self):
        for mark in ";\t,":
            self.assertEqual(self.points(f"Point (%){mark}Deviation (%)\n20{mark} 0.015\n"), [(200000000, 150000)])
        self.assertEqual(self.points('Point (%), "Deviation (%)"\n20, "0.015"\n'), [(200000000, 150000)])
        self.refused("cert: there are no columns like 'point [(]%[)]'", "Point (%)|Deviation (%)\n0|0\n")
        self.refused("cert: there are no columns 'a' in one line$", "Point (%),Deviation (%)\n0,0\n", point="a")

    def test_minus_signs(self):
        self.assertEqual(self.points("Point (%);Deviation (%)\n20;\u22120,015\n"), [(200000000, -150000)])


class Sheets(support.Case):
    def setUp(self):
        super().setUp()
        self.text, _ = self.gives(0, "export", CELL)
        self.lines = [line for line in self.text.splitlines() if not line.startswith(("point", "domain"))]

    def make(self, status, lines, err):
        self.gives(status, "make", self.file("sheet", "\n".join(lines) + "\n"), "--dry-run", err=err)

    def test_a_term_before_its_segment(self):
        self.assertEqual(len(self.lines), 24)
        self.make(2, [*self.lines, "term = 0, 1", "segment = 0 %", "term = 1, 2"], "sheet:25: a term before the first segment\n")
        self.make(2, ["term = 0, 1", *self.lines, "segment = 0 %", "term = 1, 2"], "sheet:1: a term before the first segment\n")
        draft = sheets.parsed("s", "\n".join([*self.lines, "segment = 0 %", "term = 0, 1", "term = 1, 2", "segment = 49.9995 %", "term = 0, 3"]))
        self.assertEqual((draft.sheet.segments, draft.sheet.terms), ([(0, 2), (499995000, 1)], [(0, 1.0), (1, 2.0), (0, 3.0)]))

    def test_terms(self):
        for term in ("1", "1, 2, 3", "x, 2", "1.5, 2", "1, 2 N", "1, x", "1000, 2", "+1, 2"):
            self.make(2, [*self.lines, "segment = 0 %", f"term = {term}"], "sheet:26: a term ")

    def test_lines(self):
        for line, said in (
            ("kind", "sheet:25: 'kind' is no line 'name = value'\n"),
            ("= 5", "sheet:25: '= 5' is no line 'name = value'\n"),
            ("kind = 2", "sheet:25: 'kind' stands in line 1 already\n"),
            ("domain = physical", "sheet:25: a domain without points\n"),
            ("point = 0 %, 0 %", "sheet:25: points need a line "),
        ):
            self.make(2, [*self.lines, line], said)

    def test_comments(self):
        for given, value in (
            ("350 ohm # measured", "350 ohm"),
            ("350 ohm# measured", "350 ohm# measured"),
            ('"left # drum" # where', '"left # drum"'),
            ('"left # drum"', '"left # drum"'),
            ("350 ohm", "350 ohm"),
        ):
            self.assertEqual(sheets.uncommented(given), value)

    def test_closing_texts(self):
        for given, text in (('""', b""), ('"a"', b"a"), ('"\\x41\\x7f"', b"A\x7f"), ('"a b"', b"a b")):
            draft = sheets.parsed("s", "\n".join([*self.lines[:-1], f"text = {given}"]))
            self.assertEqual(draft.sheet.text, text)
        self.assertIsNone(sheets.parsed("s", "\n".join(self.lines[:-1])).sheet.text)

    def test_a_precision_in_a_sheet_that_is_refused(self):
        """No precision is proposed alone: the row has what the sheet has."""
        lines = [line.replace("ID = 1451", "ID = 16") for line in self.lines]
        said = "full-scale electrical value precision steps of 25 nV/V (1) steps of 25 nV/V (1)\n"
        self.gives(1, "make", self.file("sheet", "\n".join(lines) + "\n"), "--dry-run", out=(said, "serial number 555 555\n"))


class Set(support.Case):
    def test_values_in_another_unit(self):
        said = "look at: the physical values that were not set keep their numbers, in the new unit\n"
        for changes, told in (
            (("measurand=Pa",), True),
            (("measurand=Pa", "max phys=7Pa"), True),
            (("measurand=Pa", "min phys=0Pa"), True),
            (("measurand=Pa", "min phys=0Pa", "max phys=7Pa"), False),
            (("serial=7",), False),
            (("max phys=7N",), False),
        ):
            out, _ = self.gives(0, "set", CELL, *changes, "--level", "maker", "-o", self.path("chip"), "--force", *TODAY)
            self.assertEqual(out.count(said), told, changes)

    def test_who_may(self):
        for level, change, said in (
            ("owner", "date=2026-01-01", "; --level calibration may\n"),
            ("owner", "serial=7", "; --level maker may\n"),
            ("calibration", "serial=7", "; --level maker may\n"),
        ):
            _, err = self.gives(1, "set", CELL, change, "--level", level, "-o", self.path("chip"), err=said)
            self.assertEqual(err.count("--level"), 1)
        for change in ("location=5000", "serial=16777216"):
            self.assertNotIn("may\n", self.gives(1, "set", CELL, change, "--level", "maker", "-o", self.path("chip"))[1])

    def test_words_of_the_whole_sheet(self):
        for name in ("text", "closing text", "point", "points", "domain", "segment", "term", "kind", "template"):
            said = f"'{name}' is not changed alone; 'dartelm export' the sheet, edit it and 'dartelm make' the image anew\n"
            self.gives(2, "set", CELL, f"{name}=1", "--dry-run", err=said)


class Command(support.Case):
    def test_what_has_to_be_there(self):
        for words, said in (
            (("write", CELL), "the following arguments are required: --to\n"),
            (("save", "ow:"), "the following arguments are required: -o\n"),
            (("report", CELL), "the following arguments are required: -o\n"),
            (("distance", CELL), "the following arguments are required: --span\n"),
            ((), "the following arguments are required: COMMAND\n"),
            (("show", "--cur", CELL), "unrecognized arguments: --cur\n"),
            (("--vers",), "the following arguments are required: COMMAND\n"),
            (("set", CELL, "location=1"), "set takes either -o NEW or --dry-run\n"),
            (("make", CELL, "-o", "new", "--dry-run"), "make takes either -o NEW or --dry-run\n"),
            (("read", CELL, "1mV/V", "--dash", "middle"), "argument --dash: invalid choice: 'middle' (choose from 'large', 'small')\n"),
            (("make", CELL, "--kind", "3", "--dry-run"), "argument --kind: invalid choice: 3 (choose from 0, 1, 2)\n"),
            (("make", CELL, "--kind", "-1", "--dry-run"), "argument --kind: invalid choice: -1 (choose from 0, 1, 2)\n"),
        ):
            _, err = self.gives(2, *words)
            self.assertTrue(err.endswith(f": error: {said}"), err)
        for words in (("export", CELL), ("why", CELL)):
            self.gives(0, *words)

    def test_rows_in_columns(self):
        rows = [storing.Row("period", "365 days", "1 d", "1 days", "0 days"), storing.Row("model number", "7", "", "", "")]
        self.assertEqual(
            list(storing.table(rows)),
            [
                "  field         now       given  stored  difference",
                "  period        365 days  1 d    1 days  0 days",
                "  model number  7",
            ],
        )
        self.assertEqual(
            list(storing.table(rows, now=False))[:2],
            ["  field         given  stored  difference", "  period        1 d    1 days  0 days"],
        )
        self.assertEqual([row.is_exact for row in rows], [False, True])
        for given, stored, refused, exact in (
            ("1 d", "1 d", None, True),
            ("2 x = 1 d", "1 d", None, True),
            ("1 d", "1 d", "why", False),
            ("2 d", "1 d", None, False),
        ):
            self.assertEqual(storing.Row("", "", given, stored, refused=refused).is_exact, exact)

    def test_the_manual_page(self):
        page, _ = self.gives(0, "--man")
        for part in (
            ".TP\n\\fB\\-\\-today\\fR \\fIDATE\\fR\nthe day to judge dates by (today)\n",
            ".TP\n\\fB\\-\\-level\\fR \\fIowner|calibration|maker\\fR\n",
            ".TP\n\\fB\\-\\-curve\\fR\ndraw the correction over the span\n",
            ".TP\n\\fIFILE\\fR\nan image of 40, 128 or 512 bytes\n",
            ".TP\n\\fB\\-h\\fR, \\fB\\-\\-help\\fR\n",
            ".TP\n\\fB\\-\\-version\\fR\nsay which Dartelm this is",
            "\\-\\-within\\fR \\fITOLERANCE\\fR\nthe most that is allowed, as 0.05% of the span, or 2N\n",
        ):
            self.assertIn(part, page)
        self.assertEqual(page.count("\\fB\\-h\\fR"), 1)

    def test_completion(self):
        said, _ = self.gives(0, "--completion")
        for part in (
            '        --level) words="owner calibration maker" ;;\n',
            '        --dash) words="large small" ;;\n',
            '        --kind) words="0 1 2" ;;\n',
            '                chips) words="-h --help -s" ;;\n',
            '                read) words="-h --help -s --table --dash --json" ;;\n',
            " write report -h --help --version --man --completion\"",
        ):
            self.assertEqual(said.count(part), 1, part)

    def test_words_in_order(self):
        for words, found in (
            (["read", "chip", "-0.5mV/V", "--dash", "small"], ["read", "chip", " -0.5mV/V", "--dash", "small"]),
            (["read", "--dash", "small", "chip", "-.5mV/V"], ["read", "chip", " -.5mV/V", "--dash", "small"]),
            (["show", "-", "--curve"], ["show", "-", "--curve"]),
            (["export", "-o", "-", "chip"], ["export", "chip", "-o", "-"]),
            (["certificate", "--within", "-1N", "chip"], ["certificate", "chip", "--within=-1N"]),
            (["distance", "--span", "-5..5N"], ["distance", "--span=-5..5N"]),
            (["export", "chip", "-o"], ["export", "chip", "-o"]),
            (["show", "--curve", "chip"], ["show", "chip", "--curve"]),
        ):
            self.assertEqual(main.in_order(words), found)

    def test_outputs_that_are_inputs(self):
        given = SimpleNamespace(command="set", file="chip", force=True)
        self.assertEqual(main.inputs_of(given), [])
        for command, force in (("set", False), ("report", True)):
            self.assertEqual(
                main.inputs_of(SimpleNamespace(command=command, file="chip", force=force, certificate="cert")),
                ["chip", "cert"],
            )
        self.assertEqual(main.outputs_of(SimpleNamespace(make="inputs", ten="ten", sixty="sixty")), ["ten", "sixty"])
        self.assertEqual(main.outputs_of(SimpleNamespace(make=None, output="new")), ["new"])
        inputs = self.file("inputs", "1000\n" * 6)
        self.gives(2, "compare", CELL, self.path("ten"), inputs, "--make", inputs, "--force", err="is the file that is read")

    def test_statuses(self):
        for error, status, said in (
            (Trouble("t", 2), 2, "dartelm: t\n"),
            (Refusal(2, 7), 1, "dartelm: refused: 2 at page 7: "),
            (OSError(5, "Input/output error", "file"), 3, "dartelm: file: Input/output error\n"),
            (OSError(5, "Input/output error"), 3, "dartelm: the answer cannot be written: Input/output error\n"),
            (KeyboardInterrupt(), 130, "dartelm: stopped\n"),
        ):
            with mock.patch.object(main, "answer", side_effect=error):
                found, _, err = self.run_here("show", CELL)
            self.assertEqual((found, err[: len(said)]), (status, said))

    def test_how_it_ends(self):
        """A signal's number and 128; a reader that has seen enough is no trouble, and nothing more is written."""
        self.gives(0, "show", CELL)
        with self.assertRaises(SystemExit) as ended:
            main.signal.getsignal(main.signal.SIGTERM)()
        self.assertEqual(ended.exception.code, 143)
        with mock.patch.object(main, "answer", side_effect=BrokenPipeError), mock.patch.object(main.os, "dup2") as given_up:
            self.assertEqual(self.run_here("show", CELL)[0], 0)
        self.assertEqual(given_up.call_args[0][1], 1)
        main.os.close(given_up.call_args[0][0])

    def test_days(self):
        for day in ("1998-01-01", "2177-06-05"):
            self.gives(0, "show", CELL, "--today", day)
        for day in ("1997-12-31", "2177-06-06", "x"):
            self.gives(2, "show", CELL, "--today", day, err=f"--today: '{day}' is no date like 2018-01-02\n")

    def test_chips_on_a_bus(self):
        """The worst of all statuses; a chip that cannot be read has its reason, without its name before it."""
        for trouble, said in ((Trouble("ow:one: no contact", 3), "no contact"), (Trouble("no contact", 3), "no contact")):
            server = mock.Mock(**{"chip.side_effect": trouble})
            self.assertEqual(chips.line_of(server, "one"), (said, 3))
        for statuses, status in (((0, 0), 0), ((0, 1), 1), ((3, 0), 3), ((1, 3), 3), ((3, 1), 3)):
            server = mock.Mock(**{"chips.return_value": ["2D.000000000001", "28.000000000002", "23.000000000003"]})
            lines = iter([("said", one) for one in statuses])
            with mock.patch.object(chips, "Owserver", return_value=server), mock.patch.object(chips, "line_of", lambda *_: next(lines)):
                out, _ = self.gives(status, "chips")
            self.assertEqual(out, "2D.000000000001  DS2431  kind 1  said\n23.000000000003  DS2433  kind 2  said\n")


if __name__ == "__main__":
    support.unittest.main()
