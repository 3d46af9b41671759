"""A certificate's table is taken as it is meant, or refused: never another one in its place."""
import support
from dartelm.command import certificate, tables
from dartelm.command.image import read_image, read_sheet
from dartelm.command.trouble import Trouble
from support import sample

# The load cell's certificate in newtons and in per cent of 5000 N, and in billionths of it.
NEWTONS = ((0, "0"), (1000, "0.75"), (2000, "2.1"), (3000, "1.9"), (4000, "0.45"), (5000, "-1.05"))
PERCENTS = ((0, "0"), (20, "0.015"), (40, "0.042"), (60, "0.038"), (80, "0.009"), (100, "-0.021"))
BILLIONTHS = [(0, 0), (200000000, 150000), (400000000, 420000), (600000000, 380000), (800000000, 90000), (10**9, -210000)]
BARE = "point (%),deviation (%)\n0,0\n100,0\n"


class Tables(support.Case):
    def setUp(self):
        super().setUp()
        self.cell = sample("load-cell.kind1")
        sheet, _ = self.gives(0, "export", self.cell)
        bare = "".join(line + "\n" for line in sheet.splitlines() if not line.startswith(("point", "domain")))
        self.gives(0, "make", self.file("bare.txt", bare), "-o", self.path("bare"))
        self.scale = certificate.Scale(read_sheet(read_image(self.cell)))

    def points(self, text, **columns):
        table = tables.read_table(self.file("cert", text), tables.Asked(**columns))
        return certificate.points_of(table, self.scale)

    def refused(self, text, *parts, columns=()):
        """By both chips: one that has the correction, and one without."""
        for chip in (self.cell, self.path("bare")):
            self.gives(2, "certificate", chip, self.file("cert", text), *columns, err=parts)

    def test_the_chip_without_a_correction(self):
        self.gives(0, "certificate", self.path("bare"), self.file("cert", BARE), out="AGREES")
        self.gives(1, "certificate", self.path("bare"), sample("load-cell.csv"), out="DIFFERS")

    def test_cells_and_heads(self):
        self.refused("Point (%),Deviation (%)\n0,0\n20,0,015\n", "cert:3: 3 cells under 2 heads", "a decimal comma meant?")
        self.refused("Point (%),Deviation (%),Note\n0,0,a\n20,0,015\n", "cert:3: '015' is no figure", "a decimal comma meant?")
        self.refused("Point (%),Deviation (%)\n0,0,\n", "cert:2: 3 cells under 2 heads")
        self.refused("Point (%);Deviation (%)\n0\n", "cert:2: 1 cell under 2 heads")
        self.refused("Point (%);Deviation (%)\n020;0\n", "cert:2: '020' is no figure; write it without the first 0")
        self.refused("Point (%),Deviation (%),Note\n0,0,0\n20,0,15\n", "cert:2: '0,0' may be one figure")
        self.refused("Point (%),Deviation (%),Note\n0,0,a\n20,0,15 %\n", "cert:3: '0,15 %' may be one figure")
        self.refused("Point (%),Deviation (%),Note\n0,0,0\n20,-0,15\n", "may be one figure")
        self.refused('Point (%),Deviation (%),Note\n0,0,"a\n20,0.015,b\n40,0.042,"\n', "cert:4: a cell of more than one line")
        self.refused('Point (%),Deviation (%),Note\n0,0,"a\n20,0.015,b\n', "unexpected end")
        self.assertEqual(
            self.points("Point (%),Deviation (%),Readings\n0,0,3\n20,0.015,3\n"), [(0, 0), (200000000, 150000)]
        )
        self.assertEqual(
            self.points("Point (%);Deviation (%);No\n0;0;001\n20;0,015;002\n"), [(0, 0), (200000000, 150000)]
        )

    def test_two_columns_that_fit(self):
        both = "Load (N),Deviation as found (N),Deviation as left (N)\n0,0,0\n1000,9,0.75\n"
        self.refused(both, "cert:1: 'Deviation as found (N)' and 'Deviation as left (N)' may each be the deviation", "--deviation")
        self.refused("Point %,Deviation %,Expanded uncertainty of deviation %\n0,0,1\n", "'Deviation %' and 'Expanded unc")
        self.refused("Point,Load (N),Deviation (N)\n1,0,0\n", "'Point' and 'Load (N)' may each be the point", "--point COLUMN")
        self.refused("Load (N),Deviation (N),Deviation (N)\n0,0,0\n", "may each be", columns=("--deviation", "Deviation (N)"))
        for name in ("Deviation as left (N)", "deviation  AS left (n)", "Deviation as l"):
            self.assertEqual(self.points(both, deviation=name), [(0, 0), (200000000, 150000)])
        self.assertEqual(
            self.points("Point,Load (N),Deviation (N)\n1,0,0\n2,1000,.75\n", point="load"), [(0, 0), (200000000, 150000)]
        )
        self.refused(both, "there are no columns 'weight' and 'Deviation as left (N)' in one line", columns=("--point", "weight", "--deviation", "Deviation as left (N)"))
        self.gives(
            0,
            "certificate",
            self.cell,
            self.file("cert", "Load (N),Deviation as found (N),Deviation as left (N)\n" + "".join(
                f"{point},9,{deviation}\n" for point, deviation in NEWTONS
            )),
            "--deviation",
            "Deviation as left (N)",
            out=("taken: point from 'Load (N)', deviation from 'Deviation as left (N)', 6 rows\n", "AGREES"),
        )

    def test_a_deviation_of_another_sort(self):
        """All of them are 0, as a chip without a correction has it; the sender's is headed by a word that says nothing."""
        for head in ("Standard deviation", "Std. deviation", "Uncertainty of deviation", "Limit of deviation", "Permissible deviation"):
            text = f"Load (N),Difference (N),{head} (N)\n" + "".join(f"{point},{deviation},0.0\n" for point, deviation in NEWTONS)
            self.refused(text, f"cert:1: '{head} (N)' may not be the sender's deviation; --deviation COLUMN takes it as that")
            self.assertEqual(self.points(text, deviation="Difference"), BILLIONTHS)
            self.assertEqual([deviation for _, deviation in self.points(text, deviation=f"{head} (N)")], [0] * 6)

    def test_errors_have_the_other_sign(self):
        turned = "Load (N),Error (N)\n" + "".join(f"{point},{-float(deviation)}\n" for point, deviation in NEWTONS)
        self.refused(turned, "cert:1: 'Error (N)' is an error", "--error COLUMN")
        self.assertEqual(self.points(turned, error="Error (N)"), BILLIONTHS)
        self.gives(
            0,
            "certificate",
            self.cell,
            self.file("cert", turned),
            "--error",
            "Error (N)",
            out="deviation from 'Error (N)', an error, with its sign turned, 6 rows\n",
        )
        self.gives(1, "certificate", self.cell, self.path("cert"), "--deviation", "Error (N)", out="DIFFERS")
        percent = "Point (%),Error (%)\n" + "".join(f"{point},{-float(deviation)}\n" for point, deviation in PERCENTS)
        self.assertEqual(self.points(percent, error="Error (%)"), BILLIONTHS)
        self.refused("Load (N),Deviation (N),Error (N)\n0,0,0\n", "may each be the deviation")
        self.refused(turned, "--deviation and --error", columns=("--error", "Error (N)", "--deviation", "Error (N)"))

    def test_points_and_commas(self):
        self.refused("Load (N);Deviation (N)\n0;0\n1.000;0,75\n", "cert:3: '0,75' and '1.000'", "one has a point and one a comma")
        self.refused("Load (N);Deviation (N)\n0;0\n1.000;1\n", "cert:3: '1.000' may be thousands")
        self.refused("Load (N);Deviation (N)\n0;0\n1,000;1\n", "cert:3: '1,000' may be thousands")
        self.refused("Load;Deviation\n0 N;0 N\n1,000 N;1 N\n", "'1,000 N' may be thousands")
        self.refused('Load (N),Deviation (N)\n0,0\n"1,000",0.75\n', "cert:3: '1,000' has a comma")
        self.refused('Load (N),Deviation (N)\n0,0\n1000,"0,75"\n', "cert:3: '0,75' has a comma")
        self.refused("Load (N);Deviation (N)\n0;0\n1.000,5;0,75\n", "one has a point and one a comma")
        self.refused("Load (N);Deviation (N)\n0;0\n1 000;0,75\n", "'000 N' is not understood")
        self.refused("Load (N);Deviation (N)\n0;0\n1'000;0,75\n", "''000' is not understood")
        self.assertEqual(self.points("Load (kN);Deviation (N)\n1.000;0.75\n2.000;2.100\n"), BILLIONTHS[1:3])
        self.assertEqual(self.points("Point (%);Deviation (%)\n20.000;1.000\n"), [(200000000, 10000000)])
        self.assertEqual(self.points("Point (%)\tDeviation (%)\n20,000\t0,015\n"), BILLIONTHS[1:2])

    def test_footers(self):
        text = "Point (%),Deviation (%)\n0,0\n20,0.015\nUncertainty (k = 2): 0.005 %\nsigned,J.K\n"
        self.assertEqual(self.points(text), BILLIONTHS[:2])
        self.gives(
            1,
            "certificate",
            self.cell,
            self.file("cert", text),
            out=(", 2 rows\n", "passed over: line 4: Uncertainty (k = 2): 0.005 %\n", "passed over: line 5: signed, J.K\n"),
        )
        self.refused(text + "40,0.042\n", "cert:6: a row behind line 5, which is none")
        self.refused("Point (%),Deviation (%)\n0,0\nn/a,n/a\n20,0.015\n", "cert:4: a row behind line 3")
        self.refused("Point (%),Deviation (%)\n0,0\n20,n/a\n", "cert:3: deviation: 'n/a")
        self.refused("Point (%),Deviation (%)\n0,0\n~20,~0.5\n", "cert:3: point: '~20")
        self.refused("Point (%),Deviation (%)\n0,0\nca. 20,ca. 0.5\n", "cert:3: ")
        self.refused("Point (%),Deviation (%)\n0,0\n20,\n", "cert:3: there is no deviation")
        self.refused("Point (%),Deviation (%)\n0,0\n,0.5\n", "cert:3: there is no point")
        self.refused("Point (%),Deviation (%)\n0,0\n#20,0.5\n", "cert:3: a comment that looks like a row")
        self.refused("20,0.5\nPoint (%),Deviation (%)\n0,0\n", "cert:1: a row above the heads")
        self.assertEqual(self.points("# 5 points\n23 to 24 C,45 % RH\nPoint (%),Deviation (%)\n# none\n\n0,0\n"), [(0, 0)])

    def test_units(self):
        self.refused("Point (%),Relative deviation (%)\n0,0\n", "may be per cent of the reading")
        self.refused("Point (%),Deviation (% of reading)\n0,0\n", "not understood")
        self.refused("Load (N),Deviation as left\n0,0\n", "has no unit")
        for load, deviation, points in (
            ("Load (kN)", "Deviation (mN)", "1,750"),
            ("Load (kgf)", "Deviation (lbf)", "101.971621297792824257,0.16860670734829353"),
            ("Force in N", "Correction in % of the span", "1000,0.015"),
            ("Calibration point (% of span)", "Deviation in % of full span", "20,0.015"),
            ("Point", "Deviation", "1 kN,0.015 %"),
            ("Point (%)", "Deviation (%)", "20.00000004,0.01500000049"),
        ):
            self.assertEqual(self.points(f"{load},{deviation}\n{points}\n"), BILLIONTHS[1:2], load)

    def test_the_nearest_billionth(self):
        """A billionth of the span is 0.0000001 %, and 5 millionths of 5000 N; a half goes upward."""
        for point, deviation, wanted in (
            ("20.00000004", "0.01500004", (200000000, 150000)),
            ("20.00000005", "0.01500005", (200000001, 150001)),
            ("20.00000006", "0.01500006", (200000001, 150001)),
            ("0", "-0.00000004", (0, 0)),
            ("0", "-0.00000005", (0, 0)),
            ("0", "-0.00000006", (0, -1)),
            ("1000 N", "0.7500024 N", (200000000, 150000)),
            ("1000 N", "0.7500026 N", (200000000, 150001)),
            ("1000.0000024 N", "0 N", (200000000, 0)),
            ("1000.0000026 N", "0 N", (200000001, 0)),
        ):
            self.assertEqual(self.points(f"Point (%),Deviation (%)\n{point},{deviation}\n"), [wanted], (point, deviation))

    def test_figures_that_no_line_of_the_console_holds(self):
        """2^63 - 1 billionths is asked for and refused by its number; 2^63 is not asked for."""
        for sign, place in (("", "point"), ("-", "point")):
            for figure, said in (("922337203685.4775807", "refused: 10 at place 1: "), ("922337203685.4775808", "far outside what it counts")):
                text = f"Point (%),Deviation (%)\n0,0\n{sign}{figure},0\n"
                status = 1 if figure.endswith("7") else 2
                self.gives(status, "certificate", self.cell, self.file("cert", text), err=(place, said))

    def test_a_sender_whose_unit_is_per_cent(self):
        """Its own per cent, unless the span is named. 0 to 50 %, in which 10 % is a fifth of the span."""
        self.gives(
            0, "set", self.cell, "measurand=%", "max phys=50%", "--level", "maker", "-o", self.path("ratio"), out="5000 N 50 % 50 % 0 %"
        )
        for text in (
            "Point (%),Deviation (%)\n" + "".join(f"{p / 2},{float(d) / 2}\n" for p, d in PERCENTS),
            "Point (% of span),Deviation (% of span)\n" + "".join(f"{p},{d}\n" for p, d in PERCENTS),
        ):
            self.gives(0, "certificate", self.path("ratio"), self.file("cert", text), out="AGREES")

    def test_odd_tables(self):
        """600 tables: the right points or a refusal. None makes a chip without the correction agree, and the chip that has it
        agrees with each that is taken whole and in order."""
        chance = support.random.Random(44)
        found = [OddTable(chance) for _ in range(600)]
        self.assertGreater(len({table.text for table in found}), 590)
        chips = [(image, read_sheet(image)) for image in map(read_image, (self.path("bare"), self.cell))]
        taken = set()
        for table in found:
            columns = {"error": "Error"} if table.turned else {}
            try:
                points = self.points(table.text, **columns)
            except Trouble as trouble:
                self.assertEqual(trouble.status, 2, table.text)
                continue
            self.assertEqual(points, table.points, table.text)
            taken.add(table.text)
            for (image, sheet), agrees in zip(chips, (False, points == BILLIONTHS)):
                try:
                    against = certificate.against(image, sheet, self.path("cert"), tables.Asked(**columns))
                except Trouble as trouble:
                    self.assertEqual((trouble.status, points == BILLIONTHS), (1, False), table.text)
                    continue
                self.assertEqual(against.agrees(), agrees, table.text)
                self.assertEqual(against.verdict().startswith("AGREES: "), agrees, table.text)
            if len(taken) % 20 == 0:
                options = ("--error", "Error") if table.turned else ()
                self.gives(1, "certificate", self.path("bare"), self.path("cert"), *options)
        self.assertGreater(len(taken), 150)


# Heads that hold neither points nor deviations, and figures for them: 0 would let a chip without a correction agree.
BESIDE = (
    "No", "Note", "Uncertainty", "Reading", "Deviation as found", "Load cell", "Standard deviation", "Limit of deviation", "Difference",
)  # fmt: skip


class OddTable:
    """A table as some laboratory writes it: the columns in any order among others, one of some separators and decimal marks, units
    in heads, in cells or in a row of their own, thousands with a mark, rows that lack a cell or go downward, titles above and
    remarks below. `points` are the right ones, in the rows' order."""

    def __init__(self, chance):
        self.chance = chance
        self.mark = chance.choice(",,;;\t")
        self.decimal = chance.choice(".,") if self.mark != "," or chance.random() < 0.3 else "."
        self.thousands = chance.choice(("", "", "", "", "", "", ".", ",", "'", " "))
        self.quote = chance.random() < 0.5
        self.digits = chance.choice((None, None, None, 3, 6))
        self.minus = chance.choice(("-", "-", "-", "\u2212"))
        self.faults = chance.random() < 0.3
        self.units = chance.choice(("head", "head", "head", "head", "cell", "row"))
        rows, self.unit, self.other = chance.choice((
            (NEWTONS, "N", "N"),
            (PERCENTS, "%", "%"),
            ([(p / 1000, d) for p, d in NEWTONS], "kN", "N"),
            ([(p, f"{float(d) * 1000:g}") for p, d in NEWTONS], "N", "mN"),
            ([(p, d) for (p, _), (_, d) in zip(NEWTONS, PERCENTS)], "N", "%"),
            (PERCENTS, "% of span", "% of span"),
        ))  # fmt: skip
        order = list(range(len(rows)))
        if chance.random() < 0.05:
            order.reverse()
        self.rows = [rows[n] for n in order]
        self.points = [BILLIONTHS[n] for n in order]
        self.columns = self.drawn_columns()
        self.turned = any(head == "Error" for _, head in self.columns)
        self.text = self.written()

    def drawn_columns(self):
        chance = self.chance
        found = [("point", chance.choice(("Point", "Load", "Calibration point", "Applied force")))]
        found.append(("deviation", chance.choice(("Deviation", "Deviation", "Correction", "Deviation as left", "Error"))))
        found += [("beside", head) for head in chance.sample(BESIDE, chance.choice((0, 0, 1, 2)))]
        chance.shuffle(found)
        return found

    def figure(self, text):
        text = text if self.digits is None else f"{float(text):.{self.digits}f}"
        if self.faults and self.chance.random() < 0.05:
            text = self.chance.choice(("0" + text, "~" + text, text + "?", "'" + text, f"({text})", text + " ok"))
        if float_of(text) is not None and abs(float_of(text)) >= 1000 and self.thousands:
            text = f"{float(text):,}".replace(",", self.thousands)
        text = text.replace(".", self.decimal) if self.decimal != "." else text
        text = text.replace("-", self.minus)
        return f'"{text}"' if self.quote and self.mark in text else text

    def beside(self, head):
        if head == "No":
            return [str(n) for n in range(len(self.rows))]
        if head == "Note":
            return [self.chance.choice(("", "ok", "15", "015")) for _ in self.rows]
        return [self.figure(str(self.chance.choice((0, 0, 0.5, 15)))) for _ in self.rows]

    def column(self, sort, head):
        """The head and the cells below it."""
        sign = -1 if head == "Error" else 1
        if sort == "beside":
            cells, unit = self.beside(head), "" if head in ("No", "Note") else self.other
        elif sort == "point":
            cells, unit = [self.figure(str(point)) for point, _ in self.rows], self.unit
        else:
            cells, unit = [self.figure(f"{sign * float(deviation):g}") for _, deviation in self.rows], self.other
        if self.units == "cell":
            return [head, *(f"{cell} {unit}".strip() for cell in cells)]
        if self.units == "row":
            return [head, unit, *cells]
        return [f"{head} ({unit})" if unit else head, *cells]

    def written(self):
        chance = self.chance
        columns = [self.column(*column) for column in self.columns]
        lines = [self.mark.join(cells) for cells in zip(*columns)]
        if self.faults and chance.random() < 0.3:
            lines[chance.randrange(1, len(lines))] += self.mark
        if self.faults and chance.random() < 0.3:
            at = chance.randrange(1, len(lines))
            lines[at] = lines[at].rpartition(self.mark)[0]
        for _ in range(chance.choice((0, 0, 1, 2))):
            lines.insert(chance.choice((0, 0, len(lines), len(lines), chance.randrange(len(lines)))), chance.choice(REMARKS))
        end = chance.choice(("\n", "\n", "\r\n"))
        return chance.choice(("", "", "", "\ufeff")) + end.join(lines) + end


REMARKS = (
    "Laboratory,RR-118", "Uncertainty 0.005 %", "", "Calibrated 2025-11-03", "# checked", "signed;J.K", "Temperature;23;C",
    "Page 1 of 1", "k = 2", "Load cell serial 555",
)  # fmt: skip


def float_of(text):
    try:
        return float(text)
    except ValueError:
        return None


if __name__ == "__main__":
    support.unittest.main()
