"""certificate: a chip against its certificate, in per cent or in the sender's unit, by the proved distance."""
import support
from dartelm import distance
from dartelm.command import certificate, tables
from dartelm.command.image import build, read_image, read_sheet
from dartelm.command.singles import nearest
from dartelm.command.trouble import Refusal
from dartelm.command.units import EXACT
from support import ACCEPTED, REFUSED, sample

PERCENT = "point (%),deviation (%)\n0,0\n20,0.015\n40,0.042\n60,0.038\n80,0.009\n100,-0.021\n"
NEWTON = "point [N];deviation [N]\n0;0\n1000;0,75\n2000;2,1\n3000;1,9\n4000;0,45\n5000;-1,05\n"
CELLS = (
    "# a comment\nFigure,Deviation,Note\n0 N,0 %,a\n1kN,0.75 N,b\n40 %,0.042 %,c\n3000N,1.9N,d\n80%,0.009%,\n\n5 kN,-1.05 N,\n"
)
TABS = "Applied force in kN\tDeviation in % of span\n0\t0\n1\t0,015\n2\t0,042\n3\t0,038\n4\t0,009\n5\t\u22120,021\n"
TORQUE = "point,deviation\n0%,0%\n25%,0.04%\n50%,0.065%\n75%,0.03%\n100%,-0.015%\n"


class Certificate(support.Case):
    def against(self, status, name, text, **said):
        return self.gives(status, "certificate", name if "/" in name else sample(name), self.file("cert", text), **said)

    def test_agrees(self):
        for text in (PERCENT, NEWTON, CELLS, TABS):
            self.against(
                0,
                "load-cell.kind1",
                text,
                out=(
                    "no reading of this chip, at any input, is further from the certificate than 0.0000012 % of the span, 0.00006 N\n",
                    "a chip built from these points could be off by 0.000052 % of the span, 0.0026 N\n",
                    "2002.1 N   2002.09998 N",
                    "-0.00002 N",
                    "AGREES",
                ),
            )
        self.gives(
            0,
            "certificate",
            sample("load-cell.kind1"),
            sample("load-cell.csv"),
            out=(
                "6 points",
                "2 20 % 0.4 mV/V 1000.75 N 1000.749995 N -0.000005 N -0.0000001 %\n",
                "5 80 % 1.6 mV/V 4000.45 N 4000.450045 N +0.000045 N +0.0000009 %\n",
                "6 100 % 2 mV/V 4998.95 N 4998.95 N 0 N 0 %\n",
                "AGREES: at every input within what storing at the nearest step explains; the worst is at 99.99927 %, a point",
                "own: -0.0000011 %, -0.000055 N",
                "AGREES says that the chip holds these points; whether the sender itself is within tolerance, the certificate says",
            ),
        )

    def test_differs(self):
        said, _ = self.against(
            1,
            "load-cell.kind1",
            NEWTON.replace("2,1", "2,3"),
            out=(
                "DIFFERS: by up to 0.0041 % of the span, 0.21 N, more than what storing at the nearest step explains",
                "the worst is at 40 %: -0.0040004 %, -0.2 N",
            ),
        )
        self.assertEqual(said.count(" !"), 2)
        self.against(1, "load-cell.kind1", "point %,deviation %\n0,0\n100,0\n", out=("DIFFERS", "chip  40.00032 %", "+2.1 N"))
        said, _ = self.against(1, "many-points.kind2", PERCENT, out="DIFFERS: by up to ")
        self.assertEqual(len(said.splitlines()), 18)
        self.against(1, "oil-pressure.kind0", PERCENT, out=("DIFFERS", "-0.42 kPa"))

    def test_a_chip_that_is_made_from_the_certificate_agrees(self):
        """Whatever the steps do to its points, and whichever precision it has: that is what is proved."""
        chance = support.random.Random(11)
        sheet = read_sheet(read_image(sample("load-cell.kind1")))
        done = 0
        for number in range(60):
            sheet.kind, sheet.text = 2, None
            ends = sorted(chance.sample(range(1, 60), 2))
            sheet.values[9] = number % 3
            sheet.values[10], sheet.values[11] = (
                (1000000 * end for end in ends),
                (100025 * end for end in ends),
                (nearest(EXACT.create_decimal(end) / 777) for end in ends),
            )[number % 3]
            places = sorted(chance.sample(range(0, 66000), chance.choice((1, 2, 6, 30))))
            sheet.points = [
                (15192 * place + chance.randrange(-900, 900) * (place > 0), chance.randrange(-9000000, 9000000))
                for place in places
            ]
            try:
                chip = build(sheet)
                bound = distance(sheet.points).bound
            except Refusal as refusal:
                self.assertEqual(refusal.number, 7)
                continue
            beside = certificate.beside_points(chip, read_sheet(chip), "", sheet.points)
            self.assertLessEqual(beside.bound(), -(-bound // 2000))
            self.assertTrue(beside.agrees() or beside.is_open(), beside.verdict())
            self.assertLessEqual(max(abs(y) for _, y in beside.over(40)), beside.distance())
            done += 1
        self.assertGreater(done, 40)

    def test_within(self):
        """A tolerance in per cent or in the sender's unit, rounded by nobody: 0.21 N is 41,021 billionths and the float's part."""
        wrong = self.file("wrong", NEWTON.replace("2,1", "2,3"))
        cell = sample("load-cell.kind1")
        for tolerance, status in (("0.3N", 0), ("0.0003kN", 0), ("0.1N", 1), ("0.005%", 0), ("0.004%", 1), ("0.05lbf", 0)):
            said, _ = self.gives(status, "certificate", cell, wrong, "--within", tolerance)
            self.assertIn(f"AGREES: at every input within {tolerance}; " if status == 0 else f", more than {tolerance}; ", said)
        said, _ = self.gives(0, "certificate", cell, wrong, "--within", "0.3N")
        self.assertEqual(said.count(" !"), 0)
        self.gives(0, "report", cell, wrong, "--within", "0.3N", "-o", self.path("page"))
        self.gives(1, "report", cell, wrong, "--within", "0.1N", "-o", self.path("other"))
        for tolerance in ("2", "2Pa", "-1N"):
            self.gives(2, "certificate", cell, wrong, "--within", tolerance, err="--within")
        for name in ("torque.kind1", "exhaust-pressure.kind1"):
            self.gives(2, "certificate", sample(name), sample("load-cell.csv"), "--within", "1%", err="--within is for")

    def test_two_points_a_hair_apart(self):
        """Their slope lets a chip that is built from them be off by any size: no verdict, unless it is said what is allowed."""
        close = "point (%),deviation (%)\n0,0\n50,0\n50.002,1\n100,1\n"
        sheet, _ = self.gives(0, "export", sample("load-cell.kind1"))
        bare = "".join(line + "\n" for line in sheet.splitlines() if not line.startswith(("point", "domain")))
        self.gives(0, "make", self.file("sheet", bare), "--certificate", self.file("cert", close), "-o", self.path("chip"))
        said, _ = self.against(1, self.path("chip"), close, out=("NO VERDICT: a chip built from these points could be off by ", "--within"))
        self.assertNotIn("AGREES", said)
        self.gives(0, "certificate", self.path("chip"), self.path("cert"), "--within", "1%", out="AGREES: at every input within 1%")

    def test_a_maker_who_cuts_off(self):
        """Points one step below the nearest: seen, though each is within a step of its point."""
        sheet, _ = self.gives(0, "export", sample("load-cell.kind1"))
        cut = sheet.replace("+0.042 %", "+0.0418 %").replace("+0.038 %", "+0.0378 %").replace("+0.015 %", "+0.0148 %")
        self.gives(0, "make", self.file("sheet", cut), "-o", self.path("cut"))
        self.against(1, self.path("cut"), PERCENT, out="DIFFERS: by up to 0.00021 % of the span, 0.011 N, more than what storing")

    def test_a_span_that_falls(self):
        """A greater fraction is a smaller figure: differences have the figure's sign."""
        self.gives(
            0, "set", sample("load-cell.kind1"), "min phys=5000N", "max phys=0N", "--level", "maker", "-o", self.path("falls")
        )
        self.against(1, self.path("falls"), PERCENT.replace("0.042", "0.046"), out=("-0.0040004 %", "+0.2 N"))
        self.against(
            0,
            self.path("falls"),
            "point (N),deviation (N)\n5000,0\n4000,-0.75\n3000,-2.1\n2000,-1.9\n1000,-0.45\n0,1.05\n",
            out="AGREES",
        )

    def test_physical_domain(self):
        self.against(0, "torque.kind1", TORQUE, out=("nothing is proved of every input", "AGREES"))
        self.against(1, "torque.kind1", TORQUE.replace("0.065", "0.066"), out="DIFFERS: from a chip made from the certificate")
        self.against(1, "torque.kind1", TORQUE.replace("0.065%", "-90%"), err="point 3: refused: 22")

    def test_a_curve_has_no_verdict(self):
        self.against(
            1,
            "exhaust-pressure.kind1",
            PERCENT,
            out=("a curve: nothing is proved of its distance from points", "60.14400001 kPa  +0.099 kPa", "NO VERDICT", "at 20 %: +0.033 %"),
        )
        self.against(1, "exhaust-pressure.kind1", "point %,deviation %\n0,0\n0.0001,0\n", err="point 2: refused: 7")
        sheet, _ = self.gives(0, "export", sample("exhaust-pressure.kind1"))
        self.gives(0, "make", self.file("sheet", sheet.replace("term = 1, 0.004", "term = 1, 3e38")), "-o", self.path("steep"))
        self.against(1, self.path("steep"), PERCENT, err="more than a tenth outside the span")

    def test_refused(self):
        self.against(1, "temperature.kind1", PERCENT, err="refused: 4 at bit 64")
        for name in REFUSED:
            self.against(1, name, PERCENT, err=("refused: ", "dartelm why"))
        for text, part in (
            ("point %,deviation %\n0,0\n0.0001,0\n", "point 2: refused: 7"),
            ("point %,deviation %\n0,0\n105,0\n", "point 2: refused: 10"),
            ("point %,deviation %\n0,200\n", "point 1: refused: 10"),
            ("point %,deviation %\n" + "".join(f"{n / 2},0\n" for n in range(130)), "refused: 16 at length 260"),
        ):
            self.against(1, "load-cell.kind1", text, err=part)

    def test_not_understood(self):
        for text, part in (
            ("", "there are no columns"),
            ("0,0\n", "there are no columns"),
            ("point,dev\n", "there are no columns"),
            ("deviation\n1\n", "no columns"),
            ("point,deviation\n", "no points below"),
            ("point,deviation\n20,0.1%\n", "cert:2: point: '20' has no unit"),
            ("point %,deviation\n20,0.1\n", "has no unit"),
            ("point %,deviation %\n20\n", "cert:2: 1 cell under 2 heads\n"),
            ("point %,deviation N\n20,1\n", "needs a point in it"),
            ("point Pa,deviation Pa\n20,1\n", "not understood"),
            ("point N,deviation N\n9999,1\n", "nor within a tenth of it"),
            ("point %,deviation %\n0,0\nx,0\n", "cert:3:"),
            ("Lab,Bench\n\npoint %,deviation %\n0,0\n20,?\n", "cert:5:"),
        ):
            self.against(2, "load-cell.kind1", text, err=part)
        self.gives(3, "certificate", sample("load-cell.kind1"), self.file("cert", b"\xff\xfe\x00"), err="no text")
        self.gives(2, "certificate", sample("load-cell.kind1"), err="CERT.csv")

    def test_letters_of_a_spreadsheet(self):
        text = "Prüfung ±\nLast in N\tDeviation (N)\n".replace("Last", "Load") + NEWTON.split("\n", 1)[1].replace(";", "\t")
        for letters in ("utf-8-sig", "cp1252", "utf-16"):
            self.gives(0, "certificate", sample("load-cell.kind1"), self.file("cert", text.encode(letters)), out="AGREES")

    def test_heads(self):
        for head, unit in (
            ("point", ""),
            ("point (%)", "%"),
            ("Calibration point (% of span)", "% of span"),
            ("deviation, % of the span", "% of span"),
            ("force [N]", "N"),
            ("Applied force in kN", "kN"),
            ("deviation", ""),
            ("voltage (V rms)", "V rms"),
            ("point %", "%"),
            ("Calibration point", ""),
        ):
            self.assertEqual(tables.unit_in(head), unit, head)

    def test_each_sample(self):
        for name in ACCEPTED:
            status, said, wrong = self.run_here("certificate", sample(name), self.file("cert", PERCENT))
            self.assertEqual(status, 0 if name == "load-cell.kind1" else 1)
            self.assertTrue(
                ("AGREES" if status == 0 else "refused: 4" if "temp" in name else "NO VERDICT" if "exh" in name else "DIFFERS")
                in said + wrong
            )


if __name__ == "__main__":
    support.unittest.main()
