"""Figures, units and names that a person is shown, each against what document 000, 01 or 02 says or what is worked out here."""
import os
import re
import struct
import subprocess
import types
from unittest import mock

import support
from dartelm import calls
from dartelm.command import certificate, dumps, image, main, measurands, readings, refusals, setting, sheets, units, write
from dartelm.command.image import Image, build, read_image, read_sheet
from dartelm.command.trouble import Refusal, Trouble
from support import sample, sample_bytes

CELL = sample("load-cell.kind1")
PERCENT = "point (%),deviation (%)\n0,0\n20,0.015\n40,0.042\n60,0.038\n80,0.009\n100,-0.021\n"
# Document 000: the quantities by the CASE lines of templates 33 and 32 (A.5), the units by Table A.22 and the lines' own last word.
# Table A.22 has Kg, G, Amperes and Watts where the lines have kg, g, A and W; case 28's line is headed kg/liter, and both its values
# and Table A.22 have kg/m3.
CASES = """
0 temperature, K
1 temperature, °C
2 strain, strain
3 strain, microstrain
4 force/weight, N
5 force/weight, lb
6 force/weight, kgf
7 acceleration, m/s²
8 acceleration, ga
9 torque, Nm/radian
10 torque, Nm
11 torque, oz-in
12 pressure, Pa
13 pressure, psi
14 mass, kg
15 mass, g
16 distance, m
17 distance, mm
18 distance, in
19 velocity, m/s
20 velocity, mph
21 velocity, fps
22 angular position, radian
23 angular position, degrees
24 rotational velocity, radian/s
25 rotational velocity, rpm
26 frequency, Hz
27 concentration, g/l
28 concentration, kg/m³
29 molar concentration, mole/m³
30 molar concentration, mole/l
31 volumetric concentration, m³/m³
32 volumetric concentration, l/l
33 mass flow, kg/s
34 volumetric flow, m³/s
35 volumetric flow, m³/hr
36 volumetric flow, gpm
37 volumetric flow, cfm
38 volumetric flow, l/min
39 relative humidity, RH
40 ratio, %
41 voltage, V
42 RMS voltage, V rms
43 current, A
44 RMS current, A rms
45 power, W
"""
# Document 000, Tables A.10 (template 33) and A.9 (template 32), behind the five fields of Basic TEDS (Table 1).
BASIC = ("manufacturer ID", "model number", "version letter", "version number", "serial number")
ENDS = ("physical measurand", "minimum physical value", "maximum physical value", "full-scale electrical value precision")
ENDS += ("minimum electrical value", "maximum electrical value")
LAST = ("calibration date", "calibration initials", "calibration period", "measurement location ID")
BRIDGE = ("bridge type", "bridge element impedance", "response time")
BRIDGE += ("excitation level, nominal", "excitation level, minimum", "excitation level, maximum")
RESISTANCE = ("mapping method", "response time", "excitation current, nominal", "excitation current, maximum")
NAMES = {33: BASIC + ENDS + BRIDGE + LAST, 32: BASIC + ENDS + RESISTANCE + LAST}
# A.3: BridgeTypeEnum; MapMethEnum, of which two bits reach the first four (written as Table A.9 has them).
BRIDGES = ("quarter", "half", "full")
MAPPINGS = ("linear", "inverse m/(x+b)", "inverse b+m/x", "inverse 1/(b+m/x)")
# Other units, as the field's books have them: a thousand of each in the sender's unit.
THOUSANDS = (
    (4, "lbf", "4448.2216152605"),
    (4, "kgf", "9806.65"),
    (4, "kp", "9806.65"),
    (4, "daN", "10000"),
    (4, "ozf", "278.01385095378125"),
    (7, "g", "9806.65"),
    (7, "ft/s2", "304.8"),
    (10, "lbf-ft", "1355.8179483314004"),
    (10, "ft-lb", "1355.8179483314004"),
    (10, "lbf-in", "112.9848290276167"),
    (10, "in-lb", "112.9848290276167"),
    (10, "oz-in", "7.06155181422604375"),
    (10, "kgf-m", "9806.65"),
    (10, "Ncm", "10"),
    (12, "bar", "100000000"),
    (12, "mbar", "100000"),
    (12, "hPa", "100000"),
    (12, "psi", "6894757.29316836133672267344534689"),
    (12, "atm", "101325000"),
    (12, "at", "98066500"),
    (12, "kgf/cm2", "98066500"),
    (12, "N/mm2", "1000000000"),
    (12, "N/mm\u00b2", "1000000000"),
    (12, "kgf/cm\u00b2", "98066500"),
    (12, "kPa", "1000000"),
    (12, "MPa", "1000000000"),
    (7, "ft/s\u00b2", "304.8"),
    (28, "g/cm\u00b3", "1000000"),
    (13, "Pa", "0.145037737730209215154241027951194"),
    (13, "kPa", "145.037737730209215154241027951194"),
    (13, "bar", "14503.7737730209215154241027951194"),
    (13, "MPa", "145037.7377302092151542410279511939767009"),
    (13, "mbar", "14.50377377302092151542410279511939767009"),
    (13, "hPa", "14.50377377302092151542410279511939767009"),
    (13, "atm", "14695.94877551344872550347215715472968922"),
    (14, "g", "1"),
    (14, "lb", "453.59237"),
    (14, "oz", "28.349523125"),
    (14, "t", "1000000"),
    (15, "kg", "1000000"),
    (15, "lb", "453592.37"),
    (16, "mm", "1"),
    (16, "cm", "10"),
    (16, "um", "0.001"),
    (16, "in", "25.4"),
    (16, "ft", "304.8"),
    (16, "km", "1000000"),
    (17, "m", "1000000"),
    (17, "in", "25400"),
    (18, "mm", "39.3700787401574803149606299212598"),
    (19, "km/h", "277.777777777777777777777777777778"),
    (19, "mph", "447.04"),
    (19, "fps", "304.8"),
    (20, "km/h", "621.371192237333969617434184363319"),
    (20, "m/s", "2236.936292054402290622763063707945597709"),
    (21, "m/s", "3280.839895013123359580052493438320209974"),
    (21, "ft/s", "1000"),
    (28, "g/l", "1000"),
    (28, "g/cm3", "1000000"),
    (28, "kg/l", "1000000"),
    (28, "mg/l", "1"),
    (33, "kg/h", "0.277777777777777777777777777777778"),
    (33, "g/s", "1"),
    (33, "kg/min", "16.6666666666666666666666666666667"),
    (34, "l/s", "1"),
    (34, "l/min", "0.0166666666666666666666666666666667"),
    (34, "m3/hr", "0.277777777777777777777777777777778"),
    (34, "m3/h", "0.277777777777777777777777777777778"),
    (34, "gpm", "0.0630901964"),
    (34, "cfm", "0.4719474432"),
    (35, "m3/s", "3600000"),
    (35, "l/s", "3600"),
    (36, "l/min", "264.1720523581484153798999216091625079593"),
    (37, "m3/s", "2118880.003289315415026280621240157615923"),
    (38, "gpm", "3785.411784"),
    (45, "hp", "745699.87158227022"),
    (45, "PS", "735498.75"),
)


class Names(support.Case):
    def test_measurands(self):
        rows = [line.split(" ", 1) for line in CASES.strip().splitlines()]
        self.assertEqual([int(code) for code, _ in rows], list(range(46)))
        sheet, _ = self.gives(0, "export", CELL)
        for code, name in rows:
            text = sheet.replace("force/weight, N (4)", code).replace(" N\n", f" {name.split(', ')[1]}\n")
            self.gives(0, "make", self.file("sheet", text), "-o", self.path("chip"), "--force", out=f" {name} ({code})")
            self.gives(0, "show", self.path("chip"), out=(f"{name} ({code})\n", f"maximum physical value 5000 {name.split(', ')[1]}\n"))
            self.assertEqual(calls.field(self.bytes("chip"), 6), int(code))

    def test_other_units(self):
        for code, word, wanted in THOUSANDS:
            found = units.figure_of(f"1000 {word}", measurands.unit_of(code), "figure")
            self.assertAlmostEqual(found / units.EXACT.create_decimal(wanted), 1, delta=1e-30, msg=word)

    def test_digits_of_a_figure_without_an_end(self):
        """Pounds by square inches do not go into a pascal: such a figure is kept to 200 digits."""
        found = units.figure_of("1 Pa", measurands.unit_of(13), "figure")
        self.assertEqual(len(found.as_tuple().digits), 200)
        self.assertEqual(str(found)[:40], "0.00014503773773020921515424102795119397")

    def test_figures_of_forty_characters(self):
        for count, taken in ((39, True), (40, True), (41, False)):
            self.assertEqual(units.split("1" * (count - 1) + "N") is not None, taken)
        self.gives(2, "distance", sample("load-cell.csv"), "--span", "1" * 40, err="is neither a file nor a span")
        self.gives(3, "distance", sample("load-cell.csv"), "--span", "1" * 41, err="cannot read")

    def test_floats_to_a_power_of_ten(self):
        """Up to forty digits exactly, as the float has them; one that is longer to ten."""
        for figure, exponent, wanted in (
            (2502.0000049, -6, "2502.000005"),
            (0.1, -3, "0.1"),
            (-1.0005, -3, "-1.000"),
            (1e31, -9, "9999999999999999635896294965248"),
            (1e32, -9, "1E+32"),
        ):
            self.assertEqual(units.rounded(figure, exponent), units.EXACT.create_decimal(wanted), figure)

    def test_prefixes(self):
        for text, value in (
            ("1MN", "1000000"),
            ("1kN", "1000"),
            ("1mN", "0.001"),
            ("1N", "1"),
        ):
            self.assertEqual(units.figure_of(text, measurands.unit_of(4), ""), units.EXACT.create_decimal(value))
        for text in ("1kpsi", "1klb", "1mK", "1kV rms", "1 kkN", "1 GN"):
            code = {"psi": 13, "lb": 5, "K": 0, "rms": 42, "N": 4}[re.search("psi|lb|K|rms|N", text).group()]
            self.assertRaises(Trouble, units.figure_of, text, measurands.unit_of(code), "")
        for mu in ("u", "\u00b5", "\u03bc"):
            self.assertEqual(units.figure_of(f"3{mu}V/V", units.RATIO, ""), units.EXACT.create_decimal("0.000003"))
            self.assertEqual(units.figure_of(f"3{mu}s", units.SECOND, ""), units.EXACT.create_decimal("0.000003"))
            self.assertEqual(units.figure_of(f"3{mu}A", units.AMPERE, ""), units.EXACT.create_decimal("0.000003"))
        self.assertEqual(units.figure_of("3nV/V", units.RATIO, ""), units.EXACT.create_decimal("0.000000003"))
        self.assertEqual(units.figure_of("3Mohm", units.OHM, ""), units.EXACT.create_decimal(3000000))

    def test_factors(self):
        for word, factor in (("N", 1), ("kN", 1000), ("MN", 1000000), ("mN", support.Fraction(1, 1000)), ("daN", 10), ("Pa", None)):
            self.assertEqual(measurands.unit_of(4).factor(word), factor)

    def test_precisions_say_their_step(self):
        """The least change that a chip of this precision takes is the step that its name says."""
        for name, end, middle in (
            ("load-cell.kind1", {0: "steps of 1 mV/V (0)", 1: "steps of 25 nV/V (1)"}, {0: 10**6, 1: 25}),
            (
                "temperature.kind1",
                {0: "steps of 10 ohm (0)", 1: "steps of 1000 ohm (1)", 2: "steps of 1 ohm (2)"},
                {0: 10, 1: 1000, 2: 1},
            ),
        ):
            sheet = read_sheet(read_image(sample(name)))
            for precision, words in end.items():
                sheet.values[9], sheet.values[10], sheet.values[11] = precision, 0, 2 * middle[precision]
                chip = build(sheet)
                self.gives(0, "show", self.file("chip", chip.data), out=words)
                self.assertEqual(chip.ask(calls.propose, 11, 3 * middle[precision], 2).value, 3 * middle[precision])
                half = middle[precision] // 2
                if half:
                    below = chip.ask(calls.propose, 11, 3 * middle[precision] - half // 2 - 1, 2).value
                    self.assertEqual(below, 3 * middle[precision])
        self.gives(0, "show", sample("brake-pressure.kind1"), out="full precision (2)\n")
        text, _ = self.gives(0, "export", sample("temperature.kind1"))
        text = text.replace("steps of 1 ohm (2)", "full precision (3)")
        self.gives(0, "make", self.file("sheet", text), "-o", self.path("full"))
        self.assertEqual(calls.field(self.bytes("full"), 9), 3)

    def test_fields(self):
        for name, template in (("load-cell.kind1", 33), ("temperature.kind1", 32)):
            said, _ = self.gives(0, "show", sample(name))
            found = re.findall(r"^ {1,3}(\d+)  (\S.*?)  +\S", said.partition("closing text")[0], re.MULTILINE)
            self.assertEqual(found, [(str(number), one) for number, one in enumerate(NAMES[template], 1)])
            self.gives(0, "report", sample(name), "-o", self.path("page"), "--force")
            found = re.findall(r"<p><b>(\d+)\u00a0([^<]*)</b>", self.bytes("page").decode())
            self.assertEqual(found, [(str(number), one) for number, one in enumerate(NAMES[template], 1)])

    def test_choices(self):
        for name, words in (("load-cell.kind1", BRIDGES), ("temperature.kind1", MAPPINGS)):
            for code, word in enumerate(words):
                for given in (code, word, f"{word} ({code})"):
                    self.gives(0, "set", sample(name), f"12={given}", "--level", "maker", "-o", self.path("chip"), "--force")
                    self.assertEqual(calls.field(self.bytes("chip"), 12), code)
                self.gives(0, "show", self.path("chip"), out=f"12 {NAMES[33 if words == BRIDGES else 32][11]} {word} ({code})\n")

    def test_figures_by_their_codes(self):
        """ConRes: start plus step times code; ConRelRes: start times (1 + 2 tolerance) to the power of the code; a date is in days
        since 1998-01-01; a letter is its place in the alphabet (document 000, A.5 and 6.3). The chip's values are in 0.1 ohm, 0.1 V,
        10 ns and 0.1 nA (document 01)."""
        words = (
            ("load-cell.kind1", "bridge element impedance", "ohm", 0.1, lambda code: 1 + 0.1 * code, (0, 3490, 262142)),
            ("load-cell.kind1", "excitation level, nominal", "V", 0.1, lambda code: 0.1 * (code + 1), (0, 99, 510)),
            ("load-cell.kind1", "response time", "s", 1e-8, lambda code: 1e-6 * 1.292**code, (0, 1, 20, 61)),
            ("temperature.kind1", "response time", "s", 1e-8, lambda code: 1e-6 * 1.292**code, (0, 1, 20, 61)),
            ("temperature.kind1", "excitation current, maximum", "A", 1e-10, lambda code: 1e-6 * 1.0471285480509**code, (0, 100, 253)),
        )
        scale = {"u": 1e-6, "m": 1e-3, "k": 1e3, "": 1}
        for name, field, unit, step, figure, codes in words:
            for code in codes:
                given = f"{field}={figure(code):.10f}{unit}"
                self.gives(0, "set", sample(name), given, "--level", "maker", "-o", self.path("chip"), "--force")
                said, _ = self.gives(0, "show", self.path("chip"))
                number, prefix = re.search(rf"{field}  +(\S+) (u|m|k|){unit}\n", said).groups()
                self.assertAlmostEqual(float(number) * scale[prefix], figure(code), delta=0.51 * step, msg=given)
        for day, code in (("1998-01-01", 0), ("1998-12-31", 364), ("2000-02-29", 789), ("2025-11-03", 10168)):
            self.gives(0, "set", CELL, f"date={day}", "--level", "calibration", "-o", self.path("chip"), "--force")
            self.assertEqual(calls.field(self.bytes("chip"), 18), code)
            self.gives(0, "show", self.path("chip"), out=f"18 calibration date {day}\n")
        for code in range(1, 27):
            letter = chr(ord("A") + code - 1)
            self.gives(0, "set", CELL, f"version letter={letter}", "--level", "maker", "-o", self.path("chip"), "--force")
            self.assertEqual(calls.field(self.bytes("chip"), 3), code)
            self.gives(0, "show", self.path("chip"), out=f"3 version letter {letter}\n")

    def test_choices_are_the_consoles(self):
        """The console is another program with its own names: bridge types and mapping methods."""
        for name, field, count in (("load-cell.kind1", 12, 3), ("temperature.kind1", 12, 4)):
            for code in range(count):
                self.gives(0, "set", sample(name), f"{field}={code}", "--level", "maker", "-o", self.path("chip"), "--force")
                words = [os.path.join(support.HOME, "bin", "console"), "show", "1", self.bytes("chip").hex()]
                said = subprocess.run(words, capture_output=True, text=True, check=True).stdout
                shown = re.search(rf"^12 [^:]*: {code} \((.*)\)$", said, re.MULTILINE).group(1)
                self.gives(0, "show", self.path("chip"), out=f" {shown} ({code})\n")


    def test_bits_of_a_chip(self):
        """The register's 8 bytes, and of each page all but its check byte: 8 x 39, 8 x 124 and 8 x 496 bits."""
        for name, bits in (
            ("oil-pressure.kind0", "kind 0 (40 bytes), 294 of 312 bits"),
            ("load-cell.kind1", "kind 1 (128 bytes), 716 of 992 bits"),
            ("many-points.kind2", "kind 2 (512 bytes), 3967 of 3968 bits"),
        ):
            self.gives(0, "show", sample(name), out=f": accepted, {bits}; template 33, a bridge sender\n")

    def test_measurands_that_are_none(self):
        text, _ = self.gives(0, "export", CELL)
        for word in ("missing", "46", "63"):
            sheet = self.file("sheet", text.replace("force/weight, N (4)", word))
            self.gives(2, "make", sheet, "--dry-run", err="sheet:8: the physical measurand is one of 0 to 45")


    def test_help_begins_with_what_a_command_does(self):
        for name, said in (
            ("show", "The sheet in plain words and units. Ends with 0 if accepted, 1 if refused or different"),
            ("set", "A copy of an image with some fields changed, all of them or none. Ends with 0"),
            ("tray", "A line for each of many chips. Ends with 0"),
        ):
            self.assertIn(said, " ".join(self.gives(0, name, "--help")[0].split()))
        self.gives(0, "--man", out=(".SS show\nThe sheet in plain words and units.\n", ".SS tray\nA line for each of many chips.\n"))


class Shown(support.Case):
    def test_ohms_of_a_resistance_sender(self):
        """80 to 194 ohm: a point at 26.08344 % is at 80 + 114 x 0.2608344 ohm."""
        self.gives(
            0,
            "show",
            sample("temperature.kind1"),
            out=(
                "0 0.26928 % 80.3069792 ohm deviation -0.2687 %\n",
                "1 26.08344 % 109.7351216 ohm deviation -1.083 %\n",
                "4 100.08648 % 194.0985872 ohm deviation -0.0861 %\n",
            ),
        )

    def test_the_first_and_the_last_points(self):
        """-5000 to 5000 N: a point at 97.89399 % is at 4789.399 N, and with -0.0254 % shows 4786.859 N."""
        points = read_sheet(read_image(sample("many-points.kind2"))).points
        said, _ = self.gives(0, "show", sample("many-points.kind2"), out=".. 90 more: --points shows them\n")
        rows = [line.split() for line in said.splitlines() if " deviation " in line]
        self.assertEqual([int(row[0]) for row in rows], [0, 1, 2, 93, 94, 95])
        for row in rows:
            point, deviation = points[int(row[0])]
            self.assertAlmostEqual(float(row[1]), point / 1e7, places=6)
            self.assertAlmostEqual(float(row[3]), -5000 + point / 1e5, places=6)
            self.assertAlmostEqual(float(row[6]), deviation / 1e7, places=6)
            self.assertAlmostEqual(float(row[9]), -5000 + (point + deviation) / 1e5, places=6)
        said, _ = self.gives(0, "show", sample("many-points.kind2"), "--points")
        self.assertEqual([int(line.split()[0]) for line in said.splitlines() if " deviation " in line], list(range(96)))

    def test_twelve_points_are_few(self):
        sheet = read_sheet(read_image(CELL))
        for count, some in ((12, 12), (13, 6)):
            sheet.points = [(15300 * 100 * n, 1000 * n) for n in range(count)]
            said, _ = self.gives(0, "show", self.file("chip", build(sheet, 2).data))
            self.assertEqual(sum(" deviation " in line for line in said.splitlines()), some)

    def test_readings_of_a_table(self):
        """q by document 01, over stored points; 5 inputs from end to end."""
        points = read_sheet(read_image(CELL)).points
        said, _ = self.gives(0, "read", CELL, "--table", "5")
        rows = [line.split() for line in said.splitlines()[2:]]
        self.assertEqual([row[0] for row in rows], ["0", "0.5", "1", "1.5", "2"])
        for row in rows:
            x = round(float(row[0]) * 5e8)
            shift = certificate_line(points, x)
            self.assertAlmostEqual(float(row[4]), float(x + shift) / 1e7, delta=1.1e-7)
            self.assertAlmostEqual(float(row[6]), float(shift) / 1e7, delta=1.1e-7)
            self.assertAlmostEqual(float(row[2]), float(x + shift) * 5e-6, delta=1e-5)

    def test_the_text_curve_of_a_resistance_sender(self):
        """Points at 0.26928, 26.08344, 51.32079, 75.98898 and 100.08648 % of sixty columns, from 0 down to -1.3206 % in eight rows."""
        said, _ = self.gives(0, "show", sample("temperature.kind1"), "--curve")
        lines = said.splitlines()
        first = lines.index("deviation at each point, of the span (no reading is taken from a resistance sender):") + 1
        drawn = [line.split("|", 1) for line in lines[first : first + 9]]
        self.assertEqual([label.strip() for label, _ in drawn], ["0 %", "", "", "", "", "", "", "", "-1.3206 %"])
        stars = {(row, column) for row, (_, cells) in enumerate(drawn) for column, cell in enumerate(cells) if cell == "*"}
        self.assertEqual(stars, {(2, 0), (7, 16), (8, 31), (6, 46), (1, 60)})

    def test_inputs_of_a_table(self):
        for count in (2, 10000):
            said, _ = self.gives(0, "read", CELL, "--table", count)
            self.assertEqual(len(said.splitlines()), 2 + count)
        for count in (1, 10001):
            self.gives(2, "read", CELL, "--table", count, err="--table takes 2 to 10000 inputs")

    def test_the_text_curve(self):
        said, _ = self.gives(0, "show", CELL, "--curve")
        lines = said.splitlines()
        first = lines.index("correction over the span:") + 1
        drawn = [line.split("|", 1) for line in lines[first : first + 9]]
        self.assertEqual([label.strip() for label, _ in drawn], ["+0.0419996 %", "", "", "", "", "0 %", "", "", "-0.021 %"])
        for column in range(61):
            row = next(n for n, (_, cells) in enumerate(drawn) if cells[column : column + 1] == "*")
            height = 0.0419996 - row * (0.0419996 + 0.021) / 8
            wanted = float(certificate_line([(p * 10**7, round(d * 10**7)) for p, d in POINTS], round(column / 60 * 10**9))) / 1e7
            self.assertAlmostEqual(height, wanted, delta=0.0045)
        self.assertEqual(lines[first + 9], " " * 14 + "0 %" + " " * 25 + "50 %" + " " * 25 + "100 % of the span")


POINTS = ((0, 0), (20.00016, 0.015), (40.00032, 0.042), (60.00048, 0.038), (80.00064, 0.009), (99.99927, -0.021))


def certificate_line(points, x):
    """The correction at x: straight between points, the end deviations beyond them."""
    if x <= points[0][0]:
        return points[0][1]
    for (a, s), (b, t) in zip(points, points[1:]):
        if x <= b:
            return s + support.Fraction(t - s) * support.Fraction(x - a) / support.Fraction(b - a)
    return points[-1][1]


class Verdicts(support.Case):
    def made(self, name, text):
        self.gives(0, "make", self.file(name + ".txt", text), "-o", self.path(name))
        return self.path(name)

    def against(self, status, chip, text, *parts):
        return self.gives(status, "certificate", chip, self.file("cert", text), out=parts)

    def test_a_point_of_the_chips_own(self):
        """Right at each point of the certificate, and 1.46 % off between two of them."""
        sheet, _ = self.gives(0, "export", CELL)
        own = "point = 20.00016 %, +0.015 %\npoint = 21.00078 %, +0.01635 %\n"
        own += "point = 30.00024 %, +1.4885 %\npoint = 39.0007 %, +0.04065 %\n"
        chip = self.made("own", sheet.replace("point = 20.00016 %, +0.015 %\n", own))
        said, _ = self.against(
            1,
            chip,
            PERCENT,
            "DIFFERS: by up to 1.5 % of the span, 73 N, more than what storing at the nearest step explains; the worst is at ",
            "a point of the chip's own: +1.4599981 %, +73 N\n",
        )
        self.assertIn("chip 30.00024 %", support.squeezed(said))
        self.assertRegex(said, r"\+73(\.\d+)? N")

    def test_the_worst_are_listed(self):
        """Six of the chip's own points that are too far off, the worst."""
        sheet, _ = self.gives(0, "export", CELL)
        lines = "".join(f"point = {round(n * 10**8 / 15300) * 15300 / 10**7} %, {n / 100} %\n" for n in range(10))
        kept = "".join(line + "\n" for line in sheet.splitlines() if not line.startswith("point"))
        said, _ = self.against(1, self.made("ten", kept + lines), "point (%),deviation (%)\n0,0\n100,0\n", "DIFFERS")
        listed = [line.split()[1] for line in said.splitlines() if line.strip().startswith("chip ")]
        self.assertEqual([round(float(place)) for place in listed], [40, 50, 60, 70, 80, 90])
        self.assertIn("the worst is at 100 %: +0.09 %", said)

    def test_one_billionth_differs_from_a_twin(self):
        """A table against the physical figure is held against a chip made from the certificate, to the last billionth."""
        sheet = read_sheet(read_image(sample("torque.kind1")))
        beside = certificate.beside_points(read_image(sample("torque.kind1")), sheet, "", list(sheet.points))
        self.assertTrue(beside.agrees())
        for off in (1, -1):
            beside.at[1].difference = off
            self.assertFalse(beside.agrees())
        self.assertEqual([one.place for one in beside.at], [point + deviation for point, deviation in sheet.points])

    def test_a_twin_is_asked_at_the_chips_own_points_too(self):
        """A table against the physical figure that is right at each point of the certificate, and 1 % off between two of them."""
        sheet, _ = self.gives(0, "export", sample("torque.kind1"))
        own = "point = 50.0004 %, +0.065 %\npoint = 60.00048 %, +1.05 %\n"
        chip = self.made("own", sheet.replace("point = 50.0004 %, +0.065 %\n", own))
        cert = "point,deviation\n0%,0%\n25.0002%,0.04%\n50.0004%,0.065%\n75.0006%,0.03%\n99.99927%,-0.015%\n"
        self.against(0, sample("torque.kind1"), cert, "AGREES: at every point it shows what a chip made from the certificate shows\n")
        self.against(
            1,
            chip,
            cert,
            "DIFFERS: from a chip made from the certificate at 0 of the certificate's 5 points and at 1 of the chip's own 6 points; "
            "the worst is at 61.05048 %, a point of the chip's own: -",
        )

    def test_inputs_are_the_nearest_to_the_points(self):
        cell = read_image(CELL)
        found = certificate.against(cell, read_sheet(cell), sample("load-cell.csv"))
        self.assertEqual([one.input for one in found.at], [0, 400000, 800000, 1200000, 1600000, 2000000])
        self.assertEqual([one.input for one in found.own], [0, 400003, 800006, 1200010, 1600013, 1999985])
        places = [x for x, _ in found.over(5)]
        self.assertEqual(places, [0, 0.25, 0.5, 0.75, 1])

    def test_the_line_of_a_certificate(self):
        points = [(100, 10), (200, -10), (400, 90)]
        for x, y in ((0, 10), (100, 110), (150, 150), (200, 190), (250, 265), (400, 490), (500, 590)):
            self.assertEqual(certificate.line_at(points, support.Fraction(x)), y if x else 10)

    def test_what_is_marked_with_a_tolerance(self):
        """0.004 % and 0.2 N too little at 40 %, and at the chip's own point beside it."""
        cert = self.file("cert", PERCENT.replace("0.042", "0.046"))
        for tolerance, status, marks in (
            ("0.0039%", 1, 2), ("0.004%", 1, 1), ("0.0041%", 0, 0), ("0.19N", 1, 2), ("0.2N", 1, 1), ("0.21N", 0, 0),
        ):  # fmt: skip
            said, _ = self.gives(status, "certificate", CELL, cert, "--within", tolerance)
            self.assertEqual(said.count(" !\n"), marks, (tolerance, said))

    def test_comments_and_separators(self):
        for text in (
            PERCENT.replace(",", ";"),
            PERCENT.replace(",", "\t"),
            "# first\n" + PERCENT,
            PERCENT.replace("20,0.015", "\n20,0.015"),
            PERCENT.replace("20,0.015", "2e1,1.5E-2"),
        ):
            self.against(0, CELL, text, "AGREES")


# docs/REFUSALS.md by hand: what the place counts, and the meaning up to its first stop, or its colon where that is far; then the
# part of a meaning that a value is told by.
HEADLINES = (
    (1, "place", "the kind is not 0, 1 or 2, or the image does not have the kind's 40, 128 or 512 bytes"),
    (2, "page", "the page's bytes do not add up to 0 modulo 256 (kind 0: register and page together)"),
    (3, "bit", "a field, selector, template number or end bit would lie past the stream's end"),
    (4, "bit", "a block that is not built here"),
    (5, "bit", "a code that the field's table has not"),
    (6, "bit", "a Single that is infinite or no number, and not all ones"),
    (11, "bits", "the stream has fewer bits than the sheet needs"),
    (13, "field", "no reading can be taken"),
    (16, "length", "the list of points is odd or longer than 254"),
    (17, "place", "every page is 32 bytes of hexadecimal FF, whatever the register holds: nothing has been written to this chip"),
    (18, "bytes", "the buffer lent for an index is too short for it"),
    (23, "points", "a reading on the small dash, which takes 32 calibration points at most"),
    (25, "terms", "a curve of more than 30 terms"),
    (26, "ticks", "two recordings that cannot be of one run"),
)
PARTS = (
    (9, "missing", "missing where it may not be"),
    (9, "Single", "a value of the wrong sort (a Single where a whole number belongs)"),
    (10, "Single", "a Single that is not finite"),
    (10, "figure", "a figure outside the field's range"),
)


class Refusals(support.Case):
    def test_headlines(self):
        for number, place, said in HEADLINES:
            self.assertEqual(refusals.headline(Refusal(number, 3)), f"refused: {number} at {place} 3: {said}")
        for number, word, said in PARTS:
            self.assertEqual(refusals.headline(Refusal(number, 3), word), f"refused: {number} at place 3: {said}")

    def test_what_to_do(self):
        """For the bench or the restorer; a programmer's part is left out."""
        for number, said in (
            (1, "the chip was read short, or is of another kind"),
            (7, "two points of the certificate fall on one step of the chip, or are listed out of order"),
            (8, ""),
            (10, "the certificate has a figure that this field cannot come near; another precision (field 9) may"),
            (14, "check the wiring before the sheet"),
        ):
            self.assertEqual(refusals.advice(Refusal(number, 3)), said)


class Whole(support.Case):
    def test_places_of_a_refusal(self):
        """Page 0 holds stream bytes 0 to 30 behind its check byte, page 1 those from 31."""
        data = bytearray(sample_bytes("load-cell.kind1"))
        first = Image(support.sealed(bytes([data[0], 0, data[2] & 0xC0]) + bytes(data[3:])))
        self.gives(1, "why", self.file("chip", first.data), out="bit 0 is bit 0 of page 0, byte 1: manufacturer ID\n")
        pages = set()
        for one in support.stored_images():
            refusal = support.images.refusal_of(one)
            if refusal and one.kind and refusal.number in (3, 4, 5, 6, 7, 22, 24):
                byte = refusal.place // 8
                said, _ = self.gives(1, "why", self.file("chip", one.data))
                where = f"bit {refusal.place} is bit {refusal.place % 8} of page {byte // 31}, byte {byte % 31 + 1}"
                self.assertRegex(said, where + r"\D")
                pages.add(byte // 31)
        self.assertGreater(len(pages), 1)
        kind0 = bytearray(sample_bytes("oil-pressure.kind0"))
        kind0[0:2] = b"\x00\x00"
        self.gives(1, "why", self.file("chip", support.sealed(bytes(kind0))), out="bit 0 is bit 0 of register byte 0: manufacturer ID\n")
        kind0 = bytearray(sample_bytes("oil-pressure.kind0"))
        kind0[9] |= 3
        self.gives(1, "why", self.file("chip", support.sealed(bytes(kind0))), out="of page 0, byte 1\n")

    def test_a_template_that_is_not_known(self):
        """The first ten bits behind Basic are selector and template: what is refused there has no layout."""
        for bit, part in ((64, "bit 64 is bit 0 of page 0, byte 9\n"),):
            data = bytearray(sample_bytes("load-cell.kind1"))
            data[9] ^= 8
            said, _ = self.gives(1, "why", self.file("chip", support.sealed(bytes(data))), out=part)
            self.assertNotIn("physical measurand", said)
            self.assertIn(f"refused: 4 at bit {bit}", said)

    def test_a_measurand_that_is_none(self):
        """Bits 74 to 79, the first behind the template's number, are bits 2 to 7 of the stream's byte 9: code 63."""
        data = bytearray(sample_bytes("load-cell.kind1"))
        data[10] |= 0xFC
        self.gives(
            1,
            "why",
            self.file("chip", support.sealed(bytes(data))),
            out=("refused: 5 at bit 74", "bit 74 is bit 2 of page 0, byte 10: physical measurand\n"),
        )

    def test_the_first_bit_behind_the_fields(self):
        """Template 33 at precision 1 has 6 + 32 + 32 + 2 + 19 + 19 + 2 + 18 + 6 + 9 + 9 + 9 + 16 + 15 + 12 + 11 bits behind the first
        74: bit 291 is bit 3 of the stream's byte 36, the selector of what follows."""
        data = bytearray(sample_bytes("load-cell.kind1"))
        for bits in (8, 16, 24):
            changed = bytearray(data)
            changed[32 + 6] ^= bits
            said, _ = self.gives(1, "why", self.file("chip", support.sealed(bytes(changed))))
            where = "bit 291 is bit 3 of page 1, byte 6, behind the fields: in the calibration points, the curve or the ending\n"
            self.assertEqual("at bit 291" in said, where in said)
            if where in said:
                break
        else:
            self.fail("no selector is refused")

    def test_bytes_of_a_stream(self):
        """Without a check byte for each page of 32."""
        for count in (39, 124, 496):
            self.gives(1, "why", self.file("chip", bytes(count)), out=f"likely: {count} bytes are a chip's stream, without the check bytes")

    def test_whose_sheet_is_on_a_chip(self):
        """Maker, model, version and serial number say whose it is; nothing else does."""
        chip = types.SimpleNamespace(kind=1, name="one")
        for change, other in (
            ("maker=1452", "manufacturer ID 1451"),
            ("model=78", "model number 77"),
            ("version letter=D", "version letter C"),
            ("version number=5", "version number 4"),
            ("serial=556", "serial number 555"),
            ("measurand=kgf", None),
            ("location=13", None),
        ):
            self.gives(0, "set", CELL, change, "--level", "maker", "-o", self.path("new"), "--force")
            sheet = read_sheet(read_image(self.path("new")))
            words = (chip, read_image(CELL), sheet)
            if other:
                said = re.escape(f"ow:one: another sender's sheet is on the chip ({other}); --force writes over it")
                self.assertRaisesRegex(Trouble, said, write.own_sender, *words, False)
            else:
                write.own_sender(*words, False)
            write.own_sender(*words, True)

    def test_rows_have_an_end(self):
        """A chip of 128 or 512 bytes has 16 or 64 rows of 8; four more are room enough."""
        for kind, most, name in ((1, 20, "load-cell.kind1"), (2, 68, "many-points.kind2")):
            wanted = read_image(sample(name))
            present = bytes(byte ^ 0xFF for byte in wanted.data)
            rows = write.Rows(types.SimpleNamespace(kind=kind, name="one"), present, wanted.data, None)
            rows.sent = most - 1
            self.assertEqual(len(next(rows.rows())[1]), 8)
            rows.sent = most
            self.assertRaises(Trouble, next, rows.rows())
            rows.held = wanted.data
            self.assertEqual(list(rows.rows()), [])

    def test_intel_hex(self):
        good = ":10000000" + "00" * 16 + "F0"
        self.assertEqual(dumps.bytes_of(f"{good}\n:00000001FF\n".encode()), bytes(16))
        for bad in (good[:-2] + "F1", good.replace(":10", ":11"), ":00000001FF\n" + good):
            self.assertNotEqual(dumps.bytes_of(f"{bad}\n:00000001FF\n".encode()), bytes(16))
            self.assertIsNone(dumps.intel([line for line in f"{bad}\n:00000001FF".splitlines()]))

    def test_what_is_a_text(self):
        for data, text in ((b"load 5\r\n\tN", "load 5\r\n\tN"), (b"load\x01", None), (b"\x00load", None), (b"\xff", None), (b"", None)):
            self.assertEqual(dumps.text_of(data), text)

    def test_offsets(self):
        """Seven digits before bytes are octal, or hexadecimal where the bytes before say so; a wrong offset is no dump."""
        data = bytes(range(128))
        for form in ("{:07o} {}", "{:07x} {}", "{:08x}: {}", "{:06x} {}"):
            lines = [form.format(n, data[n : n + 16].hex(" ")) for n in range(0, 128, 16)]
            self.assertEqual(dumps.bytes_of("\n".join(lines).encode()), data, form)
            lines[3] = lines[4]
            self.assertNotEqual(dumps.bytes_of("\n".join(lines).encode()), data, form)
            self.assertNotEqual(len(dumps.bytes_of("\n".join(lines[:3] + lines[4:]).encode()) or b""), 128, form)
            two = f"{form.format(0, data[:32].hex(' '))}\n{form.format(32, data[32:40].hex(' '))}\n"
            self.assertEqual(dumps.bytes_of(two.encode()), data[:40], form)

    def test_parts_of_a_line(self):
        draft = sheets.Draft("sheet")
        self.assertEqual(sheets.two(draft, 1, "1 %, 2 %", "point"), ["1 %", "2 %"])
        for text in ("1 %", "1 %, 2 %, 3 %", ""):
            self.assertRaises(Trouble, sheets.two, draft, 1, text, "point")

    def test_what_was_written_is_read_again(self):
        """A file that has other bytes than were written, or another value, is told as such."""
        sheet = self.file("sheet", self.gives(0, "export", CELL)[0])
        with mock.patch.object(image, "read_image", return_value=Image(sample_bytes("torque.kind1"))):
            self.gives(3, "set", CELL, "location=1", "-o", self.path("new"), err="what stands in the file is not what was written")
            self.gives(3, "make", sheet, "-o", self.path("made"), err="made: what stands in the file is not what was written")
        other = read_sheet(read_image(CELL))
        with mock.patch.object(setting, "write_image", return_value=other):
            self.gives(3, "set", CELL, "location=1", "-o", self.path("two"), err="what stands in the file is not what was written")
        self.gives(0, "set", CELL, "date=2026-01-01", "--level", "calibration", "-o", self.path("dated"))
        other = read_sheet(read_image(self.path("dated")))
        words = ("date=2026-01-01", "location=1", "--level", "maker", "-o", self.path("three"))
        with mock.patch.object(setting, "write_image", return_value=other):
            self.gives(3, "set", CELL, *words, err="what stands in the file is not what was written")

    def test_a_refusal_that_nobody_caught(self):
        with mock.patch.object(main, "answer", side_effect=Refusal(2, 7)):
            self.assertEqual(self.run_here("show", CELL)[0], 1)
        with mock.patch.object(main, "answer", side_effect=KeyboardInterrupt):
            self.assertEqual(self.run_here("show", CELL)[0], 130)
        with mock.patch.object(main, "answer", side_effect=OSError(5, "Input/output error")):
            self.assertEqual(self.run_here("show", CELL)[0], 3)

    def test_excitation_that_equals_its_ends(self):
        for changes, odd in (
            (("excitation min=10V",), False),
            (("excitation max=10V",), False),
            (("excitation min=10V", "excitation max=10V"), False),
            (("excitation min=10.1V",), True),
            (("excitation max=9.9V",), True),
        ):
            self.gives(0, "set", CELL, *changes, "--level", "maker", "-o", self.path("chip"), "--force")
            said, _ = self.gives(0, "show", self.path("chip"), *support.TODAY)
            self.assertEqual("the nominal excitation, 10 V, is not between" in said, odd, changes)
            self.assertEqual(said.count("look at: "), odd, changes)

    def test_the_day_itself(self):
        """A date of today is not to come, and a chip that is due today is not overdue: 2025-11-03 and 365 days."""
        for day, look in (
            ("2025-11-02", ["the calibration date is still to come: 2025-11-03"]),
            ("2025-11-03", []),
            ("2026-11-03", []),
            ("2026-11-04", ["calibration is overdue since 2026-11-03"]),
        ):
            said, _ = self.gives(0, "show", CELL, "--today", day)
            self.assertEqual([line[9:] for line in said.splitlines() if line.startswith("look at: ")], look, day)

    def test_ends_that_are_equal_are_not_above_each_other(self):
        for name, changes, looks in (
            ("load-cell.kind1", ("min phys=5000N",), ["minimum and maximum physical value are both 5000 N: every reading shows it"]),
            ("temperature.kind1", ("current nom=5.0118723mA",), []),
            ("temperature.kind1", ("min elec=194ohm",), []),
        ):
            self.gives(0, "set", sample(name), *changes, "--level", "maker", "-o", self.path("chip"), "--force", *support.TODAY)
            said, _ = self.gives(0, "show", self.path("chip"), *support.TODAY)
            self.assertEqual([line[9:] for line in said.splitlines() if line.startswith("look at: ")], looks)

    def test_floats_are_the_protocols(self):
        (found,) = readings.of(read_image(CELL), [1000000])
        answer = support.console("reading", 1, "@" + CELL, 1000000, "large")
        self.assertEqual([str(found.fraction), struct.pack(">d", found.figure).hex()], answer)


if __name__ == "__main__":
    support.unittest.main()
