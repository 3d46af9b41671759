"""report: one page that needs nothing else."""
import hashlib
import html.parser
import os
import re

import support
from dartelm import calls
from dartelm.command import panels
from support import ACCEPTED, REFUSED, sample

PERCENT = "point (%),deviation (%)\n0,0\n20,0.015\n40,0.042\n60,0.038\n80,0.009\n100,-0.021\n"


class Page(html.parser.HTMLParser):
    """Whether tags are closed in order, and what is asked for from elsewhere."""

    EMPTY = ("meta", "line", "rect", "circle", "polyline")

    def __init__(self):
        super().__init__()
        self.open = []
        self.elsewhere = []

    def handle_starttag(self, tag, attrs):
        if tag not in self.EMPTY:
            self.open.append(tag)
        self.elsewhere += [value for name, value in attrs if name in ("src", "href", "xlink:href")]

    def handle_startendtag(self, tag, attrs):
        pass

    def handle_endtag(self, tag):
        assert self.open and self.open[-1] == tag, (tag, self.open)
        self.open.pop()


class Drawing:
    """A picture's figures, by the labels of its own axes: ticks on the left, per cent of the span below."""

    def __init__(self, svg):
        self.svg = svg
        texts = re.findall(r'<text x="([^"]*)" y="([^"]*)" text-anchor="(\w+)">([^<]*)</text>', svg)
        self.left = {label: float(y) - 4 for x, y, anchor, label in texts if anchor == "end" and re.match(r"[+-]?[0-9.]", label)}
        feet = [(float(x), label) for x, y, _, label in texts if re.fullmatch(r"[0-9.]+ %", label) and label in FEET]
        self.feet = dict((label, x) for x, label in feet)
        self.words = [label for *_, label in texts]
        self.left = {label: y for label, y in self.left.items() if label not in FEET or y < self.floor()}

    def floor(self):
        return float(re.search(r'class="frame" x="[^"]*" y="([^"]*)"', self.svg).group(1)) + float(
            re.search(r'class="frame"[^>]*height="([^"]*)"', self.svg).group(1)
        )

    def up(self, y):
        """The figure at a height."""
        figures = {float(label.split(" ")[0]): at for label, at in self.left.items() if at < self.floor() + 1}
        low, high = min(figures), max(figures)
        return low + (high - low) * (y - figures[low]) / (figures[high] - figures[low])

    def across(self, x):
        return 100 * (x - self.feet["0 %"]) / (self.feet["100 %"] - self.feet["0 %"])

    def dots(self):
        found = re.findall(r'<circle class="dot" cx="([^"]*)" cy="([^"]*)"', self.svg)
        return [(self.across(float(x)), self.up(float(y))) for x, y in found]

    def line(self):
        found = re.search(r'<polyline class="line" points="([^"]*)"', self.svg).group(1)
        pairs = (pair.split(",") for pair in found.split(" "))
        return [(self.across(float(x)), self.up(float(y))) for x, y in pairs]

    def band(self):
        top, height = re.search(r'<rect class="band" [^>]*y="([^"]*)" [^>]*height="([^"]*)"', self.svg).groups()
        return self.up(float(top)), self.up(float(top) + float(height))


FEET = ("0 %", "25 %", "50 %", "75 %", "100 %")


class Report(support.Case):
    def page(self, status, path, *words):
        self.gives(status, "report", path, "-o", self.path("page.html"), "--force", *words)
        text = self.bytes("page.html").decode()
        page = Page()
        page.feed(text)
        self.assertEqual((page.open, page.elsewhere), ([], []))
        for part in ("<script", "url(", "@import", "None", "nan"):
            self.assertNotIn(part, text)
        return text

    def test_each_sample(self):
        for name in ACCEPTED:
            text = self.page(0, sample(name))
            for part in ("ACCEPTED", "SHA-256", "Dartelm ", "serial number"):
                self.assertTrue(part in text, part)
            self.assertEqual(text.count("<svg"), 2)
        for name in REFUSED:
            text = self.page(1, sample(name))
            self.assertIn("REFUSED: ", text)
            self.assertIn("page 3: ", text)

    def test_with_a_certificate(self):
        cert = self.file("cert", PERCENT)
        text = self.page(0, sample("load-cell.kind1"), cert)
        for part in ("Certificate: AGREES", 'class="band"', "Chip minus certificate", "SHA-256 of the certificate, " + cert):
            self.assertTrue(part in text, part)
        self.assertEqual(text.count("<svg"), 4)
        for name, verdict in (
            ("many-points.kind2", "DIFFERS"),
            ("oil-pressure.kind0", "DIFFERS"),
            ("torque.kind1", "DIFFERS"),
            ("exhaust-pressure.kind1", "NO VERDICT"),
        ):
            text = self.page(1, sample(name), cert)
            self.assertEqual(
                (text.count("<svg"), verdict in text, 'class="band"' in text),
                (4, True, verdict == "DIFFERS" and name != "torque.kind1"),
            )
        self.page(1, sample("damaged.kind1"), cert)
        self.gives(1, "report", sample("temperature.kind1"), cert, "-o", self.path("other.html"), err="refused: 4")
        self.assertFalse(os.path.exists(self.path("other.html")))

    def drawings(self, text):
        """Each picture; the span goes from left to right, and a greater figure stands higher."""
        found = [Drawing(svg) for svg in re.findall(r"<svg .*?</svg>", text)]
        for one in found:
            self.assertLess(one.feet["0 %"], one.feet["100 %"])
            left = [label for label, y in one.left.items() if y < one.floor()]
            rising = sorted(left, key=lambda label: float(label.split(" ")[0]))
            self.assertEqual(rising, sorted(left, key=lambda label: -one.left[label]))
            self.assertGreater(len(rising), 1)
        return found

    def near(self, found, wanted, room):
        self.assertEqual(len(found), len(wanted))
        for (x, y), (place, figure) in zip(found, wanted):
            self.assertAlmostEqual(x, place, delta=0.05)
            self.assertAlmostEqual(y, figure, delta=room)

    def test_the_correction_as_drawn(self):
        """The load cell's stored points, and its line by document 01 between them."""
        points = [(0, 0), (20.00016, 0.015), (40.00032, 0.042), (60.00048, 0.038), (80.00064, 0.009), (99.99927, -0.021)]
        drawings = self.drawings(self.page(0, sample("load-cell.kind1")))
        self.assertEqual([re.search('class="([a-z]+)"', one.svg).group(1) for one in drawings], ["wide", "narrow"])
        for one in drawings:
            self.near(one.dots(), points, 0.0003)
            line = one.line()
            self.assertEqual((len(line), round(line[0][0]), round(line[-1][0])), (241, 0, 100))
            for x, y in line:
                low, high = next(pair for pair in zip(points, points[1:]) if x <= pair[1][0] + 0.1)
                wanted = low[1] + (high[1] - low[1]) * (x - low[0]) / (high[0] - low[0])
                self.assertAlmostEqual(y, wanted, delta=0.0006)
            about = re.search('aria-label="([^"]*)"', one.svg).group(1)
            self.assertIn("from 0 % at 0 % of the span to -0.021 % at 100 % of the span", about)
            self.assertIn("greatest +0.042 % at 40 % of the span, least -0.021 % at 100 % of the span", about)
        self.assertEqual([label for label in drawings[0].words if label.endswith(" N")], ["0 N", "1250 N", "2500 N", "3750 N", "5000 N"])
        self.assertEqual([label for label in drawings[1].words if label.endswith(" N")], ["0 N", "2500 N", "5000 N"])

    def test_a_curve_as_drawn(self):
        """In the sender's unit, by the curve's own terms: 300 kPa, in per cent of the span."""
        image = support.images.read_image(sample("exhaust-pressure.kind1"))
        terms = [image.ask(calls.term, index) for index in range(5)]
        segments = [image.ask(calls.segment, index) for index in range(2)]

        def correction(x):
            own = terms[: segments[0].terms] if x < segments[1].start / 1e7 else terms[segments[0].terms :]
            exact = sum(one.coefficient * x**one.exponent for one in own)
            return 300 * exact / 100

        for one in self.drawings(self.page(0, sample("exhaust-pressure.kind1"))):
            self.assertTrue(any(label.endswith(" kPa") and label[0] in "+-" for label in one.words))
            for x, y in one.line():
                self.assertAlmostEqual(y, correction(x), delta=0.02)
            self.assertIn(f"from {kilopascals(correction(0))} at 0 %", one.svg)

    def test_a_curve_that_takes_away(self):
        """-0.004 x + 0.00008 x^2 per cent of 300 kPa up to the middle: least at 25 %, by 0.05 %, which is 0.15 kPa."""
        sheet, _ = self.gives(0, "export", sample("exhaust-pressure.kind1"))
        sheet = sheet.replace("term = 1, 0.004\n", "term = 1, -0.004\n").replace("term = 2, -0.00008\n", "term = 2, 0.00008\n")
        self.gives(0, "make", self.file("sheet", sheet), "-o", self.path("chip"))
        for one in self.drawings(self.page(0, self.path("chip"))):
            self.assertIn("least -0.15 kPa at 25 % of the span", one.svg)
            self.assertIn("-0.1 kPa", one.words)
            for x, y in one.line():
                if x < 49:
                    self.assertAlmostEqual(y, 3 * (-0.004 * x + 0.00008 * x * x), delta=0.004)

    def test_a_curves_figures_have_four_digits(self):
        """-0.2876543 + 0.009 x - 0.00006 x^2 at 100 is 0.0123457 % of 300 kPa, 0.0370371 kPa."""
        sheet, _ = self.gives(0, "export", sample("exhaust-pressure.kind1"))
        self.gives(0, "make", self.file("sheet", sheet.replace("term = 0, -0.3\n", "term = 0, -0.2876543\n")), "-o", self.path("chip"))
        for one in self.drawings(self.page(0, self.path("chip"))):
            self.assertTrue("to +0.03704 kPa at 100 % of the span" in one.svg, one.words)

    def test_forty_points_have_large_dots(self):
        for count, size in ((1, "3.5"), (40, "3.5"), (41, "1.5")):
            panel = panels.Panel("", [0, 1], str)
            panel.dots([(n / 50, 1) for n in range(count)])
            self.assertEqual(re.findall(' r="([^"]*)"', panel.svg()), [size] * count)

    def test_the_room_of_a_picture(self):
        """The frame leaves room for the labels: 112 or 100 on the left, 14 on the right and above, 52 below."""
        for form, frame in (
            (panels.WIDE, ("0 0 720 220", "112", "14.0", "594", "154.0")),
            (panels.NARROW, ("0 0 340 240", "100", "14.0", "226", "174.0")),
        ):
            panel = panels.Panel("", [0, 1], str, form)
            panel.axes([(0, "a"), (0.5, "b"), (1, "c")])
            found = re.search('viewBox="([^"]*)".*class="frame" x="([^"]*)" y="([^"]*)" width="([^"]*)" height="([^"]*)"', panel.svg())
            self.assertEqual(found.groups(), frame)
            left, right = float(frame[1]), float(frame[1]) + float(frame[3])
            floor = float(frame[2]) + float(frame[4])
            for kind, x1, x2, y1, y2 in re.findall('class="(zero|grid)" x1="([^"]*)" x2="([^"]*)" y1="([^"]*)" y2="([^"]*)"', panel.svg()):
                across, up = (float(x1), float(x2)), (float(y1), float(y2))
                self.assertTrue(across == (left, right) and up[0] == up[1] or up == (14, floor) and across[0] == across[1], (kind, across, up))

    def test_where_figures_are_drawn(self):
        """From edge to edge of the frame, with 8 % of the figures' range above and below them; nought is always among them."""
        for figures, top, bottom in (([0, 1], 1.08, -0.08), ([-2, -1], 0.16, -2.16), ([3], 3.24, -0.24), ([-1, 3], 3.32, -1.32), ([0, 0], 1, -1)):
            for form, floor, left, right in ((panels.WIDE, 168, 112, 706), (panels.NARROW, 188, 100, 326)):
                panel = panels.Panel("", figures, str, form)
                for found, wanted in ((panel.y(top), 14), (panel.y(bottom), floor), (panel.x(0), left), (panel.x(1), right)):
                    self.assertAlmostEqual(found, wanted, places=6)
                self.assertAlmostEqual(panel.y((top + bottom) / 2), (14 + floor) / 2, places=6)

    def test_round_figures(self):
        """Four to nine of them, a 1, 2 or 5 apart."""
        for low, high, wanted in (
            (0, 8, [0, 1, 2, 3, 4, 5, 6, 7, 8]),
            (0, 4, [0, 1, 2, 3, 4]),
            (0, 3.9, [0, 0.5, 1, 1.5, 2, 2.5, 3, 3.5]),
            (0, 9, [0, 2, 4, 6, 8]),
            (-0.1, 4.1, [0, 1, 2, 3, 4]),
            (-1, 16, [0, 5, 10, 15]),
            (-300, 500, [-300, -200, -100, 0, 100, 200, 300, 400, 500]),
            (5, 5, [5]),
        ):
            found = panels.ticks(low, high)
            self.assertEqual([round(figure, 6) for figure in found], wanted)

    def test_ohms_have_no_physical_figures_below(self):
        text = self.page(0, sample("temperature.kind1"))
        for one in self.drawings(text):
            self.assertFalse(any("\u00b0C" in label for label in one.words))
            self.assertEqual(len(one.dots()), 5)
        caption = "Deviation at each stored point, in per cent of the span. A reading is refused: 4 at bit 64"
        self.assertTrue(caption in text.replace("\u00a0", " "))

    def test_the_certificate_as_drawn(self):
        """A chip that is 0.004 % below at 40 %, by a certificate that has 0.046 % there: the band is 517 billionths."""
        cert = self.file("cert", PERCENT.replace("0.042", "0.046"))
        text = self.page(1, sample("load-cell.kind1"), cert)
        self.assertLess(text.index("Certificate: DIFFERS"), text.index("ACCEPTED: "))
        for one in self.drawings(text)[2:]:
            self.near(one.dots(), [(0, 0), (20, 0), (40, -0.004), (60, 0), (80, 0), (100, 0)], 0.00005)
            self.near([(0, figure) for figure in one.band()], [(0, 0.0000517), (0, -0.0000517)], 0.00002)
            for x, y in one.line():
                wanted = -0.004 * max(0, 1 - abs(x - 40) / 20)
                self.assertAlmostEqual(y, wanted, delta=0.00008)
            self.assertIn("least -0.004 % at 40 % of the span", one.svg)
            self.assertIn("the proved band is 0.000052 % of the span, 0.0026 N, either way, and the line leaves it", one.svg)
        far = re.findall(r'<tr class="far">(.*?)</tr>', text)
        self.assertEqual(len(far), 2)
        self.assertIn('<td data-name="difference">-0.2 N</td><td data-name="of the span">-0.0040004 % !</td>', far[0])
        for one in self.drawings(self.page(0, sample("load-cell.kind1"), self.file("cert", PERCENT)))[2:]:
            self.near([(0, figure) for figure in one.band()], [(0, 0.0000517), (0, -0.0000517)], 0.0000004)
            self.assertIn("the line stays in it", one.svg)

    def test_one_figure_and_one_unit_for_one_thing(self):
        """The band is what the lines below it say a chip built from these points could be off by, rounded alike."""
        text = self.page(0, sample("load-cell.kind1"), self.file("cert", PERCENT)).replace("\u00a0", " ")
        self.assertFalse("ppm" in text)
        for part in (
            "Grey band between broken lines: what a chip built from these points could be off by, 0.000052 % of the span, 0.0026 N, either way.",
            "<p>A chip built from these points could be off by 0.000052 % of the span, 0.0026 N</p>",
        ):
            self.assertTrue(part in text, part)
        self.assertFalse("0.0000517" in text)

    def test_a_refused_page_has_what_why_says(self):
        """A line a paragraph, as deep as `why` has it."""
        text = self.page(1, sample("damaged.kind1")).replace("\u00a0", " ")
        for part in (
            '<p class="in1">page 2: does not add up</p>',
            '<p class="in2">calibration date: <span class="one">2025-11-03</span></p>',
            '<p class="in0">likely: one page is damaged',
            '<p class="in0">to do: read the chip again',
        ):
            self.assertTrue(part in text, part)

    def test_whose_it_is(self):
        cert = self.file("cert", PERCENT)
        text = self.page(0, sample("load-cell.kind1"), cert, "--customer", "A & B", "--job", "RR-118")
        for part in ("Customer: A &amp; B</p>", "Job: RR-118</p>", "Date and signature: </p>"):
            self.assertTrue(part in text, part)
        for what, path in (("the chip's image", sample("load-cell.kind1")), ("the certificate", cert)):
            with open(path, "rb") as file:
                data = file.read()
            digest = hashlib.sha256(data).hexdigest()
            self.assertTrue(f"SHA-256 of {what}, {path} ({len(data)}\u00a0bytes): {digest}</p>" in text, what)
        self.assertTrue("<title>Maker 1451, model 77, serial 555</title>" in text)
        self.assertTrue("<title>A chip that is refused, serial 555</title>" in self.page(1, sample("damaged.kind1")))
        self.assertTrue("<title>A chip that is refused</title>" in self.page(1, sample("blank.kind1")))

    def test_screens(self):
        """What a phone, a dark screen and paper need."""
        text = self.page(1, sample("load-cell.kind1"), self.file("cert", PERCENT.replace("0.042", "0.046")))
        for part in ("prefers-color-scheme: dark", "max-width: 40em", "@media print", "svg.narrow { display: none; }"):
            self.assertTrue(part in text, part)

    def test_random_images(self):
        for image in support.built_images(40, 9):
            self.page(0, self.file("random", image.data))

    def test_letters_that_mean_something_in_a_page(self):
        sheet, _ = self.gives(0, "export", sample("load-cell.kind1"))
        self.file("sheet", sheet.replace("rolling road 2, left drum", "<b>&amp;</b><script>"))
        self.gives(0, "make", self.path("sheet"), "-o", self.path("chip"))
        self.assertIn("&lt;b&gt;&amp;amp;&lt;/b&gt;&lt;script&gt;", self.page(0, self.path("chip")))

    def test_files(self):
        self.gives(3, "report", sample("load-cell.kind1"), "-o", self.file("there", "precious"), err="--force")
        self.assertEqual(self.bytes("there"), b"precious")
        self.gives(3, "report", sample("load-cell.kind1"), self.path("nope"), "-o", self.path("page.html"), err="cannot read")
        self.gives(3, "report", self.path("nope"), "-o", self.path("page.html"), err="cannot read")
        self.gives(
            2, "report", sample("load-cell.kind1"), self.file("cert", "a,b\n"), "-o", self.path("page.html"), err="no columns"
        )
        self.assertFalse(os.path.exists(self.path("page.html")))
        self.gives(2, "report", sample("load-cell.kind1"), err="-o")


def kilopascals(figure):
    return "0 kPa" if round(figure, 4) == 0 else f"{figure:+.4g} kPa"


if __name__ == "__main__":
    support.unittest.main()
