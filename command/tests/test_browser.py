"""The report as a browser lays it out, at 360 and at 1,200 pixels and on paper; where there is no browser, that is said."""
import html
import json
import re
import shutil
import subprocess
import sys

import support
from support import sample

BROWSER = next(filter(None, map(shutil.which, ("chromium", "chromium-browser", "google-chrome"))), None)
SECONDS = 120
WORDS = ("--headless", "--no-sandbox", "--disable-gpu", "--disable-background-networking", "--host-resolver-rules=MAP * ~NOTFOUND")
WIDTHS = (360, 1200)
LONG = "Hagenbruch-Steinfurter_Motorenpruefstandsgesellschaft_mbH_und_Co._KG, Niederlassung Ost"
DIFFERS = "point (%),deviation (%)\n0,0\n20,0.015\n40,0.046\n60,0.038\n80,0.009\n100,-0.021\n"
# What a frame of a width shows: how wide the page is, what is in sight beyond it, which form of each picture, the size of its
# letters, where the differences stand, and the colours.
LOOKED = """
const found = {};
addEventListener("error", e => { (found.errors = found.errors || []).push(e.message); });
addEventListener("load", () => {
  for (const frame of document.querySelectorAll("iframe")) {
    const page = frame.contentDocument, root = page.documentElement, room = root.clientWidth;
    const box = one => one.getBoundingClientRect();
    const all = some => [...page.querySelectorAll(some)].filter(one => box(one).width > 0);
    const wide = all("body *").filter(one => box(one).right > room + 0.5 || box(one).left < -0.5);
    const text = all("svg text").map(one => 13 * box(one.ownerSVGElement).width / one.ownerSVGElement.viewBox.baseVal.width);
    const cells = all("tr.far td:nth-child(n + 6)");
    found[frame.id] = {
      width: root.scrollWidth, room: room, beyond: wide.map(one => one.tagName + " " + one.textContent.slice(0, 40)),
      forms: all("svg").map(one => one.getAttribute("class")), least: Math.min(...text),
      far: cells.map(one => [one.textContent, box(one).left, box(one).right]),
      ink: frame.contentWindow.getComputedStyle(page.body).color, paper: frame.contentWindow.getComputedStyle(page.body).backgroundColor,
      errors: frame.contentWindow.wrong || []
    };
  }
  document.body.innerHTML = "<pre id=said></pre>";
  document.getElementById("said").textContent = JSON.stringify(found);
});
"""
WATCH = "<script>window.wrong = []; onerror = e => { wrong.push(String(e)); };</script>"


class Browser(support.Case):
    def setUp(self):
        super().setUp()
        if BROWSER is None:
            print("\nNOT TRIED: no Chromium is here; the report was not looked at in a browser", file=sys.stderr)

    def pages(self, *only):
        """Reports of each sort, or of some, by name."""
        cert, other = sample("load-cell.csv"), self.file("cert", DIFFERS)
        whose = ("--customer", LONG, "--job", LONG.replace(" ", "/") * 2)
        for name, status, words in (
            ("agrees", 0, (sample("load-cell.kind1"), cert, "--customer", "A. Smith", "--job", "RR-118")),
            ("differs", 1, (sample("load-cell.kind1"), other, *whose)),
            ("many", 1, (sample("many-points.kind2"), cert)),
            ("torque", 1, (sample("torque.kind1"), cert)),
            ("curve", 0, (sample("exhaust-pressure.kind1"),)),
            ("resistance", 0, (sample("temperature.kind1"),)),
            ("kind0", 0, (sample("oil-pressure.kind0"),)),
            ("damaged", 1, (sample("damaged.kind1"),)),
            ("blank", 1, (sample("blank.kind1"),)),
        ):
            if not only or name in only:
                self.gives(status, "report", *words, "-o", self.path(name + ".html"))
                yield name, self.bytes(name + ".html").decode()

    def browser(self, *words):
        words = [BROWSER, *WORDS, "--user-data-dir=" + self.path("profile"), *words]
        return subprocess.run(words, stdout=subprocess.PIPE, stderr=subprocess.DEVNULL, check=True, timeout=SECONDS).stdout

    def looked_at(self, pages, *words):
        """What the browser says of each page in a frame of each width."""
        frames = "".join(
            f'<iframe id="{name} {width}" width="{width}" height="800" style="border: 0" srcdoc="'
            f'{html.escape(text.replace("<head>", "<head>" + WATCH))}"></iframe>'
            for name, text in pages.items()
            for width in WIDTHS
        )
        page = self.file("frames.html", f'<!DOCTYPE html><meta charset="utf-8"><script>{LOOKED}</script><body>{frames}</body>')
        said = self.browser("--window-size=1400,900", *words, "--virtual-time-budget=20000", "--dump-dom", "file://" + page).decode()
        return json.loads(html.unescape(re.search('<pre id="said">(.*?)</pre>', said, re.DOTALL).group(1)))

    def test_widths(self):
        pages = dict(self.pages())
        if BROWSER is None:
            return
        found = self.looked_at(pages)
        self.assertEqual(sorted(found), sorted(f"{name} {width}" for name in pages for width in WIDTHS))
        for name in found:
            self.assertEqual((found[name]["errors"], found[name]["beyond"]), ([], []), name)
            self.assertLessEqual(found[name]["width"], found[name]["room"], name)
            narrow = name.endswith(" 360")
            self.assertEqual(set(found[name]["forms"]) - {"narrow" if narrow else "wide"}, set(), name)
            if found[name]["forms"]:
                self.assertGreater(found[name]["least"], 11, name)
        for width in WIDTHS:
            far = found[f"differs {width}"]["far"]
            self.assertEqual([cell[0] for cell in far], ["-0.2 N", "-0.0040004 % !", "-0.2 N", "-0.0039999 % !"])
            self.assertTrue(all(0 <= left < right <= width for _, left, right in far), far)

    def test_dark(self):
        pages = dict(self.pages("differs", "damaged"))
        if BROWSER is None:
            return
        light = self.looked_at(pages, "--blink-settings=preferredColorScheme=1")
        dark = self.looked_at(pages, "--blink-settings=preferredColorScheme=0")
        for name in light:
            self.assertEqual((light[name]["ink"], light[name]["paper"]), ("rgb(0, 0, 0)", "rgb(255, 255, 255)"), name)
            self.assertEqual((dark[name]["ink"], dark[name]["paper"]), ("rgb(238, 238, 238)", "rgb(17, 17, 17)"), name)

    def test_paper(self):
        """A report with a certificate of six points is one sheet of A4."""
        pages = dict(self.pages("agrees", "many", "damaged"))
        for name, most in zip(pages, (1, 3, 1)) if BROWSER else ():
            self.browser("--no-pdf-header-footer", "--print-to-pdf=" + self.path("page.pdf"), "file://" + self.path(name + ".html"))
            found = self.bytes("page.pdf")
            self.assertIn(len(re.findall(rb"/Type\s*/Page\b", found)), range(1, most + 1), name)
            for width, height in re.findall(rb"/MediaBox\s*\[0 0 ([.\d]+) ([.\d]+)\]", found):
                self.assertAlmostEqual(float(width), 595.3, delta=1)
                self.assertAlmostEqual(float(height), 841.9, delta=1)


if __name__ == "__main__":
    support.unittest.main()
