"""tray: a line a chip, and the tray program's total."""
import csv
import io
import json
import os
import shutil
import subprocess

import support
from support import ACCEPTED, sample

BITS = {
    "brake-pressure.kind1": 589,
    "exhaust-pressure.kind1": 709,
    "load-cell.kind1": 716,
    "many-points.kind2": 3967,
    "oil-pressure.kind0": 294,
    "temperature.kind1": 679,
    "torque.kind1": 574,
}
CHIPS = len(ACCEPTED)


def images_in(tray):
    """The images of a tray, as the tray program reads them (docs/TRAY.md): one of another kind or cut short is the last."""
    found = []
    while tray and len(found) < 1000:
        size = support.images.BYTES.get(tray[0], 0)
        found.append(tray[1 : size + 1])
        tray = tray[size + 1 :] if size else b""
    return found


class Tray(support.Case):
    def test_the_tray_programs_report(self):
        """Every image of the stored trays, and their total."""
        folder = os.path.join(support.SAMPLES, "trays")
        trays = sorted(name for name in os.listdir(folder) if name.endswith(".tray") and name != "empty.tray")
        for name in trays:
            with open(os.path.join(folder, name), "rb") as file:
                images = images_in(file.read())
            with open(os.path.join(folder, name), "rb") as file:
                words = [os.path.join(support.HOME, "bin", "tray")]
                report = subprocess.run(words, stdin=file, capture_output=True, text=True, check=False).stdout.splitlines()
            paths = [self.file(f"{number}.bin", data) for number, data in enumerate(images, 1)]
            found = json.loads(self.gives(1, "tray", "--json", *paths)[0])
            lines = [
                f"{number} {chip['bits'] if chip['accepted'] else -chip['refused']}" for number, chip in enumerate(found["chips"], 1)
            ]
            self.assertEqual([*lines, f"total {found['total_bits']}"], report, name)
        self.assertEqual(len(trays), 4)

    def test_files(self):
        out, _ = self.gives(0, "tray", *map(sample, ACCEPTED))
        for name, bits in BITS.items():
            self.assertRegex(out, rf"{name} +{bits} bits  model [0-9]+ [A-Z][0-9]+  serial [0-9]+  location ")
        self.assertIn(f"\n{CHIPS} chips: {CHIPS} accepted, 0 refused; total {self.total()} bits", out)

    def total(self):
        """What the tray program says of the samples by itself."""
        words = [os.path.join(support.HOME, "bin", "tray"), *map(sample, ACCEPTED)]
        return subprocess.run(words, capture_output=True, text=True, check=True).stdout.split()[-1]

    def test_a_folder(self):
        out, err = self.gives(1, "tray", support.SAMPLES)
        self.assertIn("README.md", err)
        ending = f"{CHIPS + 2} chips: {CHIPS} accepted, 2 refused; total {self.total()} bits"
        for part in (ending, "refused: 17: ", "refused: 2: ", "serial 555"):
            self.assertIn(part, out)

    def test_csv(self):
        out, err = self.gives(1, "tray", support.SAMPLES, "--csv")
        rows = list(csv.DictReader(io.StringIO(out)))
        bits = {os.path.basename(row["file"]): row["bits"] for row in rows if row["bits"]}
        self.assertEqual(len(bits), CHIPS)
        self.assertEqual({name: bits[name] for name in BITS}, {name: str(count) for name, count in BITS.items()})
        self.assertEqual([row["refused"] for row in rows if row["refused"]], ["17", "2"])
        self.assertIn(f"{CHIPS + 2} chips", err)

    def test_what_is_no_image(self):
        cut = self.file("cut.kind1", support.sample_bytes("load-cell.kind1")[:100])
        out, _ = self.gives(1, "tray", cut, sample("load-cell.kind1"), self.file("none", b""))
        self.assertIn("3 chips: 1 accepted, 2 refused; total 716 bits", out)
        self.assertEqual(out.count("refused: 1: "), 2)
        os.mkdir(self.path("empty"))
        self.gives(2, "tray", self.path("empty"), err="no image in")
        self.gives(2, "tray", err="FILE")

    def test_each_chip_in_words(self):
        """As samples/README.md and the sheets' own lines have them."""
        out, _ = self.gives(
            0,
            "tray",
            sample("load-cell.kind1"),
            sample("temperature.kind1"),
            sample("many-points.kind2"),
            "--today",
            "2026-11-03",
            out=(
                "716 bits model 77 C4 serial 555 location 12 calibrated 2025-11-03, due 2026-11-03 6 points\n",
                "679 bits model 100 B1 serial 30021 location 7 calibrated 2026-02-10, due 2027-02-10 5 points\n",
                "model 900 Z9 serial 1048577 location 7 calibrated missing 96 points\n",
                "3 chips: 3 accepted, 0 refused; total 5362 bits\n",
            ),
        )
        self.assertNotIn("look at", out)

    def chip(self, name, *changes, source="load-cell.kind1"):
        self.gives(0, "set", sample(source), *changes, "--level", "maker", "-o", self.path(name))
        return self.path(name)

    def test_what_is_worth_a_look(self):
        falling, _ = self.gives(0, "export", sample("load-cell.kind1"))
        falling = falling.replace("40.00032 %, +0.042 %", "40.00032 %, -20.042 %")
        self.gives(0, "make", self.file("falling.txt", falling), "-o", self.path("falling"))
        for path, part in (
            (self.chip("equal", "max elec=0mV/V"), "no reading is possible: minimum and maximum electrical value are both 0 mV/V"),
            (self.chip("reversed", "min elec=3mV/V"), "least above greatest electrical value: 3 mV/V is above 2 mV/V"),
            (self.chip("flat", "min phys=5000N"), "minimum and maximum physical value are both 5000 N: every reading shows it"),
            (self.chip("lost", "max phys=missing"), "no reading is possible: maximum physical value is missing"),
            (self.chip("come", "date=2026-11-04"), "the calibration date is still to come: 2026-11-04"),
            (self.chip("late", "date=2025-11-02"), "calibration is overdue since 2026-11-02"),
            (
                self.path("falling"),
                "the pointer drops back between calibration points 1 and 2: point plus deviation falls from 20.01516 % to 19.95832 %",
            ),
        ):
            said, _ = self.gives(0, "tray", path, "--today", "2026-11-03", out=f"    look at: {part}")
            self.assertTrue(said.endswith("; 1 to look at\n"), said)
            self.gives(1, "tray", path, "--strict", "--today", "2026-11-03")
            self.gives(0, "show", path, "--today", "2026-11-03", out=f"look at: {part}")
        self.gives(0, "tray", sample("load-cell.kind1"), "--strict", "--today", "2026-11-03")

    def test_the_same_serial_twice(self):
        twin, other = self.chip("twin", "location=3"), self.chip("other", "model=78")
        out, _ = self.gives(0, "tray", sample("load-cell.kind1"), twin, other, "--today", "2026-11-03", out="; 2 to look at\n")
        self.assertIn(f"look at: serial 555 is that of {twin} too\n", out)
        self.assertIn(f"look at: serial 555 is that of {sample('load-cell.kind1')} too\n", out)
        self.assertEqual(out.count("look at: serial"), 2)

    def test_certificates(self):
        os.mkdir(self.path("certs"))
        with open(sample("load-cell.csv"), encoding="utf-8") as file:
            text = file.read()
        self.file("certs/one.csv", text)
        self.file("certs/two.csv", text.replace("serial 555", "Serial no. 7").replace("40,0.042", "40,0.052"))
        self.file("certs/three.csv", text.replace("serial 555", "serial number: 8").replace("40,0.042", "40,0,042"))
        self.file("certs/README", "serial 555")
        cell = sample("load-cell.kind1")
        words = ("--certificates", self.path("certs"), "--today", "2026-11-03")
        out, _ = self.gives(0, "tray", cell, *words, out=("one.csv: AGREES: ", "1 agree with their certificate\n"))
        self.assertNotIn("look at", out)
        self.gives(1, "tray", self.chip("seven", "serial=7"), *words, out=("two.csv: DIFFERS: ", "-0.5 N", "1 differ\n"))
        self.gives(1, "tray", self.chip("eight", "serial=8"), *words, out=("three.csv: NO VERDICT: ", "3 cells under 2 heads"))
        self.gives(0, "tray", self.chip("nine", "serial=9"), *words, out="look at: serial 9: no certificate names it\n")
        self.gives(1, "tray", self.path("nine"), *words, "--strict")
        self.file("certs/again.csv", text)
        self.gives(1, "tray", cell, *words, out=("again.csv and ", "NO VERDICT: more than one certificate names it"))
        self.gives(3, "tray", cell, "--certificates", self.path("nowhere"), err="cannot read")

    def test_a_file_that_cannot_be_read_is_a_line(self):
        out, _ = self.gives(3, "tray", self.path("nope"), sample("damaged.kind1"), sample("load-cell.kind1"), "--csv")
        rows = list(csv.DictReader(io.StringIO(out)))
        self.assertEqual([row["bits"] for row in rows], ["", "", "716"])
        self.assertIn("cannot read", rows[0]["why"])
        self.assertEqual([rows[2][name] for name in ("model", "version", "serial", "location")], ["77", "C4", "555", "12"])
        self.assertEqual([rows[2][name] for name in ("date", "due", "points")], ["2025-11-03", "2026-11-03", "6"])
        out, _ = self.gives(3, "tray", sample("load-cell.kind1"), self.path("nope"))
        self.assertIn("2 chips: 1 accepted, 0 refused, 1 not read; total 716 bits", out)

    def test_many(self):
        os.mkdir(self.path("many"))
        for number in range(401):
            shutil.copy(sample("oil-pressure.kind0" if number % 2 else "blank.kind1"), self.path(f"many/{number:04}"))
        self.gives(
            1,
            "tray",
            self.path("many"),
            out=f"401 chips: 200 accepted, 201 refused; total {200 * 294} bits",
            err=("200 of 401 chips", "401 of 401 chips"),
        )

    def test_every_refusal_is_the_checks(self):
        found = {}
        for image in support.stored_images():
            refusal = support.images.refusal_of(image)
            found.setdefault(refusal.number if refusal else 0, image)
        for number, image in found.items():
            out, _ = self.gives(1 if number else 0, "tray", self.file("one", image.data))
            self.assertIn(f"refused: {number}: " if number else " bits  model ", out)


if __name__ == "__main__":
    support.unittest.main()
