"""Whatever is handed in, a command ends with 0 to 3 and says why on a line."""
import support
from support import ACCEPTED, sample, sample_bytes

PIECES = (
    "%",
    "N",
    "-",
    "1e",
    "e9",
    "=",
    ",",
    ";",
    '"',
    "\\x",
    "missing",
    "\n",
    "\t",
    "0",
    "9" * 20,
    "\u00b5",
    "(4)",
    "point",
    "term = 1, 2\n",
    "segment = 3 %\n",
    "\u2028",
    "\x00",
    "NaN",
    "inf",
    "1e50",
    "-0",
    "\u0663",
    "\u00b2",
    "kind = 2\n",
    "domain = physical\n",
    "1e-7",
    "0.1",
)
CERTIFICATES = (
    "point (%),deviation (%)\n0,0\n20,0.015\n40,0.042\n100,-0.021\n",
    "point [N];deviation [N]\n0;0\n1000;0,75\n5000;-1,05\n",
)
CHANGES = (
    "impedance=350.5ohm",
    "date=2026-01-02",
    "11=2mV/V",
    "measurand=N",
    "max phys=5kN",
    "response=1us",
    "initials=A.B",
    "bridge type=full",
)


class Noise(support.Case):
    def setUp(self):
        super().setUp()
        self.chance = support.random.Random(17)

    def noisy(self, text):
        """A text with a few pieces put in, replaced or left out, often where digits are."""
        letters = list(text)
        for _ in range(self.chance.choice((1, 1, 3))):
            digits = [at for at, letter in enumerate(letters) if letter.isdigit()] or [0]
            at = self.chance.choice((self.chance.choice(digits), self.chance.randrange(len(letters) + 1)))
            letters[at : at + self.chance.choice((0, 1, 1, 4))] = self.chance.choice(PIECES + ("",) * 8)
        return "".join(letters)

    def ends(self, *words):
        status, _, wrong = self.run_here(*words)
        self.assertIn(status, (0, 1, 2, 3))
        self.assertNotIn("Traceback", wrong)
        return status

    def test_sheets_certificates_and_values(self):
        texts = [self.run_here("export", sample(name))[1] for name in ACCEPTED]
        for _ in range(70):
            self.ends("make", self.file("sheet", self.noisy(self.chance.choice(texts))), "-o", self.path("new"), "--force")
            self.ends(
                "certificate",
                sample(self.chance.choice(ACCEPTED)),
                self.file("cert", self.noisy(self.chance.choice(CERTIFICATES))),
            )
            self.ends(
                "set",
                sample(self.chance.choice(ACCEPTED)),
                self.noisy(self.chance.choice(CHANGES)).replace("\x00", ""),
                "--level",
                "maker",
                "-o",
                self.path("new"),
                "--force",
            )
            self.ends("read", sample("load-cell.kind1"), self.noisy("1.0mV/V"))

    def test_images(self):
        for _ in range(40):
            data = bytearray(sample_bytes(self.chance.choice(ACCEPTED)))
            for _ in range(self.chance.choice((1, 3, 30))):
                data[self.chance.randrange(len(data))] = self.chance.choice((0, 255, self.chance.randrange(256)))
            path = self.file("image", support.sealed(data))
            statuses = [
                self.ends(*words)
                for words in (
                    ("why", path),
                    ("show", path, "--curve", "--points"),
                    ("export", path),
                    ("report", path, "-o", self.path("page"), "--force"),
                )
            ]
            self.assertEqual(len(set(statuses)), 1)
            self.ends("read", path, "--table", "5")


if __name__ == "__main__":
    support.unittest.main()
