"""What the tests share: commands run in this process or as a program; samples; a folder of one's own."""
import atexit
import contextlib
import faulthandler
import io
import os
import random
import shutil
import signal
import subprocess
import sys
import tempfile
import unittest
from fractions import Fraction

HERE = os.path.dirname(os.path.realpath(__file__))
HOME = os.path.dirname(os.path.dirname(HERE))
sys.dont_write_bytecode = True
# A writer's lock is one for the machine: two runs of the tests do not wait for each other. Another user's lock is tried there too.
os.environ["TMPDIR"] = tempfile.tempdir = tempfile.mkdtemp(prefix="dartelm-test-")
os.chmod(tempfile.tempdir, 0o1777)
atexit.register(shutil.rmtree, tempfile.tempdir, True)
for folder in (os.path.join(HOME, "python"), HERE):
    if folder not in sys.path:
        sys.path.insert(0, folder)

from dartelm.command import image as images  # noqa: E402
from dartelm.command import main  # noqa: E402
from dartelm.command.singles import as_float  # noqa: E402
from dartelm.command.trouble import Refusal  # noqa: E402

SAMPLES = os.path.join(HOME, "samples")
REFUSED = ("blank.kind1", "damaged.kind1")
ACCEPTED = tuple(sorted(name for name in os.listdir(SAMPLES) if ".kind" in name and name not in REFUSED))
TODAY = ("--today", "2026-03-01")
PROGRAM = os.path.join(HOME, "bin", "dartelm")
# What a program may take, in seconds, until a test fails; and all tests, until they end and say where each thread is.
LONGEST, ALL = 120, 540
faulthandler.dump_traceback_later(ALL, exit=True)
# A shell that runs the tests in the background has them ignore an interrupt, and what they start would ignore it too.
signal.signal(signal.SIGINT, signal.default_int_handler)


def console(*words):
    """The words of the console's answer, which is another program over the same calls."""
    words = [os.path.join(HOME, "bin", "console"), *map(str, words)]
    return subprocess.run(words, capture_output=True, text=True, check=True).stdout.split()


def sample(name):
    return os.path.join(SAMPLES, name)


def sample_bytes(name):
    with open(sample(name), "rb") as file:
        return file.read()


class Case(unittest.TestCase):
    def setUp(self):
        self.room = tempfile.mkdtemp()
        self.addCleanup(shutil.rmtree, self.room)

    def path(self, name):
        return os.path.join(self.room, name)

    def file(self, name, data):
        path = self.path(name)
        with open(path, "wb") as file:
            file.write(data if isinstance(data, bytes) else data.encode("utf-8"))
        return path

    def bytes(self, name):
        with open(self.path(name), "rb") as file:
            return file.read()

    def run_here(self, *words):
        """Status, standard output and standard error of a command, in this process."""
        out, err = io.StringIO(), io.StringIO()
        with contextlib.redirect_stdout(out), contextlib.redirect_stderr(err):
            try:
                status = main.main([str(word) for word in words])
            except SystemExit as ended:
                status = ended.code
        self.assertNotIn("should not happen", err.getvalue())
        return status, out.getvalue(), err.getvalue()

    def gives(self, status, *words, out=None, err=None):
        """Runs a command, holds its status and parts of what it writes, and gives both outputs. Nothing is a traceback."""
        found, said, wrong = self.run_here(*words)
        self.assertEqual(found, status, f"{words}: {said}{wrong}")
        self.assertNotIn("Traceback", said + wrong)
        for part in [out] if isinstance(out, str) else out or []:
            self.assertTrue(part in said or part in squeezed(said), f"{part!r} is not in {said}{wrong}")
        for part in [err] if isinstance(err, str) else err or []:
            self.assertIn(part, wrong)
        return said, wrong


def squeezed(text):
    """With one blank between the cells of a table."""
    return "".join(" ".join(line.split()) + "\n" for line in text.splitlines())


def run_program(*words, program=PROGRAM, data=b"", env=None, stdout=subprocess.PIPE):
    done = subprocess.run([program, *map(str, words)], input=data, stdout=stdout, stderr=subprocess.PIPE, check=False, env=env)
    if b"should not happen" in done.stderr:
        raise AssertionError(done.stderr)
    return done.returncode, (done.stdout or b"").decode("utf-8", "replace"), done.stderr.decode("utf-8", "replace")


def stored_images():
    """The images of the console's stored run, each once."""
    found = {}
    with open(os.path.join(HOME, "crates", "console", "stdin"), encoding="ascii") as file:
        for line in file:
            words = line.rstrip("\n").split(" ")
            if (
                words[0] in ("check", "field", "reading", "pair", "char")
                and len(words) > 2
                and words[1] in "012"
                and words[2] != "-"
            ):
                data = bytes.fromhex(words[2])
                if len(data) == images.BYTES[int(words[1])]:
                    found[words[2]] = images.Image(data, int(words[1]))
    return list(found.values())


def built_images(count, seed):
    """Random accepted images: every template, precision and kind, values missing, points of both domains, curves, texts."""
    chance = random.Random(seed)
    found = []
    while len(found) < count:
        try:
            found.append(images.build(random_sheet(chance)))
        except Refusal:
            pass
    return found


def sealed(data):
    """An image's bytes with check bytes that are right."""
    data = bytearray(data)
    for page in range(8 if len(data) == 40 else 0, len(data), 32):
        data[page] = (data[page] - sum(data[0 if len(data) == 40 else page : page + 32])) % 256
    return bytes(data)


def other_home(path):
    """A home of its own with nothing but the package; what `dartelm` to run."""
    os.makedirs(os.path.join(path, "bin"))
    shutil.copytree(
        os.path.join(HOME, "python", "dartelm"), os.path.join(path, "python", "dartelm"), ignore=shutil.ignore_patterns("__pycache__")
    )
    shutil.copy2(os.path.join(HOME, "bin", "dartelm"), os.path.join(path, "bin", "dartelm"))
    return os.path.join(path, "bin", "dartelm")


def random_single(chance):
    if chance.random() < 0.5:
        return as_float(chance.choice((0, 0x80000000, 1, 0x007FFFFF, 0x7F7FFFFF, 0xFF7FFFFF, 0x3F800000)))
    return as_float(chance.randrange(0x7F800000) | chance.choice((0, 0x80000000)))


# Start, step and number of codes of an electrical end, by template and precision.
STEPS = {33: ((-(10**9), 10**6, 2047), (-6550000, 25, 524287)), 32: ((0, 10, 127), (0, 1000, 1023), (0, 1, 65535))}


def random_sheet(chance):
    sheet = images.Sheet()
    sheet.kind = chance.choice((0, 1, 1, 2, 2))
    sheet.template = chance.choice((33, 32))
    precision = chance.randrange(3 if sheet.template == 33 else 4)

    def maybe(value, share=0.2):
        return None if chance.random() < share else value

    def end():
        if precision == (2 if sheet.template == 33 else 3):
            return maybe(random_single(chance))
        start, step, codes = STEPS[sheet.template][precision]
        return maybe(start + step * chance.randrange(codes))

    values = [
        chance.randrange(17, 16382),
        chance.randrange(1 << 15),
        chance.randrange(1, 27),
        chance.randrange(64),
        chance.randrange(1 << 24),
        chance.randrange(46),
        maybe(random_single(chance)),
        maybe(random_single(chance)),
        precision,
        end(),
        end(),
    ]
    if sheet.template == 33:
        values += [
            chance.randrange(3),
            maybe(chance.randrange(10, 262153)),
            maybe(chance.randrange(100, 791180997)),
        ]
        values += [maybe(chance.randrange(1, 512)) for _ in range(3)]
    else:
        values += [chance.randrange(4), maybe(chance.randrange(100, 791180997))]
        values += [maybe(chance.randrange(10000, 1000000000)) for _ in range(2)]
    values += [
        maybe(chance.randrange(65535)),
        chance.randrange(1 << 15),
        chance.randrange(1 << 12),
        chance.randrange(1 << 11),
    ]
    sheet.values = dict(enumerate(values, 1))
    if chance.random() < 0.6:
        sheet.text = bytes(chance.randrange(1, 128) for _ in range(chance.randrange(12)))
    behind = chance.choice(("none", "points", "points", "curve"))
    if behind == "points":
        sheet.domain = chance.randrange(2)
        codes = sorted(chance.sample(range(65535), chance.choice((1, 2, 5, 20))))
        sheet.points = [(15300 * code, chance.randrange(-2000, 2000) * 1000) for code in codes]
    elif behind == "curve":
        for code in [0] + sorted(chance.sample(range(1, 8130), chance.randrange(5))):
            exponents = sorted(chance.sample(range(6), chance.randrange(1, 5)))
            sheet.segments.append((123000 * code, len(exponents)))
            sheet.terms += [(exponent, random_single(chance)) for exponent in exponents]
    return sheet
