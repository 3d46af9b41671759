"""As a program: wrong uses, files that cannot be read, outputs that cannot be written, and no traceback."""
import os
import subprocess

import support
from dartelm import library
from support import ACCEPTED, run_program, sample

COMMANDS = ("show", "why", "set", "read", "tray", "certificate", "export", "make", "report", "distance", "compare")


class Use(support.Case):
    def ends(self, status, *words, **how):
        found, out, err = run_program(*words, **how)
        self.assertEqual(found, status, f"{words}: {out}{err}")
        self.assertNotIn("Traceback", out + err)
        return out, err

    def test_help(self):
        out, _ = self.ends(0, "--help")
        for command in COMMANDS:
            self.assertIn(command, out)
            self.assertIn("Ends with 0 if accepted", " ".join(self.gives(0, command, "--help")[0].split()))
        self.assertIn("Dartelm", self.ends(0, "--version")[0])

    def test_wrong_use(self):
        self.assertIn("usage: dartelm", self.ends(2)[1])
        for words in (
            ("shov", sample("load-cell.kind1")),
            ("show",),
            ("show", "--colour", sample("load-cell.kind1")),
            ("make", "sheet"),
            ("report", "f"),
            ("set", "f"),
            ("set", "f", "21=1", "-o"),
            ("export",),
            ("why",),
            ("tray",),
            ("certificate", "f"),
            ("make", "s", "-o", "n", "--kind", "3"),
            ("-o",),
            ("export", sample("load-cell.kind1"), "-o"),
        ):
            out, _ = self.gives(2, *words, err="usage: dartelm")
            self.assertEqual(out, "")

    def test_options_stand_anywhere(self):
        for words in (
            ("show", "--today", "2026-03-01", sample("load-cell.kind1"), "--curve", sample("torque.kind1")),
            ("read", "--dash", "small", sample("load-cell.kind1"), "1mV/V", "--table", "3", "-0.1mV/V"),
            ("set", "-o", self.path("new"), sample("load-cell.kind1"), "--level", "maker", "13=351ohm", "--force", "serial=3"),
            ("report", sample("load-cell.kind1"), "-o", self.path("page"), sample("load-cell.csv")),
        ):
            self.gives(0, *words)

    def test_files_that_cannot_be_read(self):
        new = self.path("new")
        for words in (
            ("show", "nope"),
            ("why", "nope"),
            ("set", "nope", "21=1", "-o", new),
            ("read", "nope", "1mV/V"),
            ("export", "nope"),
            ("make", "nope", "-o", new),
            ("report", "nope", "-o", new),
            ("certificate", "nope", "nope"),
            ("show", support.SAMPLES),
            ("certificate", sample("load-cell.kind1"), "nope"),
            ("show", ""),
            ("show", sample("load-cell.kind1"), "nope"),
        ):
            out, err = self.gives(3, *words)
            self.assertRegex(err, r"^dartelm: cannot read [^\n]*\n$")
            self.assertEqual(out, "")
        self.assertEqual(os.listdir(self.room), [])

    def test_standard_input(self):
        out, _ = self.ends(0, "show", "-", data=support.sample_bytes("load-cell.kind1"))
        self.assertIn("-: accepted", out)
        self.ends(1, "why", "-", data=b"")

    def test_an_answer_that_cannot_be_written(self):
        buffered = {name: value for name, value in os.environ.items() if name != "PYTHONUNBUFFERED"}
        for env in (buffered, {**buffered, "PYTHONUNBUFFERED": "1"}):
            with open("/dev/full", "wb") as full:
                _, err = self.ends(3, "show", sample("load-cell.kind1"), stdout=full, env=env)
            self.assertEqual(err, "dartelm: the answer cannot be written: No space left on device\n")
        done = subprocess.run(
            f"'{support.PROGRAM}' show --points '{sample('many-points.kind2')}' | head -c 1",
            shell=True,
            capture_output=True,
            check=False,
        )
        self.assertNotIn(b"Traceback", done.stderr)
        done = subprocess.run(
            f"'{support.PROGRAM}' show '{sample('load-cell.kind1')}' >&-", shell=True, capture_output=True, check=False
        )
        self.assertNotIn(b"Traceback", done.stderr)
        done = subprocess.run(f"'{support.PROGRAM}' show - <&-", shell=True, capture_output=True, check=False)
        self.assertNotIn(b"Traceback", done.stderr)
        self.assertEqual(done.returncode, 3)

    def test_other_letters(self):
        env = {**os.environ, "LC_ALL": "C", "PYTHONIOENCODING": "ascii"}
        out, _ = self.ends(0, "show", sample("temperature.kind1"), env=env)
        self.assertIn("250 ", out)
        odd = os.path.join(os.fsencode(self.room), b"\xff\xfe.kind1")
        with open(odd, "wb") as file:
            file.write(support.sample_bytes("load-cell.kind1"))
        done = subprocess.run([os.fsencode(support.PROGRAM), b"show", odd], capture_output=True, check=False)
        self.assertEqual((done.returncode, b"Traceback" in done.stderr), (0, False))

    def test_through_a_link_from_another_folder(self):
        os.symlink(support.PROGRAM, self.path("link"))
        found, out, _ = run_program("show", sample("load-cell.kind1"), program=self.path("link"))
        self.assertEqual((found, ": accepted" in out), (0, True))

    def test_no_library(self):
        program = support.other_home(self.path("there"))
        for words in (("show", sample("load-cell.kind1")), ("tray", sample("load-cell.kind1")), ("--version",)):
            self.assertRegex(self.ends(3, *words, program=program)[1], r"^dartelm: the library cannot be compiled: [^\n]*dartelm\.c'\n$")
            env = {**os.environ, "DARTELM_LIBRARY": self.path("none.so")}
            self.assertIn("none.so", self.ends(3, "show", sample("load-cell.kind1"), env=env)[1])

    def test_the_package_alone(self):
        """No program, page or header is there to be run or read: the package and a library are enough."""
        program = support.other_home(self.path("there"))
        env = {**os.environ, "DARTELM_LIBRARY": library.chosen()[0]}
        for status, words in (
            (0, ("show", sample("load-cell.kind1"), "--curve")),
            (1, ("why", sample("damaged.kind1"))),
            (1, ("tray", support.SAMPLES)),
        ):
            self.assertEqual(self.ends(status, *words, program=program, env=env), self.ends(status, *words))

    def test_the_library_is_asked_for_only_where_it_is_needed(self):
        """Its first use may compile it."""
        program = support.other_home(self.path("there"))
        self.ends(0, "--help", program=program)
        self.ends(2, "show", program=program)
        self.ends(3, "show", sample("load-cell.kind1"), program=program)

    def test_as_a_program(self):
        self.ends(0, "show", *map(sample, ACCEPTED), "--curve")
        self.ends(1, "show", sample("damaged.kind1"))
        self.ends(3, "show", "nope")


if __name__ == "__main__":
    support.unittest.main()
