"""release: one archive from which everything runs without a prover."""
import filecmp
import hashlib
import os
import re
import shutil
import subprocess
import tarfile
import tempfile

import support
from support import ACCEPTED, run_program

RELEASE = os.path.join(support.HOME, "bin", "release")


def release(archive, **more):
    return subprocess.run([RELEASE, archive], capture_output=True, text=True, check=False, **more)


class Release(support.Case):
    @classmethod
    def setUpClass(cls):
        cls.once = tempfile.mkdtemp()
        cls.addClassCleanup(shutil.rmtree, cls.once)
        cls.archive = os.path.join(cls.once, "release.tar.gz")
        cls.done = release(cls.archive)
        if cls.done.returncode == 0:
            with tarfile.open(cls.archive) as tar:
                tar.extractall(os.path.join(cls.once, "there"))

    def setUp(self):
        super().setUp()
        self.assertEqual((self.done.returncode, self.done.stdout), (0, self.archive + "\n"), self.done.stderr)
        (name,) = os.listdir(os.path.join(self.once, "there"))
        self.there = os.path.join(self.once, "there", name)

    def test_it_runs_from_the_archive(self):
        self.assertEqual(sorted(os.listdir(self.once)), ["release.tar.gz", "there"])
        again = release(self.archive)
        self.assertEqual((again.returncode, again.stdout), (3, ""))
        there = self.there
        env = {**os.environ, "PATH": self.bare()}
        program = os.path.join(there, "bin", "dartelm")
        samples = [os.path.join(there, "samples", name) for name in ACCEPTED]
        for words in (
            ("show", *samples),
            ("tray", *samples),
            ("certificate", os.path.join(there, "samples", "load-cell.kind1"), os.path.join(there, "samples", "load-cell.csv")),
        ):
            found, out, err = run_program(*words, program=program, env=env)
            self.assertEqual((found, err), (0, ""), out)
        with open(os.path.join(there, "VERSION"), encoding="ascii") as file:
            self.assertIn(f"({file.read().strip()})", run_program("--version", program=program, env=env)[1])
        self.assertIn(
            "does not add up", run_program("why", os.path.join(there, "samples", "damaged.kind1"), program=program, env=env)[1]
        )
        python = {**env, "PYTHONPATH": os.path.join(there, "python")}
        words = ["python3", "-B", "-c", "import dartelm; print(dartelm.text(18, 7306))"]
        done = subprocess.run(words, capture_output=True, text=True, check=False, env=python)
        self.assertEqual(done.stdout, "2018-01-02\n", done.stderr)

    def test_two_of_one_commit_are_the_same_bytes(self):
        done = release(self.path("second.tar.gz"), cwd="/", umask=0o077)
        self.assertEqual(done.returncode, 0, done.stderr)
        self.assertTrue(filecmp.cmp(self.archive, self.path("second.tar.gz"), shallow=False))

    def test_checksums(self):
        there = self.path("there")
        with tarfile.open(self.archive) as tar:
            tar.extractall(there)
        (name,) = os.listdir(there)
        there = os.path.join(there, name)
        listed = {}
        with open(os.path.join(there, "SHA256SUMS"), encoding="ascii") as file:
            for line in file:
                found, name = line.rstrip("\n").split("  ")
                listed[name] = found
        files = {}
        for folder, _, names in os.walk(there):
            for name in names:
                path = os.path.join(folder, name)
                with open(path, "rb") as file:
                    files[os.path.relpath(path, there)] = hashlib.sha256(file.read()).hexdigest()
        del files["SHA256SUMS"]
        self.assertEqual(listed, files)

    def test_its_readme(self):
        """It names only what is there, and what it says to run runs."""
        there = self.there
        with open(os.path.join(there, "README.md"), encoding="utf-8") as file:
            text = file.read()
        named = set(re.findall(r"[\w.@-]+(?:/[\w.@-]+)+", text)) | set(re.findall(r"`([\w.-]+\.(?:md|txt|h|c)|VERSION|SHA256SUMS)`", text))
        missing = [name for name in named if not name.startswith("./") and not os.path.exists(os.path.join(there, name))]
        self.assertEqual(missing, [])
        self.assertGreater(len(named), 20)
        commands = re.findall(r"^    (.*)$", text, re.M)
        self.assertIn("pip install .", commands)
        for command in commands:
            tool = next(word for word in command.split(" ") if "=" not in word)
            if tool == "pip" or not (shutil.which(tool) or os.path.exists(os.path.join(there, tool))):
                continue
            done = subprocess.run(["bash", "-c", command], cwd=there, capture_output=True, text=True, check=False)
            self.assertEqual(done.returncode, 0, command + done.stdout + done.stderr)

    def bare(self):
        """A path with all but the prover and compilers."""
        os.mkdir(self.path("path"))
        for folder in os.environ["PATH"].split(":"):
            for name in os.listdir(folder) if os.path.isdir(folder) else ():
                if name not in ("rt", "cargo", "cc", "gcc", "clang") and not os.path.lexists(self.path("path/" + name)):
                    os.symlink(os.path.join(folder, name), self.path("path/" + name))
        return self.path("path")


if __name__ == "__main__":
    support.unittest.main()
