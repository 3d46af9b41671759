"""A file is written whole or not at all, and none is replaced unless it is asked for."""
import os
import subprocess
import sys
from unittest import mock

import support
from dartelm.command import files
from dartelm.command.trouble import Trouble
from support import sample

CELL = sample("load-cell.kind1")
KILLED = """
import os, signal, sys
sys.path.insert(0, {command!r})
sys.dont_write_bytecode = True
from dartelm.command import main
os.{call} = lambda *_, **__: os.kill(os.getpid(), signal.{signal})
sys.exit(main.main(sys.argv[1:]))
"""


class Write(support.Case):
    def both(self):
        """With files that have no name, and where there are none such."""
        yield mock.patch.object(files.os, "O_TMPFILE", files.os.O_TMPFILE)
        yield mock.patch.object(files.os, "O_TMPFILE", 1 << 30, create=True)

    def test_new_and_replaced(self):
        self.addCleanup(os.umask, os.umask(0o022))
        for number, way in enumerate(self.both()):
            with way:
                path = self.path(f"new{number}")
                files.write_new(path, b"one", False)
                self.assertRaises(Trouble, files.write_new, path, b"two", False)
                self.assertEqual(self.bytes(f"new{number}"), b"one")
                files.write_new(path, b"three", True)
                self.assertEqual(self.bytes(f"new{number}"), b"three")
                self.assertEqual(os.stat(path).st_mode & 0o777, 0o644)
                self.assertRaises(Trouble, files.write_new, self.path("no/folder"), b"", False)
                self.assertRaises(Trouble, files.write_new, self.room, b"", True)
        self.assertEqual(sorted(os.listdir(self.room)), ["new0", "new1"])

    def test_what_is_no_regular_file(self):
        os.mkfifo(self.path("pipe"))
        os.mkdir(self.path("folder"))
        os.symlink("pipe", self.path("to the pipe"))
        os.symlink("round", self.path("round"))
        os.symlink("nothing", self.path("to nothing"))
        for name in ("pipe", "folder", "to the pipe", "/dev/null", "/dev/full"):
            for force in ((), ("--force",)):
                self.gives(
                    3, "set", CELL, "location=1", "-o", self.path(name), *force, err=f"{name} is no regular file, and is not"
                )
            self.assertRaises(Trouble, files.write_new, self.path(name), b"", True)
        for name in ("round", "to nothing"):
            self.gives(3, "set", CELL, "location=1", "-o", self.path(name), "--force", err="cannot be followed")
        self.assertEqual(sorted(os.listdir(self.room)), ["folder", "pipe", "round", "to nothing", "to the pipe"])

    def test_a_link_is_followed_and_mode_and_owner_stay(self):
        there = self.file("there", "precious")
        os.symlink("there", self.path("link"))
        os.chmod(there, 0o640)
        if os.geteuid() == 0:
            os.chown(there, 1234, 4321)
        before = os.stat(there)
        self.gives(0, "set", CELL, "location=1", "-o", self.path("link"), "--force")
        after = os.stat(there)
        self.assertEqual(len(self.bytes("there")), 128)
        self.assertTrue(os.path.islink(self.path("link")))
        self.assertEqual((after.st_mode, after.st_uid, after.st_gid), (before.st_mode, before.st_uid, before.st_gid))

    def test_an_owner_that_cannot_be_kept(self):
        there = self.file("there", "precious")
        with mock.patch.object(files.os, "geteuid", return_value=os.stat(there).st_uid + 1):
            self.gives(3, "set", CELL, "location=1", "-o", there, "--force", err="another user's")
        with mock.patch.object(files.os, "fchown", side_effect=PermissionError(1, "Operation not permitted")):
            with mock.patch.object(files.os, "fstat", return_value=mock.Mock(st_uid=77, st_gid=77)):
                self.assertRaisesRegex(Trouble, "cannot be kept", files.write_new, there, b"new", True)
        self.assertEqual(self.bytes("there"), b"precious")
        self.assertEqual(os.listdir(self.room), ["there"])

    def test_an_output_that_is_an_input(self):
        chip = self.file("chip", support.sample_bytes("load-cell.kind1"))
        cert = self.file("cert", "point (%),deviation (%)\n0,0\n")
        sheet = self.file("sheet", self.gives(0, "export", chip)[0])
        os.symlink("chip", self.path("link"))
        os.link(chip, self.path("twin"))
        before = {name: self.bytes(name) for name in os.listdir(self.room)}
        for words in (
            ("report", chip, "-o", chip),
            ("report", chip, "-o", self.path("link")),
            ("report", chip, "-o", self.path("twin")),
            ("report", chip, cert, "-o", cert),
            ("export", chip, "-o", chip),
            ("make", sheet, "-o", sheet),
            ("why", chip, "-o", chip),
            ("report", chip, "-o", os.path.join(self.room, ".", "chip")),
        ):
            for force in ((), ("--force",)):
                self.gives(2, *words, *force, err="is the file that is read")
        self.gives(2, "set", chip, "location=1", "-o", chip, err="is the file that is read")
        self.assertEqual({name: self.bytes(name) for name in os.listdir(self.room)}, before)
        with open(chip, "rb") as file:
            done = subprocess.run(
                [support.PROGRAM, "report", "-", "-o", chip, "--force"], stdin=file, capture_output=True, check=False
            )
        self.assertEqual(done.returncode, 2)
        self.gives(0, "set", chip, "location=1", "-o", chip, "--force", out="measurement location ID 12 1 1\n")
        self.assertEqual(len(self.bytes("chip")), 128)

    def test_standard_output(self):
        def run(*words):
            done = subprocess.run([support.PROGRAM, *words, "-o", "-"], capture_output=True, check=True)
            return done.stdout, done.stderr.decode()

        image, said = run("set", CELL, "location=5")
        self.assertEqual(support.console("field", 1, image.hex(), 21), ["w5"])
        self.assertIn("measurement location ID 12 5 5\n", support.squeezed(said))
        self.assertIn("standard output: written, accepted", said)
        sheet = self.file("sheet", run("export", CELL)[0])
        self.assertEqual(run("make", sheet)[0], support.sample_bytes("load-cell.kind1"))
        self.assertEqual(run("why", CELL)[0], support.sample_bytes("load-cell.kind1"))
        self.assertTrue(run("report", CELL)[0].startswith(b"<!DOCTYPE html>"))
        self.assertEqual(os.listdir(self.room), ["sheet"])

    def test_a_disk_that_is_full(self):
        for way in self.both():
            with way, mock.patch.object(files.os, "fsync", side_effect=OSError(28, "No space left on device")):
                with self.assertRaises(Trouble) as caught:
                    files.write_new(self.path("new"), b"one", False)
                self.assertIn("No space left", str(caught.exception))
                self.assertEqual(caught.exception.status, 3)
                self.assertEqual(os.listdir(self.room), [])

    def test_killed_while_it_is_written(self):
        sheet = support.run_program("export", sample("load-cell.kind1"))[1]
        source = self.file("sheet", sheet)
        for call, name in (("fsync", "SIGKILL"), ("fsync", "SIGTERM"), ("link", "SIGKILL")):
            for words in (
                ("set", sample("load-cell.kind1"), "location=1", "-o", self.path("new")),
                ("make", source, "-o", self.path("new")),
            ):
                script = KILLED.format(command=os.path.join(support.HOME, "python"), call=call, signal=name)
                done = subprocess.run([sys.executable, "-c", script, *words], capture_output=True, check=False)
                self.assertNotEqual(done.returncode, 0)
                self.assertEqual(os.listdir(self.room), ["sheet"], (call, name, words[0]))

    def test_killed_while_it_replaces(self):
        there = self.file("there", "precious")
        words = ("set", sample("load-cell.kind1"), "location=1", "-o", there, "--force")
        for call in ("fsync", "link", "replace"):
            script = KILLED.format(command=os.path.join(support.HOME, "python"), call=call, signal="SIGKILL")
            done = subprocess.run([sys.executable, "-c", script, *words], capture_output=True, check=False)
            self.assertNotEqual(done.returncode, 0)
            self.assertEqual(self.bytes("there"), b"precious")
            for name in os.listdir(self.room):
                self.assertIn(os.path.getsize(self.path(name)), (8, 128))


if __name__ == "__main__":
    support.unittest.main()
