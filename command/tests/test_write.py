"""write: a chip that is pulled behind any row holds the old sheet, the new one or none, and the same command finishes it."""
import os
import signal
import subprocess
import tempfile
from unittest import mock

import bus
import support
from dartelm.command import owserver, write
from dartelm.command.image import Image, refusal_of
from dartelm.command.trouble import Trouble
from support import run_program, sample, sample_bytes

ONE, TWO = "2D.0123456789AB", "23.00000000BEEF"


def unfinished(told, name=ONE):
    return f"dartelm: ow:{name}: unfinished: the chip is {told} now; the same command finishes it\n"


class Write(support.Case):
    def setUp(self):
        super().setUp()
        self.addCleanup(os.chdir, os.getcwd())
        os.chdir(self.room)
        bus.lock_apart(self)

    def bus(self, data, name=ONE, how="good"):
        found = bus.Bus({name: data}, how)
        self.addCleanup(found.close)
        self.words = ("--to", f"ow:{name}", "-s", found.place)
        return found

    def write(self, status, data, *words, **said):
        return self.gives(status, "write", self.file("new.kind", data), *self.words, *words, **said)

    def changed(self, *changes):
        self.gives(0, "set", sample("load-cell.kind1"), *changes, "--level", "maker", "-o", self.path("changed"), "--force")
        return self.bytes("changed")

    def test_written(self):
        there = self.bus(sample_bytes("load-cell.kind1"))
        new = self.changed("date=2026-11-16", "location=3")
        said, _ = self.write(0, new, out=("written, what was on the chip\n", "written and read back, accepted, "))
        self.assertEqual(bytes(there.chips[ONE]), new)
        self.assertEqual(self.bytes(f"{ONE}-old.kind1"), sample_bytes("load-cell.kind1"))
        self.assertEqual(said.count("  row "), len(there.rows))
        self.assertTrue(all(offset % 8 == 0 and len(row) == 8 for offset, row in there.rows))
        count = len(there.rows)
        self.write(0, new, out="holds it already\n")
        self.assertEqual(len(there.rows), count)

    def pairs(self):
        """Twenty pairs of an old and a new image, of both kinds."""
        cell, torque = sample_bytes("load-cell.kind1"), sample_bytes("torque.kind1")
        large = sample_bytes("many-points.kind2")
        self.gives(0, "set", sample("many-points.kind2"), "location=9", "serial=77", "--level", "maker", "-o", self.path("large"))
        yield from ((cell, torque), (torque, cell), (sample_bytes("blank.kind1"), cell), (sample_bytes("damaged.kind1"), cell))
        yield from ((bytes(128), cell), (large, self.bytes("large")), (b"\xff" * 512, large))
        yield from ((cell, self.changed("location=1")), (cell, self.changed("date=2026-11-16", "initials=A.B")))
        built = [image.data for image in support.built_images(80, 13) if image.kind == 1]
        yield from zip(built[:11], built[11:22])

    def test_pulled_behind_every_row(self):
        done = cuts = 0
        for old, new in self.pairs():
            name = ONE if len(new) == 128 else TWO
            there = self.bus(old, name)
            self.write(0, new, "--force", "--keep", self.path("old"))
            os.unlink(self.path("old"))
            rows = len(there.rows)
            for cut in range(rows) if rows < 12 else (0, 1, rows // 2, rows - 2, rows - 1):
                there.chips[name][:], there.rows, there.cut, there.pulled = old, [], cut, set()
                _, err = self.write(3, new, "--force", "--keep", self.path("old"))
                now = "as it was" if cut == 0 else "refused"
                then = "written" if cut == rows - 1 else "refused"
                told = now if now == then else f"{now} or {then}"
                self.assertTrue(err.startswith(unfinished(told, name)), err)
                self.assertIn("there is no such chip", err)
                held = bytes(there.chips[name])
                if held not in (old, new):
                    self.assertIsNotNone(refusal_of(Image(held)))
                there.cut, there.pulled = None, set()
                self.write(0, new, "--force", "--keep", self.path("old"))
                self.assertEqual(bytes(there.chips[name]), new)
                self.assertEqual(self.bytes("old"), old)
                os.unlink(self.path("old"))
                cuts += 1
            done += 1
        self.assertEqual(done, 20)
        self.assertGreater(cuts, 80)

    def test_another_senders_sheet(self):
        there = self.bus(sample_bytes("torque.kind1"))
        self.write(1, sample_bytes("load-cell.kind1"), err=("model number 55", "serial number 71002", "--force writes over it"))
        self.assertEqual((there.rows, os.listdir(self.room)), ([], ["new.kind"]))
        self.write(0, sample_bytes("load-cell.kind1"), "--force")
        self.bus(sample_bytes("blank.kind1"))
        self.write(0, sample_bytes("load-cell.kind1"), "--keep", "blank")

    def test_what_was_there_is_kept(self):
        there = self.bus(sample_bytes("load-cell.kind1"))
        new = self.changed("location=3")
        self.file(f"{ONE}-old.kind1", "another")
        self.write(3, new, err="--keep OLD has to name another file")
        self.assertEqual((there.rows, self.bytes(f"{ONE}-old.kind1")), ([], b"another"))
        self.write(0, new, "--keep", "mine", out="mine: written, what was on the chip\n")
        self.assertEqual((self.bytes("mine"), self.bytes(f"{ONE}-old.kind1")), (sample_bytes("load-cell.kind1"), b"another"))
        there.chips[ONE][5] ^= 1
        self.write(0, new, out=f"{ONE}-old.kind1 is there already, and stays\n")
        self.assertEqual(self.bytes(f"{ONE}-old.kind1"), b"another")

    def test_what_goes_wrong(self):
        new = self.changed("location=3", "serial=4")
        for how, part in (
            ("read-only", "it is read-only, or the server is"),
            ("deaf", "the chip does not take the row at 0; it may be protected\n"),
            ("protected", "the chip does not take the row at 0; it may be protected (the server answers: Invalid argument)\n"),
        ):
            there = self.bus(sample_bytes("load-cell.kind1"), how=how)
            _, err = self.write(3, new, "--force", err=part)
            self.assertIn("nothing was changed on the chip", err)
            self.assertEqual(there.rows, [])
        self.bus(sample_bytes("load-cell.kind1"), how="torn")
        _, err = self.write(3, new, "--force", err="what is read back is not the row that was written at 0; check the contact")
        self.assertIn("unfinished: the chip is as it was or refused now", err)
        self.bus(sample_bytes("many-points.kind2"), TWO)
        self.write(2, new, err="new.kind is of kind 1, and ow:23.00000000BEEF, a DS2433, of kind 2")
        self.write(1, sample_bytes("damaged.kind1"), err="refused: 2")
        self.gives(2, "write", sample("load-cell.kind1"), "--to", "chip", err="--to takes a chip like")
        self.gives(2, "write", self.path("new.kind"), err="--to")

    def test_goes_wrong_behind_the_third_row(self):
        """What is told of the server or the contact comes behind what is told of the chip, and the same command finishes it."""
        for how, part in (
            ("silent", "is silent\n"),
            ("closed", "closed the connection in the middle of an answer\n"),
            ("short", "127 bytes of 128 were read; check the contact\n"),
            ("differ", "two reads differ; check the contact\n"),
        ):
            there = self.bus(sample_bytes("torque.kind1"))

            def write_row(*given, there=there, how=how):
                there.how = how if len(there.rows) == 2 else there.how
                return bus.Bus.write(there, *given)

            there.write = write_row
            with mock.patch.object(owserver, "SILENCE", 0.3):
                _, err = self.write(3, sample_bytes("load-cell.kind1"), "--force", err=part)
            self.assertTrue(err.startswith(unfinished("refused")), err)
            there.how = "good"
            self.write(0, sample_bytes("load-cell.kind1"))
            self.assertEqual(bytes(there.chips[ONE]), sample_bytes("load-cell.kind1"))
            self.assertEqual(self.bytes(f"{ONE}-old.kind1"), sample_bytes("torque.kind1"))

    def test_two_writers(self):
        self.bus(sample_bytes("load-cell.kind1"))
        with write.Lock(ONE):
            self.write(3, self.changed("location=3"), err="another command writes this chip now")
        self.write(0, self.changed("location=3"))

    def test_a_lock_of_another_user(self):
        path = os.path.join(tempfile.gettempdir(), f"dartelm-{TWO}.lock")
        with write.Lock(TWO):
            os.chmod(path, 0o444)
        self.addCleanup(os.unlink, path)
        self.addCleanup(os.seteuid, os.geteuid())
        if os.geteuid() == 0:
            os.seteuid(65534)
        with write.Lock(TWO):
            with self.assertRaisesRegex(Trouble, "another command writes this chip now"):
                write.Lock(TWO).__enter__()

    def program(self, old, new):
        """A chip that holds the old image, and the words that write the new one as a program."""
        there = self.bus(old)
        return there, [support.PROGRAM, "write", self.file("new.kind", new), *self.words, "--force"]

    def stopped(self, there, words, at, number):
        """Both outputs and the status of a program that gets a signal, as a terminal sends it, while a row is on its way."""
        whole, begun = bus.Bus.write, []

        def write_row(*given):
            answer = whole(there, *given)
            if len(there.rows) == at:
                os.killpg(begun[0].pid, number)
            return answer

        there.write = write_row
        with subprocess.Popen(
            words,
            stdout=subprocess.PIPE,
            stderr=subprocess.PIPE,
            text=True,
            start_new_session=True,
        ) as process:
            begun.append(process)
            out, err = process.communicate(timeout=support.LONGEST)
        del there.write
        return process.returncode, out, err

    def test_interrupted_at_every_row(self):
        old, new = sample_bytes("load-cell.kind1"), self.changed("date=2026-11-16", "location=3")
        there, words = self.program(old, new)
        self.assertEqual(run_program(*words[1:])[0], 0)
        rows = len(there.rows)
        self.assertGreater(rows, 3)
        for at in range(1, rows + 1):
            for number in (signal.SIGINT, signal.SIGTERM):
                there.chips[ONE][:], there.rows = old, []
                status, out, err = self.stopped(there, words, at, number)
                self.assertEqual((status, out.count("  row ")), (128 + number, at - 1), err)
                told = "as it was or refused" if at == 1 else "refused or written" if at == rows else "refused"
                self.assertTrue(err.startswith(unfinished(told)), err)
                self.assertEqual(refusal_of(Image(bytes(there.chips[ONE]))) is None, at == rows)
                status, out, err = run_program(*words[1:])
                self.assertEqual((status, bytes(there.chips[ONE]), err), (0, new, ""), out)
                self.assertEqual(self.bytes(f"{ONE}-old.kind1"), old)

    def test_a_reader_that_has_seen_enough(self):
        """What cannot be said leaves no chip unfinished."""
        old, new = sample_bytes("torque.kind1"), sample_bytes("load-cell.kind1")
        there, words = self.program(old, new)
        with subprocess.Popen(words, stdout=subprocess.PIPE, stderr=subprocess.PIPE, text=True) as process:
            process.stdout.readline()
            process.stdout.close()
            err = process.stderr.read()
        self.assertEqual((process.returncode, err, bytes(there.chips[ONE])), (0, "", new))
        there.chips[ONE][:] = old
        with open("/dev/full", "wb") as full:
            status, _, err = run_program(*words[1:], "--keep", "other", stdout=full)
        self.assertEqual((status, bytes(there.chips[ONE]), self.bytes("other")), (3, new, old))
        self.assertEqual(err, "dartelm: the answer cannot be written: No space left on device\n")


if __name__ == "__main__":
    support.unittest.main()
