"""chips, save, write and a chip in place of a file, on the real owserver."""
import os
import signal
import subprocess
import threading
import time

import bench
import support
from bench import LARGE, OLD, SMALL
from support import sample, sample_bytes

CELL, TORQUE = sample_bytes("load-cell.kind1"), sample_bytes("torque.kind1")
KEPT = f"{SMALL}-old.kind1"


class Read(bench.Case):
    def test_chips(self):
        self.serve(old=True)
        self.small.hold(CELL)
        said, _ = self.gives(3, "chips", *self.at)
        one, two, three = said.splitlines()
        self.assertEqual(one, f"{SMALL}  DS2431  kind 1  accepted, serial 555")
        self.assertTrue(two.startswith(f"{LARGE}  DS2433  kind 2  refused: 17 at place 0: "), two)
        self.assertTrue(three.startswith(f"{OLD}  DS2430A  kind 0  this owserver does not hand out the register"), three)
        self.gives(3, "show", f"ow:{OLD}", *self.at, err="bring a file with its 40 bytes")
        self.gives(3, "show", "ow:", *self.at, err=f"there are {SMALL}, {LARGE}, {OLD}\n")

    def test_in_place_of_a_file(self):
        server = self.serve(large=False)
        self.small.hold(CELL)
        shown, _ = self.gives(0, "show", sample("load-cell.kind1"), *support.TODAY)
        for name in (f"ow:{SMALL}", f"ow:{SMALL.lower()}", "ow:"):
            told, _ = self.gives(0, "show", name, *self.at, *support.TODAY, out=f"{name}: accepted, kind 1")
            self.assertEqual(told.splitlines()[1:], shown.splitlines()[1:])
        self.gives(0, "show", "ow:", "-s", server.place.partition(":")[2], out="ow:: accepted")
        self.gives(0, "certificate", "ow:", sample("load-cell.csv"), *self.at, out="AGREES")

    def test_save(self):
        self.serve()
        self.small.hold(sample_bytes("damaged.kind1"))
        self.large.hold(sample_bytes("many-points.kind2"))
        self.gives(1, "save", f"ow:{SMALL}", "-o", "small", *self.at, out="small: written, 128 bytes; refused: 2 at page 2")
        self.gives(0, "save", f"ow:{LARGE}", "-o", "large", *self.at, out="large: written, 512 bytes; accepted\n")
        self.assertEqual((self.bytes("small"), self.bytes("large")), (bytes(self.small.memory), bytes(self.large.memory)))
        self.gives(3, "save", f"ow:{LARGE}", "-o", "small", *self.at, err="--force replaces it")

    def test_what_is_not_there(self):
        server = self.serve()
        there = f"there are {SMALL}, {LARGE}\n"
        self.gives(3, "show", "ow:2D.000000000001", *self.at, err=f"there is no such chip at {server.place}; {there}")
        self.gives(1, "show", f"ow:{SMALL}", *self.at, out="refused: 17")
        self.small.present = False
        self.gives(3, "show", f"ow:{SMALL}", *self.at, err=f"there is no such chip at {server.place}; there are {LARGE}\n")
        self.gives(1, "chips", *self.at, out=f"{LARGE}  DS2433")
        server.close()
        self.gives(3, "chips", *self.at, err=(f"no owserver at {server.place}: Connection refused; ", "/etc/owfs.conf"))

    def test_a_loose_contact(self):
        self.serve()
        self.small.hold(CELL)
        self.small.loose = True
        self.gives(3, "show", f"ow:{SMALL}", *self.at, err="two reads differ; check the contact\n")

    def test_a_silent_adapter(self):
        """The server says all the while that it is still at it."""
        server = self.serve("--timeout_serial=1")
        self.small.hold(CELL)
        server.adapter.speaks.clear()
        self.gives(3, "chips", *self.at, err="does not list its chips: Input/output error; check the adapter\n")
        server.adapter.speaks.set()
        # The server takes what comes late for the answer to its next question, and finds its way again.
        for _ in range(30):
            if self.run_here("show", f"ow:{SMALL}", *self.at)[0] == 0:
                break
            time.sleep(1)
        self.gives(0, "show", f"ow:{SMALL}", *self.at)


class Write(bench.Case):
    def write(self, status, data, *words, **said):
        self.file("new", data)
        return self.gives(status, "write", "new", "--to", f"ow:{SMALL}", *words, *self.at, **said)

    def test_written(self):
        self.serve()
        said, _ = self.write(0, CELL, out=(f"{KEPT}: written, what was on the chip\n", "written and read back, accepted, "))
        self.assertEqual((bytes(self.small.memory), self.bytes(KEPT)), (CELL, b"\xff" * 128))
        self.assertEqual(said.count("  row "), self.small.rows)
        rows = self.small.rows
        self.write(0, CELL, out="holds it already\n")
        self.assertEqual(self.small.rows, rows)
        os.unlink(KEPT)
        self.write(1, TORQUE, err=("another sender's sheet is on the chip", "serial number 555", "--force writes over it\n"))
        self.assertEqual((self.small.rows, os.path.exists(KEPT)), (rows, False))
        self.write(0, TORQUE, "--force")
        self.assertEqual((bytes(self.small.memory), self.bytes(KEPT)), (TORQUE, CELL))
        self.write(3, CELL, "--force", err=f"{KEPT} is there already; --keep OLD has to name another file")
        self.write(0, CELL, "--force", "--keep", "torque", out="torque: written, what was on the chip\n")
        self.assertEqual((bytes(self.small.memory), self.bytes(KEPT), self.bytes("torque")), (CELL, CELL, TORQUE))

    def test_resumed(self):
        self.serve()
        self.small.hold(CELL, 3)
        self.write(3, TORQUE, "--force", err=("unfinished: the chip is refused now", f"there are {LARGE}\n"))
        self.gives(1, "chips", *self.at)
        self.small.hold(bytes(self.small.memory))
        self.gives(1, "show", f"ow:{SMALL}", *self.at, out="refused: 2")
        self.write(0, TORQUE, out=f"{KEPT} is there already, and stays\n")
        self.assertEqual((bytes(self.small.memory), self.bytes(KEPT)), (TORQUE, CELL))

    def test_rows_that_are_not_taken(self):
        """Where page 2 is protected the command cannot finish, and what was there can be put back."""
        self.serve()
        self.small.hold(CELL)
        self.small.protected = {0}
        self.write(3, TORQUE, "--force", err=("nothing was changed on the chip", "does not take the row at 0; it may be protected"))
        self.small.protected = {2}
        self.write(3, TORQUE, "--force", err=("the chip is refused now", "does not take the row at 88; it may be protected"))
        self.gives(0, "write", KEPT, "--to", f"ow:{SMALL}", *self.at)
        self.assertEqual(bytes(self.small.memory), CELL)

    def test_read_only(self):
        self.serve("--readonly")
        self.write(3, CELL, err=("nothing was changed on the chip", "it is read-only, or the server is: Read-only file system"))
        self.assertEqual(self.small.rows, 0)


class Stopped(bench.Case):
    """write as a program, which is stopped while it writes."""

    def begun(self, row):
        """A command whose row is on its way: the chip has taken it, and the adapter is silent."""
        self.server = self.serve()
        self.small.hold(CELL)
        taken = threading.Event()

        def behind(rows):
            if rows == row:
                self.server.adapter.speaks.clear()
                taken.set()

        self.small.behind = behind
        words = [support.PROGRAM, "write", sample("torque.kind1"), "--to", f"ow:{SMALL}", "--force", *self.at]
        process = subprocess.Popen(words, stdout=subprocess.PIPE, stderr=subprocess.PIPE, text=True)
        self.addCleanup(process.communicate, timeout=support.LONGEST)
        self.addCleanup(process.kill)
        self.assertTrue(taken.wait(30))
        return process

    def finished(self):
        self.server.adapter.speaks.set()
        self.gives(0, "write", sample("torque.kind1"), "--to", f"ow:{SMALL}", *self.at)
        self.assertEqual((bytes(self.small.memory), self.bytes(KEPT)), (TORQUE, CELL))

    def test_interrupted(self):
        process = self.begun(3)
        process.send_signal(signal.SIGINT)
        _, err = process.communicate(timeout=support.LONGEST)
        self.assertEqual(process.returncode, 128 + signal.SIGINT)
        self.assertIn("unfinished: the chip is refused now; the same command finishes it\n", err)
        self.finished()

    def test_killed(self):
        process = self.begun(2)
        process.kill()
        process.communicate(timeout=support.LONGEST)
        self.finished()

    def test_the_server_ends(self):
        process = self.begun(2)
        self.server.close()
        _, err = process.communicate(timeout=support.LONGEST)
        self.assertEqual(process.returncode, 3, err)
        self.assertIn("unfinished: the chip is refused now; the same command finishes it\n", err)
        held = bytes(self.small.memory)
        self.server = self.serve()
        self.small.hold(held)
        self.finished()

    def test_two_writers(self):
        process = self.begun(1)
        self.gives(3, "write", sample("torque.kind1"), "--to", f"ow:{SMALL}", *self.at, err="another command writes this chip now\n")
        self.server.adapter.speaks.set()
        _, err = process.communicate(timeout=support.LONGEST)
        self.assertEqual((process.returncode, err, bytes(self.small.memory)), (0, "", TORQUE))


if __name__ == "__main__":
    support.unittest.main()
