"""A chip in place of a file, through a small owserver inside the test. bin/chips-test has the real one."""
from unittest import mock

import bus
import support
from dartelm.command import owserver
from support import sample, sample_bytes

ONE, TWO, OLD, OTHER = "2D.0123456789AB", "23.00000000BEEF", "14.000000000014", "28.0000000000FF"


class Chips(support.Case):
    def bus(self, chips=None, how="good"):
        chips = {ONE: sample_bytes("load-cell.kind1"), TWO: sample_bytes("many-points.kind2")} if chips is None else chips
        found = bus.Bus(chips, how)
        self.addCleanup(found.close)
        self.server = ("-s", found.place)
        return found

    def test_chips(self):
        self.bus({ONE: sample_bytes("load-cell.kind1"), TWO: sample_bytes("many-points.kind2"), OTHER: b""})
        said, _ = self.gives(0, "chips", *self.server)
        self.assertEqual(
            said.splitlines(),
            [f"{ONE}  DS2431  kind 1  accepted, serial 555", f"{TWO}  DS2433  kind 2  accepted, serial 1048577"],
        )
        self.bus({ONE: sample_bytes("blank.kind1"), OLD: bytes(32)})
        said, _ = self.gives(3, "chips", *self.server)
        self.assertIn(f"{ONE}  DS2431  kind 1  refused: 17 at place 0", said)
        self.assertIn(f"{OLD}  DS2430A  kind 0  this owserver does not hand out the register of a DS2430A", said)
        self.bus({})
        self.gives(0, "chips", *self.server, out="no chip that can hold a sheet at 127.0.0.1:")

    def test_in_place_of_a_file(self):
        self.bus()
        told, _ = self.gives(0, "show", f"ow:{ONE}", *self.server, *support.TODAY)
        shown, _ = self.gives(0, "show", sample("load-cell.kind1"), *support.TODAY)
        self.assertEqual(told.splitlines()[1:], shown.splitlines()[1:])
        self.gives(0, "why", f"ow:{TWO.lower()}", *self.server, out="accepted, kind 2")
        self.gives(0, "certificate", f"ow:{ONE}", sample("load-cell.csv"), *self.server, out="AGREES")
        self.gives(0, "set", f"ow:{ONE}", "location=3", "-o", self.path("new"), *self.server, out="location ID 12 3 3\n")
        self.gives(0, "tray", f"ow:{ONE}", f"ow:{TWO}", *self.server, out="2 chips: 2 accepted")
        self.gives(3, "tray", f"ow:{ONE}", "ow:2D.000000000000", *self.server, out="there is no such chip")

    def test_the_only_chip(self):
        self.bus({ONE: sample_bytes("load-cell.kind1"), OTHER: b""})
        self.gives(0, "show", "ow:", *self.server, out="ow:: accepted")
        self.bus()
        self.gives(3, "show", "ow:", *self.server, err=f"there are {ONE}, {TWO}\n")
        self.bus({})
        self.gives(3, "show", "ow:", *self.server, err="there are none\n")

    def test_save(self):
        self.bus({ONE: sample_bytes("load-cell.kind1"), TWO: bytes(512)})
        self.gives(0, "save", f"ow:{ONE}", "-o", self.path("one"), *self.server, out="one: written, 128 bytes; accepted\n")
        self.assertEqual(self.bytes("one"), sample_bytes("load-cell.kind1"))
        self.gives(1, "save", f"ow:{TWO}", "-o", self.path("two"), *self.server, out="two: written, 512 bytes; refused: 5")
        self.assertEqual(self.bytes("two"), bytes(512))
        self.gives(3, "save", f"ow:{ONE}", "-o", self.path("one"), *self.server, err="--force")
        self.gives(2, "save", f"ow:{ONE}", "-o", f"ow:{TWO}", *self.server, err="dartelm write FILE --to ow:")

    def test_keep_alives(self):
        self.bus(how="keep-alives")
        self.gives(0, "show", f"ow:{ONE}", *self.server, out=": accepted")

    def test_what_goes_wrong(self):
        for how, part in (
            ("short", "127 bytes of 128 were read; check the contact"),
            ("differ", "two reads differ; check the contact"),
            ("closed", "closed the connection in the middle of an answer"),
            ("absurd", "is no owserver"),
            ("far", "is no owserver"),
            ("unread", f"ow:{ONE}: the server answers: Input/output error; check the contact and the adapter\n"),
        ):
            self.bus(how=how)
            out, err = self.gives(3, "show", f"ow:{ONE}", *self.server)
            self.assertEqual((out, len(err.splitlines()), part in err), ("", 1, True), err)
        with mock.patch.object(owserver, "SILENCE", 0.2):
            self.bus(how="silent")
            self.gives(3, "show", f"ow:{ONE}", *self.server, err="is silent\n")
        with mock.patch.object(owserver, "PATIENCE", -1):
            self.bus(how="keep-alives")
            self.gives(3, "show", f"ow:{ONE}", *self.server, err="does not answer\n")

    def test_no_server_and_no_chip(self):
        there = self.bus()
        self.gives(3, "show", "ow:2D.00000000000F", *self.server, err=f"there is no such chip at {there.place}; there are {ONE}, {TWO}")
        self.gives(3, "show", f"ow:{OLD}", *self.server, err="the register of a DS2430A: bring a file with its 40 bytes")
        self.gives(3, "show", f"ow:{OTHER}", *self.server, err="a chip of family 28 is none of 14 (DS2430A), 2D (DS2431), 23 (DS2433)")
        there.close()
        self.gives(3, "chips", *self.server, err=(f"no owserver at {there.place}: ", "server: usb = all", "/etc/owfs.conf"))
        self.bus(how="unlisted")
        self.gives(3, "chips", *self.server, err="does not list its chips: Input/output error; check the adapter\n")
        self.gives(3, "chips", "-s", "a..b", err="no owserver at a..b:4304: ")
        for words, part in (
            (("show", "ow:2D"), "a chip's name is like 2D.0123456789AB"),
            (("show", "ow:2D.0123456789AG"), "a chip's name is like"),
            (("show", "ow:", "-s", ":5"), "no HOST:PORT"),
            (("show", "ow:", "-s", "localhost:99999"), "no HOST:PORT"),
            (("show", "ow:", "-s", "bench:"), "no HOST:PORT"),
            (("show", "ow:", "-s", "::1"), "no HOST:PORT"),
            (("show", "ow:", "-s", "0"), "no HOST:PORT"),
        ):
            self.gives(2, *words, err=part)

    def test_a_chip_that_was_pulled_is_not_blank(self):
        there = self.bus({ONE: sample_bytes("blank.kind1")})
        self.gives(1, "show", f"ow:{ONE}", *self.server, out="refused: 17")
        there.pulled.add(ONE)
        self.gives(3, "show", f"ow:{ONE}", *self.server, err="there is no such chip")

    def test_places(self):
        for place, host, port in (
            ("localhost", "localhost", 4304),
            ("bench:99", "bench", 99),
            ("10.0.0.1", "10.0.0.1", 4304),
            ("99", "localhost", 99),
            ("[::1]:99", "[::1]", 99),
            ("[::1]", "[::1]", 4304),
        ):
            found = owserver.Owserver(place)
            self.assertEqual((found.host, found.port), (host, port))


if __name__ == "__main__":
    support.unittest.main()
