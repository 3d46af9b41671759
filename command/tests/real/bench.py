"""The real owserver on loopback, with simulated chips."""
import os
import socket
import subprocess
import sys
import time

HERE = os.path.dirname(os.path.realpath(__file__))
sys.path.insert(0, os.path.dirname(HERE))

import bus  # noqa: E402
import simulated  # noqa: E402
import support  # noqa: E402

SMALL, LARGE, OLD = "2D.0123456789AB", "23.00000000BEEF", "14.000000000014"


def free_port():
    with socket.create_server(("127.0.0.1", 0)) as taken:
        return taken.getsockname()[1]


class Server:
    def __init__(self, chips, *words):
        self.chips = chips
        self.adapter = simulated.Adapter(chips)
        self.adapter.start()
        self.place = f"127.0.0.1:{free_port()}"
        words = ["owserver", "--foreground", f"--ha7e={self.adapter.path}", "-p", self.place, *words]
        self.process = subprocess.Popen(words, stdout=subprocess.DEVNULL, stderr=subprocess.DEVNULL)
        self.wait()

    def wait(self):
        """Until it answers; 10 s are enough."""
        host, port = self.place.split(":")
        for _ in range(500):
            try:
                socket.create_connection((host, int(port))).close()
                return
            except OSError:
                time.sleep(0.02)
        self.close()
        raise AssertionError("owserver does not answer")

    def close(self):
        self.process.kill()
        self.process.wait()


class Case(support.Case):
    """A folder of one's own to work in, and a server with a chip of each kind."""

    def setUp(self):
        super().setUp()
        self.addCleanup(os.chdir, os.getcwd())
        os.chdir(self.room)
        bus.lock_apart(self)

    def serve(self, *words, small=True, large=True, old=False):
        self.small, self.large = simulated.ds2431(SMALL), simulated.ds2433(LARGE)
        chips = [chip for chip, wanted in ((self.small, small), (self.large, large)) if wanted]
        server = Server(chips + [simulated.ds2430a(OLD)] * old, *words)
        self.addCleanup(server.close)
        self.at = ("-s", server.place)
        return server

    def saved(self, name):
        """What a chip reads as, through owserver, and whether it is accepted."""
        status, _, err = self.run_here("save", f"ow:{name}", "-o", "saved", "--force", *self.at)
        self.assertIn(status, (0, 1), err)
        return self.bytes("saved"), status == 0
