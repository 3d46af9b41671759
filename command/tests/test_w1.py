"""Linux's own 1-Wire bus (w1), where a chip is a file below /sys/bus/w1/devices: tried on a copy of such folders."""
import ctypes
import glob
import os
import signal

import support
from dartelm.command import files
from support import sample_bytes

CHIPS = {"2d-ab8967452301": "load-cell.kind1", "23-efbe00000000": "many-points.kind2"}


class W1(support.Case):
    def setUp(self):
        super().setUp()
        os.makedirs(self.path("bus/w1/devices"))
        for name, image in CHIPS.items():
            os.makedirs(self.path(f"devices/w1_bus_master1/{name}"))
            os.symlink(f"../../../devices/w1_bus_master1/{name}", self.path(f"bus/w1/devices/{name}"))
            os.chmod(self.file(f"devices/w1_bus_master1/{name}/eeprom", sample_bytes(image)), 0o444)

    def eeprom(self, family):
        (found,) = glob.glob(self.path(f"bus/w1/devices/{family}-*/eeprom"))
        return found

    def test_read_as_files(self):
        small, large = self.eeprom("2d"), self.eeprom("23")
        self.gives(0, "show", small, out=(f"{small}: accepted, kind 1 (128 bytes)", "serial number 555\n"))
        self.gives(0, "show", large, out=f"{large}: accepted, kind 2 (512 bytes)")
        self.gives(0, "tray", small, large, out="2 chips: 2 accepted")
        self.gives(0, "save", small, "-o", self.path("chip.kind1"), out="128 bytes; accepted\n")
        self.assertEqual(self.bytes("chip.kind1"), sample_bytes("load-cell.kind1"))
        self.gives(2, "set", small, "location=3", "-o", small, err="is the file that is read")

    def of_size_0(self, data):
        """A file of the kernel's that holds these bytes, the last of them 0, and says that it has none: a process's environment."""
        words = data.split(b"\0")[:-1]
        environment = (ctypes.c_char_p * (len(words) + 1))(*words, None)
        arguments = (ctypes.c_char_p * 3)(b"sleep", b"60", None)
        execve = ctypes.CDLL(None).execve
        reader, writer = os.pipe()
        process = os.fork()
        if process == 0:
            execve(b"/bin/sleep", arguments, environment)
            os._exit(1)
        self.addCleanup(os.waitpid, process, 0)
        self.addCleanup(os.kill, process, signal.SIGKILL)
        os.close(writer)
        os.read(reader, 1)
        os.close(reader)
        return f"/proc/{process}/environ"

    def test_a_size_that_is_told_otherwise(self):
        """The kernel says 0 or 4096 of files that have a chip's bytes: they are read to their end."""
        path = self.of_size_0(sample_bytes("load-cell.kind1"))
        self.assertEqual(os.stat(path).st_size, 0)
        self.gives(0, "show", path, out=f"{path}: accepted, kind 1 (128 bytes)")
        path = "/sys/devices/system/cpu/online"
        if os.path.exists(path):
            self.assertEqual(os.stat(path).st_size, 4096)
            self.assertRegex(files.read_bytes(path), rb"^[0-9,-]+\n$")


if __name__ == "__main__":
    support.unittest.main()
