"""A small owserver for tests: chips in memory, and servers that fall silent, cut answers short, or are none."""
import errno
import os
import shutil
import socket
import struct
import tempfile
import threading
from unittest import mock

HEAD = struct.Struct(">6i")
READ, WRITE, LIST = 2, 3, 7


def lock_apart(case):
    """Locks of a test's own, so that two tests may run at once."""
    folder = tempfile.mkdtemp()
    os.chmod(folder, 0o1777)
    case.addCleanup(shutil.rmtree, folder)
    for patch in (mock.patch.object(tempfile, "tempdir", folder), mock.patch.dict(os.environ, TMPDIR=folder)):
        patch.start()
        case.addCleanup(patch.stop)


class Bus:
    """Serves chips by their names. `how` says what is wrong; a chip is pulled behind so many rows, and reads FF then."""

    def __init__(self, chips, how="good"):
        self.chips = {name: bytearray(data) for name, data in chips.items()}
        self.how = how
        self.rows = []
        self.cut = None
        self.pulled = set()
        self.reads = 0
        self.socket = socket.create_server(("127.0.0.1", 0))
        self.place = "127.0.0.1:%d" % self.socket.getsockname()[1]
        self.thread = threading.Thread(target=self.serve, daemon=True)
        self.thread.start()

    def close(self):
        try:
            self.socket.shutdown(socket.SHUT_RDWR)
        except OSError:
            pass
        self.socket.close()
        self.thread.join(5)

    def serve(self):
        while True:
            try:
                link, _ = self.socket.accept()
            except OSError:
                return
            with link:
                try:
                    self.one(link)
                except OSError:
                    pass

    def one(self, link):
        zero, length, kind, flags, size, offset = HEAD.unpack(self.take(link, HEAD.size))
        path, _, data = self.take(link, length).partition(b"\0")
        assert zero == 0 and flags == 0x120, flags
        if self.how == "silent":
            link.recv(1)
            return
        if self.how == "absurd":
            link.sendall(b"HTTP/1.1 400 Bad Request\r\n\r\n")
            return
        if self.how == "keep-alives":
            link.sendall(HEAD.pack(0, -1, 0, 0, 0, 0) * 3)
        result, answer = self.answer(kind, path.decode("ascii"), size, offset, data)
        if self.how == "closed":
            link.sendall(HEAD.pack(0, len(answer), result, 0, 0, 0) + answer[: len(answer) // 2])
            return
        link.sendall(HEAD.pack(0, len(answer), result, 0, len(answer), 0) + answer)

    def take(self, link, count):
        data = b""
        while len(data) < count:
            part = link.recv(count - len(data))
            if not part:
                raise OSError("closed")
            data += part
        return data

    def answer(self, kind, path, size, offset, data):
        if self.how == "far":
            return -(1 << 31), b""
        if kind == LIST and self.how == "unlisted":
            return -errno.EIO, b""
        if kind == LIST:
            return 0, ",".join("/" + name for name in [*self.there(), "81.000000000001"]).encode() + b"\0"
        name = path.split("/")[1]
        if not path.endswith("/memory") or name not in self.chips:
            return -1, b""
        if kind == READ and self.how == "unread":
            return -errno.EIO, b""
        if kind == READ:
            return self.read(name, size, offset)
        if self.how == "read-only":
            return -errno.EROFS, b""
        return self.write(name, offset, data) if self.how != "protected" else (-errno.EINVAL, b"")

    def there(self):
        return [name for name in self.chips if name not in self.pulled]

    def read(self, name, size, offset):
        self.reads += 1
        data = bytes(self.chips[name][offset : offset + size])
        if name in self.pulled:
            data = b"\xff" * size
        if self.how == "short":
            data = data[:-1]
        if self.how == "differ" and self.reads % 2:
            data = bytes([data[0] ^ 1]) + data[1:]
        return len(data), data

    def write(self, name, offset, data):
        """A row is programmed whole. A pulled chip is told as written: libow does not read back what was programmed."""
        if self.cut is not None and len(self.rows) >= self.cut:
            self.pulled.add(name)
        if name not in self.pulled and self.how != "deaf":
            data = data[:4] + bytes([data[4] ^ 1]) + data[5:] if self.how == "torn" else data
            self.rows.append((offset, bytes(data)))
            self.chips[name][offset : offset + len(data)] = data
        return 0, b""
