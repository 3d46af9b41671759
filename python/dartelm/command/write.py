"""write: an image onto a chip, row by row as the proved next_row gives them, so that a chip that is pulled on the way is refused."""
import fcntl
import os
import sys
import tempfile

from .. import calls
from . import files, owserver
from .fields import FIELDS
from .image import Image, open_image, read_sheet, refusal_of
from .looks import shown
from .owserver import PREFIX, READ_ONLY, Owserver
from .trouble import ACCEPTED, misused, refused, unread
from .units import many

# So many rows are enough for each kind (docs/CONSOLE.md, `next`).
MOST = {1: 20, 2: 68}
OWN = (1, 2, 3, 4, 5)


def run(given):
    wanted, sheet = open_image(given.file)
    if not given.to.startswith(PREFIX):
        raise misused(f"--to takes a chip like ow:2D.0123456789AB, and '{given.to}' is none")
    chip = Owserver(owserver.PLACE).chip(given.to[len(PREFIX) :])
    if chip.kind != wanted.kind:
        raise misused(f"{given.file} is of kind {wanted.kind}, and ow:{chip.name}, a {chip.part}, of kind {chip.kind}")
    with Lock(chip.name):
        present = chip.read()
        if present == wanted.data:
            print(f"ow:{chip.name}: holds it already")
            return ACCEPTED
        own_sender(chip, Image(present, chip.kind), sheet, given.force)
        say = Progress()
        keep(chip, present, given.keep, say)
        Rows(chip, present, wanted.data, say).write()
        say.end()
    return ACCEPTED


class Progress:
    """What cannot be said leaves no chip unfinished: it is raised at the end."""

    def __init__(self):
        self.failed = None

    def __call__(self, line):
        try:
            print(line, flush=True)
        except OSError as error:
            self.failed = error
            os.dup2(os.open(os.devnull, os.O_WRONLY), 1)

    def end(self):
        if self.failed:
            raise self.failed


class Lock:
    """One writer a chip, on this machine."""

    def __init__(self, name):
        self.name = name
        self.handle = None

    def __enter__(self):
        path = os.path.join(tempfile.gettempdir(), f"dartelm-{self.name}.lock")
        try:
            self.handle = self.opened(path)
            fcntl.flock(self.handle, fcntl.LOCK_EX | fcntl.LOCK_NB)
        except BlockingIOError:
            os.close(self.handle)
            raise unread(f"ow:{self.name}: another command writes this chip now") from None
        except OSError as error:
            raise unread(f"cannot lock {path}: {files.reason(error)}") from None

    def opened(self, path):
        """Another user's file serves as well, which may neither be written nor made again."""
        try:
            return os.open(path, os.O_RDONLY | os.O_NOFOLLOW | os.O_CLOEXEC)
        except FileNotFoundError:
            return os.open(path, os.O_RDONLY | os.O_CREAT | os.O_NOFOLLOW | os.O_CLOEXEC, 0o644)

    def __exit__(self, *_):
        os.close(self.handle)


def own_sender(chip, present, sheet, force):
    """Another sender's accepted sheet is written over only where it is asked for."""
    if force or refusal_of(present):
        return
    there = read_sheet(present)
    other = [number for number in OWN if there.values[number] != sheet.values[number]]
    if other:
        told = ", ".join(f"{FIELDS[there.template][n - 1].name} {shown(there, n)}" for n in other)
        raise refused(f"ow:{chip.name}: another sender's sheet is on the chip ({told}); --force writes over it")


def keep(chip, present, asked, say):
    """What was there goes into a file first, which replaces none. Where the chip is refused, as an unfinished one is, a file that
    is there has what was there before, and stays."""
    path = asked or f"{chip.name}-old.kind{chip.kind}"
    if os.path.lexists(path):
        if refusal_of(Image(present, chip.kind)):
            say(f"{path} is there already, and stays")
        elif files.read_bytes(path) != present:
            raise unread(f"{path} is there already; --keep OLD has to name another file for what is on the chip now")
        return
    files.write_new(path, present, False)
    say(f"{path}: written, what was on the chip")


class Rows:
    """The rows of an image, written and read back. `held` was read last; `coming` is what holds if the row on its way is taken."""

    def __init__(self, chip, old, wanted, say):
        self.chip = chip
        self.old = self.held = self.coming = old
        self.wanted = wanted
        self.say = say
        self.sent = 0

    def write(self):
        try:
            for offset, row in self.rows():
                self.one(offset, row)
        except BaseException:
            print(f"dartelm: ow:{self.chip.name}: {self.unfinished()}", file=sys.stderr)
            raise
        self.say(f"ow:{self.chip.name}: written and read back, accepted, {many(self.sent, 'row')}")

    def unfinished(self):
        told = {self.old: "as it was", self.wanted: "written"}
        now, then = (told.get(data, "refused") for data in (self.held, self.coming))
        if self.held == self.coming == self.old:
            return "nothing was changed on the chip"
        return f"unfinished: the chip is {now if now == then else f'{now} or {then}'} now; the same command finishes it"

    def rows(self):
        """Offset and bytes of each row, as what is held then asks for it."""
        while True:
            row = calls.next_row(self.held, self.wanted, kind=self.chip.kind)
            if row.is_done:
                return
            if self.sent >= MOST[self.chip.kind]:
                raise unread(f"ow:{self.chip.name}: {self.sent} rows are written, and it asks for more")
            yield row.offset, row.bytes

    def one(self, offset, row):
        """A row is written and the whole chip read back."""
        self.coming = self.held[:offset] + row + self.held[offset + len(row) :]
        denied = self.chip.write_row(offset, row)
        now = self.chip.read()
        if now == self.held:
            self.coming = now
            raise self.untaken(offset, denied)
        if now != self.coming:
            raise unread(f"ow:{self.chip.name}: what is read back is not the row that was written at {offset}; check the contact")
        self.held = now
        self.sent += 1
        self.say(f"  row {self.sent}: bytes {offset} to {offset + len(row) - 1}")

    def untaken(self, offset, denied):
        if denied and denied.number in READ_ONLY:
            return self.chip.trouble(denied)
        said = f" (the server answers: {denied})" if denied else ""
        return unread(f"ow:{self.chip.name}: the chip does not take the row at {offset}; it may be protected{said}")
