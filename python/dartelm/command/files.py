"""Files: read whole, and written whole or not at all."""
import errno
import functools
import os
import stat
import sys

from . import owserver
from .trouble import misused, unread

# More than any chip's image, dump, sheet or certificate has.
LONGEST = 1 << 20
# Bytes that no text has.
CONTROLS = set(range(9)) | set(range(14, 32))
# Where `-o -` writes.
standard = sys.stdout


def read_bytes(path):
    if path.startswith(owserver.PREFIX):
        return owserver.read_bytes(path)
    if path == "-" and sys.stdin is None:
        raise unread("cannot read -: standard input is closed")
    try:
        if path == "-":
            return standard_input()
        with open(path, "rb") as file:
            return file.read(LONGEST)
    except (OSError, ValueError) as error:
        raise unread(f"cannot read {path}: {reason(error)}") from None


@functools.lru_cache(maxsize=1)
def standard_input():
    """Read once, however often it is asked for."""
    return sys.stdin.buffer.read(LONGEST)


def is_there(path):
    return path == "-" or path.startswith(owserver.PREFIX) or os.path.lexists(path)


def read_text(path):
    """UTF-8, or what a spreadsheet writes in its place."""
    data = read_bytes(path)
    try:
        if data.startswith((b"\xff\xfe", b"\xfe\xff")):
            return data.decode("utf-16")
        return data.decode("utf-8-sig" if is_utf8(data) or CONTROLS.intersection(data) else "cp1252")
    except UnicodeDecodeError as error:
        raise unread(f"cannot read {path}: it is no text (byte {error.start})") from None


def is_utf8(data):
    try:
        data.decode("utf-8")
    except UnicodeDecodeError:
        return False
    return True


def reason(error):
    return getattr(error, "strerror", None) or str(error)


def must_be_new(path, force):
    """Said before anything is worked out, so that no work is lost; `write_new` holds to it again."""
    if path == "":
        raise misused("-o takes a file's name, or - for standard output")
    if path.startswith(owserver.PREFIX):
        raise misused(f"-o {path} is no file: 'dartelm write FILE --to {path}' writes a chip")
    if path != "-" and os.path.lexists(path):
        target = replaceable(path)
        if not force:
            raise unread(f"{path} is there already; --force replaces it")
        keep_owner(target, None)


def must_be_no_input(path, inputs):
    """An output that is one of the inputs, under whichever name."""
    for name in inputs:
        if path not in (None, "-") and is_same(path, name):
            raise misused(f"-o {path} is the file that is read; write to another")


def is_same(path, name):
    try:
        return os.path.samestat(os.stat(path), os.fstat(sys.stdin.fileno()) if name == "-" else os.stat(name))
    except (OSError, ValueError, AttributeError):
        return False


def replaceable(path):
    """The regular file that a name or a link stands for: nothing else is replaced."""
    target = os.path.realpath(path)
    try:
        there = os.stat(target)
    except OSError as error:
        raise unread(f"{path} is a link that cannot be followed: {reason(error)}") from None
    if not stat.S_ISREG(there.st_mode):
        raise unread(f"{path} is no regular file, and is not replaced")
    return target


def keep_owner(target, handle):
    """Gives a file the owner and the mode of the one that it replaces; without a handle says whether it can be done."""
    there = os.stat(target)
    owner = (there.st_uid, there.st_gid)
    if handle is None:
        if os.geteuid() not in (0, there.st_uid):
            raise unread(f"{target} is another user's, who would lose it; it is not replaced")
        return
    new = os.fstat(handle)
    if (new.st_uid, new.st_gid) != owner:
        try:
            os.fchown(handle, *owner)
        except OSError as error:
            raise unread(f"{target}: its owner and group cannot be kept, so it is not replaced: {reason(error)}") from None
    os.fchmod(handle, stat.S_IMODE(there.st_mode))


def write_new(path, data, force):
    """Writes a file that has no name yet, in the same folder, and gives it the name when all is in it."""
    if path == "-":
        write_standard(data)
        return
    try:
        write_and_name(replaceable(path) if force and os.path.lexists(path) else path, data, force)
    except FileExistsError:
        raise unread(f"{path} is there already; --force replaces it") from None
    except OSError as error:
        room = error.errno in (errno.ENOSPC, errno.EDQUOT)
        folder = os.path.dirname(path) or "."
        why = f"no room for a temporary file in {folder}: {reason(error)}" if room else reason(error)
        raise unread(f"cannot write {path}: {why}") from None


def write_standard(data):
    """To standard output, which has nothing else then: `main` sends what is said to standard error."""
    if hasattr(standard, "buffer"):
        standard.buffer.write(data)
    else:
        standard.write(data.decode("latin-1"))
    standard.flush()


def write_and_name(path, data, force):
    folder = os.path.dirname(path) or "."
    spare = os.path.join(folder, f".dartelm-{os.urandom(6).hex()}")
    handle, named = nameless(folder, spare)
    try:
        with os.fdopen(handle, "wb") as file:
            file.write(data)
            file.flush()
            os.fsync(file.fileno())
            give_name(file.fileno(), named, spare, path, force)
    finally:
        if os.path.lexists(spare):
            os.unlink(spare)


def nameless(folder, spare):
    """A file without a name, so that nothing is left of it if this process is killed, and whether it has the spare name all the
    same, where the folder cannot have one without."""
    try:
        return os.open(folder, os.O_WRONLY | os.O_TMPFILE, 0o666), False
    except (OSError, AttributeError):
        return os.open(spare, os.O_WRONLY | os.O_CREAT | os.O_EXCL, 0o666), True


def give_name(handle, named, spare, path, force):
    """A link fails where the name is taken. To replace what is there the file needs a name first."""
    if not force and not named:
        link(handle, path)
        return
    if not force and os.path.lexists(path):
        raise FileExistsError(path)
    if os.path.lexists(path):
        replaceable(path)
        keep_owner(path, handle)
    if not named:
        link(handle, spare)
    os.replace(spare, path)


def link(handle, path):
    there = os.open("/proc/self/fd", os.O_RDONLY)
    try:
        os.link(str(handle), path, src_dir_fd=there, follow_symlinks=True)
    finally:
        os.close(there)
