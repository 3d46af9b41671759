"""The shared library that every call goes to, found or compiled when the first call is made.

It is the first of these that there is:
  - the file that DARTELM_LIBRARY names;
  - the one beside this module, compiled when the package was installed;
  - in a release, lib/libdartelm.so, on x86-64 Linux;
  - in the repository, where DARTELM_NATIVE is 1 or a source is newer than portable/c, the archive that the toolchain builds
    (bin/archive), linked into target/python/;
  - in the repository or a release, one compiled from portable/c/dartelm.c into target/python/ (CC, or cc).
"""
import ctypes
import hashlib
import importlib
import os
import platform
import shlex
import sys
import threading

from .declared import VERSION

PACKAGE = os.path.dirname(os.path.realpath(__file__))
HOME = os.path.dirname(os.path.dirname(PACKAGE))
# The calls cost less than what Python does around them, so that the time to compile counts.
FLAGS = ("-std=c99", "-O2", "-DDARTELM_COMPILE_FAST", "-fPIC", "-shared")
FROM_C, NATIVE = "library compiled from portable/c", "library as the toolchain built it"


class NoLibrary(OSError):
    """There is no shared library, and none can be compiled."""


_loaded = None
_lock = threading.Lock()


def told(text):
    """What takes a while is said to whoever puts another function here."""


def library():
    """The library, loaded once."""
    global _loaded
    with _lock:
        if _loaded is None:
            _loaded = load(chosen()[0])
    return _loaded


def chosen(home=HOME):
    """The file of the library, and what it is."""
    if os.environ.get("DARTELM_LIBRARY"):
        return os.environ["DARTELM_LIBRARY"], f"library {os.environ['DARTELM_LIBRARY']}"
    found = os.path.join(PACKAGE, "libdartelm.so")
    if os.path.exists(found):
        return found, FROM_C
    found = os.path.join(home, "lib", "libdartelm.so")
    if os.path.exists(found) and (sys.platform, platform.machine()) == ("linux", "x86_64"):
        return found, FROM_C
    folder = os.path.join(home, "target", "python")
    newer = newer_source(home)
    if newer:
        told(f"{newer} is newer than portable/c")
    if newer or os.environ.get("DARTELM_NATIVE") == "1":
        return native(home, folder), NATIVE
    return compiled(home, folder), FROM_C


def newer_source(home):
    """The first source of a repository that is not the one that its C was made from: another sum, or a file that is not listed.
    None if there is none."""
    try:
        with open(os.path.join(home, "portable", "c", "sources.sha256"), encoding="utf-8") as file:
            sums = dict(reversed(line.rstrip("\n").split("  ", 1)) for line in file)
    except OSError:
        return None
    for name, wanted in sums.items():
        try:
            with open(os.path.join(home, name), "rb") as file:
                if hashlib.sha256(file.read()).hexdigest() != wanted:
                    return name
        except OSError:
            return name
    folders = sorted({name.partition("/src/")[0] for name in sums if "/src/" in name})
    return next((name for folder in folders for name in sources_in(home, folder) if name not in sums), None)


def sources_in(home, folder):
    """The sources of a crate, by their names in the repository."""
    for at, _, names in os.walk(os.path.join(home, folder, "src")):
        yield from (os.path.relpath(os.path.join(at, name), home) for name in sorted(names) if name.endswith(".rt"))


def load(found):
    try:
        loaded = ctypes.CDLL(found)
        number = loaded.dartelm_version()
    except (OSError, AttributeError) as error:
        raise NoLibrary(f"{found} cannot be loaded: {error}") from None
    if number != VERSION:
        raise NoLibrary(f"{found} has number {number}, and this package has {VERSION}")
    return loaded


def compiled(home, folder):
    """The library of a tree's C, compiled into a folder unless it is there. The name depends on all that goes into it, and the file
    appears whole, so that any number of processes may do this at once."""
    source = os.path.join(home, "portable", "c", "dartelm.c")
    header = os.path.join(home, "include", "dartelm.h")
    return made([*FLAGS, "-I" + os.path.dirname(header), source], (source, header), folder, "compiling portable/c/dartelm.c")


def native(home, folder):
    """The toolchain's archive as a library."""
    archive = os.path.join(home, "target", "staticlib", "libdartelm.a")
    compiling().archive(home)
    words = ["-shared", "-Wl,-Bsymbolic", "-Wl,--whole-archive", archive, "-Wl,--no-whole-archive"]
    return made(words, (archive,), folder, "linking the toolchain's archive")


def made(words, sources, folder, said):
    """A library by the compiler and words for it, unless it is there."""
    compiler = shlex.split(os.environ.get("CC") or "cc")
    key = hashlib.sha256(repr((compiler, FLAGS, platform.machine())).encode())
    try:
        for name in sources:
            with open(name, "rb") as file:
                key.update(file.read())
    except OSError as error:
        raise NoLibrary(f"the library cannot be compiled: {error}") from None
    found = os.path.join(folder, f"libdartelm-{key.hexdigest()[:16]}.so")
    if not os.path.exists(found):
        told(said)
        compiling().compile_to(found, [*compiler, *words])
    return found


def compiling():
    """What is needed once, when there is no library yet."""
    return importlib.import_module(".compiling", __package__)
