"""Makes the shared library, where there is none yet."""
import os
import subprocess
import tempfile

from .library import NoLibrary


def compile_to(found, command):
    """Runs a compiler for a file, which appears whole, so that any number of processes may do this at once."""
    part = new_file(os.path.dirname(found))
    try:
        run(command + ["-o", part])
        os.chmod(part, 0o755)
        os.replace(part, found)
    finally:
        if os.path.exists(part):
            os.remove(part)


def new_file(folder):
    try:
        os.makedirs(folder, exist_ok=True)
        handle, path = tempfile.mkstemp(suffix=".so", dir=folder)
        os.close(handle)
    except OSError as error:
        raise NoLibrary(f"the library cannot be compiled: {error}") from None
    return path


def run(command):
    try:
        done = subprocess.run(command, stdout=subprocess.PIPE, stderr=subprocess.STDOUT, check=False)
    except OSError as error:
        raise NoLibrary(f"the library has to be compiled, and there is no C compiler ({command[0]}): {error.strerror}") from None
    if done.returncode != 0:
        raise NoLibrary(f"the library cannot be compiled: {' '.join(command)}\n{done.stdout.decode('utf-8', 'replace')}")


def archive(home):
    """The toolchain's archive, which bin/archive proves and builds where a source is newer, and says so."""
    if subprocess.run([os.path.join(home, "bin", "archive")], stdout=subprocess.DEVNULL, check=False).returncode != 0:
        raise NoLibrary("the toolchain's archive cannot be built")
