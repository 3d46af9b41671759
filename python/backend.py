"""Builds the package for pip, with Python's own library and a C compiler alone (PEP 517).

A wheel has the package, with the command `dartelm`, and the shared library compiled from portable/c/dartelm.c.
"""
import base64
import hashlib
import os
import re
import sys
import sysconfig
import tarfile
import tempfile
import zipfile

sys.path.insert(0, os.path.dirname(os.path.realpath(__file__)))

from dartelm import library  # noqa: E402

HOME = library.HOME
# What a source distribution has.
SOURCES = ("pyproject.toml", "python/backend.py", "python/dartelm", "portable/c/dartelm.c", "docs/PYTHON.md", "include/dartelm.h")


def get_requires_for_build_wheel(config_settings=None):
    return []


get_requires_for_build_sdist = get_requires_for_build_wheel


def version():
    with open(os.path.join(HOME, "include", "dartelm.h"), encoding="utf-8") as file:
        return re.search(r"#define DARTELM_VERSION ([0-9]+)", file.read())[1]


def metadata():
    with open(os.path.join(HOME, "pyproject.toml"), encoding="utf-8") as file:
        text = file.read()
    summary = re.search(r'^description = "(.*)"$', text, re.M)[1]
    python = re.search(r'^requires-python = "(.*)"$', text, re.M)[1]
    return f"Metadata-Version: 2.1\nName: dartelm\nVersion: {version()}\nSummary: {summary}\nRequires-Python: {python}\n"


def build_wheel(wheel_directory, config_settings=None, metadata_directory=None):
    tag = f"py3-none-{re.sub('[-.]', '_', sysconfig.get_platform())}"
    name, info = f"dartelm-{version()}-{tag}.whl", f"dartelm-{version()}.dist-info"
    files = {**modules(), **compiled()}
    files[f"{info}/METADATA"] = metadata().encode(), 0o644
    files[f"{info}/WHEEL"] = f"Wheel-Version: 1.0\nGenerator: dartelm\nRoot-Is-Purelib: false\nTag: {tag}\n".encode(), 0o644
    files[f"{info}/entry_points.txt"] = b"[console_scripts]\ndartelm = dartelm.__main__:main\n", 0o644
    record = "".join(f"{path},sha256={digest(data)},{len(data)}\n" for path, (data, _) in sorted(files.items()))
    files[f"{info}/RECORD"] = f"{record}{info}/RECORD,,\n".encode(), 0o644
    with zipfile.ZipFile(os.path.join(wheel_directory, name), "w", zipfile.ZIP_DEFLATED) as wheel:
        for path, (data, mode) in sorted(files.items()):
            one = zipfile.ZipInfo(path)
            one.external_attr = (0o100000 | mode) << 16
            one.compress_type = zipfile.ZIP_DEFLATED
            wheel.writestr(one, data)
    return name


def digest(data):
    return base64.urlsafe_b64encode(hashlib.sha256(data).digest()).rstrip(b"=").decode()


def modules():
    """The package's modules, and the command's below it."""
    files = {}
    for folder in ("dartelm", "dartelm/command"):
        package = os.path.join(HOME, "python", folder)
        for name in sorted(os.listdir(package)):
            if name.endswith((".py", ".typed")):
                files[f"{folder}/{name}"] = read(os.path.join(package, name)), 0o644
    return files


def compiled():
    """The shared library."""
    with tempfile.TemporaryDirectory() as room:
        return {"dartelm/libdartelm.so": (read(library.compiled(HOME, room)), 0o755)}


def read(path):
    with open(path, "rb") as file:
        return file.read()


def build_sdist(sdist_directory, config_settings=None):
    base = f"dartelm-{version()}"
    with tarfile.open(os.path.join(sdist_directory, base + ".tar.gz"), "w:gz", format=tarfile.PAX_FORMAT) as archive:
        for name in SOURCES:
            archive.add(os.path.join(HOME, name), f"{base}/{name}", filter=lambda one: None if "__pycache__" in one.name else one)
        with tempfile.TemporaryDirectory() as room:
            path = os.path.join(room, "PKG-INFO")
            with open(path, "w", encoding="utf-8") as file:
                file.write(metadata())
            archive.add(path, f"{base}/PKG-INFO")
    return base + ".tar.gz"
