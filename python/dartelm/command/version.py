"""Which Dartelm this is: the header's number, in a release what it was made from, and which build of the library answers."""
import os

from .. import library
from ..declared import VERSION


def line():
    return f"Dartelm {VERSION}{made_from()}, {library.chosen()[1]}"


def made_from():
    """A release names the commit that it was made from."""
    try:
        with open(os.path.join(library.HOME, "VERSION"), encoding="utf-8") as file:
            return f" ({file.read().strip()})"
    except OSError:
        return ""
