"""What ends a command early, and the status that it ends with."""
from ..refusal import Refusal

ACCEPTED, REFUSED, MISUSED, UNREAD = 0, 1, 2, 3


def tried(call, *words):
    """What a call returns, or its refusal."""
    try:
        return call(*words)
    except Refusal as refusal:
        return refusal


class Trouble(Exception):
    """A message for the person, and a status."""

    def __init__(self, text, status):
        super().__init__(text)
        self.status = status


def refused(text):
    return Trouble(text, REFUSED)


def misused(text):
    """A command, a value, a sheet or a certificate that cannot be understood."""
    return Trouble(text, MISUSED)


def unread(text):
    """A file that cannot be read or written, a program that is not there."""
    return Trouble(text, UNREAD)
