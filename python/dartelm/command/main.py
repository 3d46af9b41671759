"""The command line: what each command takes, and the status that it ends with."""
import argparse
import contextlib
import datetime
import functools
import importlib
import os
import re
import signal
import sys

from .. import calls, library
from . import files, owserver, version
from .refusals import headline
from .trouble import ACCEPTED, REFUSED, UNREAD, Refusal, Trouble, misused

VALUED = ("-o", "-s", "--level", "--table", "--dash", "--kind", "--today", "--point", "--deviation", "--error")
VALUED += ("--certificate", "--within", "--span", "--certificates", "--customer", "--job", "--make", "--to", "--keep")
STATUS = "Ends with 0 if accepted, 1 if refused or different, 2 if it is not understood, 3 if a file cannot be read or written."


@functools.lru_cache(maxsize=None)
def parser():
    about = "A sender's chip at the bench, in plain words and units. " + STATUS
    top = argparse.ArgumentParser(prog="dartelm", description=about, allow_abbrev=False)
    top.add_argument("--version", action=Made, help="say which Dartelm this is, and which build of it answers")
    top.add_argument("--man", action=Made, help="write the manual page, for man -l -")
    top.add_argument("--completion", action=Made, help="write what bash needs to complete words, for eval or source")
    commands = top.add_subparsers(dest="command", metavar="COMMAND", required=True)

    show = command(commands, "show", "the sheet in plain words and units")
    show.add_argument("files", metavar="FILE", nargs="+", help="an image of 40, 128 or 512 bytes")
    show.add_argument("--curve", action="store_true", help="draw the correction over the span")
    show.add_argument("--points", action="store_true", help="show every calibration point, however many")
    add_json(show)
    add_today(show)

    why = command(commands, "why", "why an image is refused, what is still whole, and what to do")
    why.add_argument("file", metavar="FILE", help="any file")
    add_json(why)
    add_output(why, required=False, about="write the image that a dump or a longer file holds, if it is accepted")

    change = command(commands, "set", "a copy of an image with some fields changed, all of them or none")
    change.add_argument("file", metavar="FILE", help="an image of 40, 128 or 512 bytes")
    change.add_argument(
        "changes",
        metavar="NAME=VALUE",
        nargs="+",
        help="a field's name as show has it, words that fit no other, or its number; a value with its unit, as "
        "impedance=350.5ohm, or missing",
    )
    change.add_argument(
        "--level",
        choices=("owner", "calibration", "maker"),
        default="owner",
        help="who writes: the owner the location alone (this if nothing is said), the calibration room also the ends "
        "of the span, date, initials and period, the maker all that is changed alone",
    )
    add_trial(change)
    add_today(change)

    read = command(commands, "read", "readings of a chip")
    read.add_argument("file", metavar="FILE", help="an image of 40, 128 or 512 bytes")
    read.add_argument("inputs", metavar="INPUT", nargs="*", help="with its unit, as 1.0mV/V")
    read.add_argument("--table", metavar="N", type=int, help="at N inputs from end to end of the span")
    read.add_argument("--dash", choices=("large", "small"), default="large", help="where it is shown (large)")
    add_json(read)

    tray = command(commands, "tray", "a line for each of many chips")
    tray.add_argument(
        "files", metavar="FILE", nargs="+", help="an image, or a folder of them (folders inside it are not looked into)"
    )
    tray.add_argument("--csv", action="store_true", help="as comma-separated values")
    tray.add_argument("--certificates", metavar="FOLDER", help="hold each chip against the certificate that names its serial")
    tray.add_argument("--strict", action="store_true", help="end with 1 where a chip is worth a look")
    add_json(tray)
    add_today(tray)

    certificate = command(commands, "certificate", "a chip against its certificate's points")
    certificate.add_argument("file", metavar="FILE", help="an image of 40, 128 or 512 bytes")
    certificate.add_argument(
        "certificate", metavar="CERT.csv", help="columns like 'point (%%)' and 'deviation (%%)', or in the sender's unit"
    )
    add_columns(certificate)
    add_within(certificate)
    add_json(certificate)

    export = command(commands, "export", "the sheet as lines 'name = value unit', which make takes")
    export.add_argument("file", metavar="FILE", help="an image of 40, 128 or 512 bytes")
    add_output(export, required=False)

    make = command(commands, "make", "an image from the lines of a sheet")
    make.add_argument("sheet", metavar="SHEET", help="lines as export writes them")
    make.add_argument("--kind", type=int, choices=(0, 1, 2), help="for another chip: 0 of 40 bytes, 1 of 128, 2 of 512")
    make.add_argument("--certificate", metavar="CERT.csv", help="take the points from a certificate")
    add_columns(make)
    add_within(make)
    add_trial(make)
    add_today(make)

    distance = command(commands, "distance", "how far readings of a chip built from a certificate can stray from it")
    distance.add_argument("certificate", metavar="CERT.csv", help="as certificate takes it")
    distance.add_argument(
        "--span", required=True, metavar="SPAN", help="as 0..5000N, or 16MPa, which is from 0; or an image or a sheet that has it"
    )
    add_columns(distance)
    add_within(distance)

    compare = command(commands, "compare", "two recordings of a run, at ten and at sixty refreshes a second, against the chip")
    compare.add_argument("file", metavar="IMAGE", help="an image of 40, 128 or 512 bytes")
    compare.add_argument("ten", metavar="TEN", help="input and shown fraction, a line a refresh, as a logger writes them")
    compare.add_argument("sixty", metavar="SIXTY", help="the same at sixty a second")
    compare.add_argument("--make", metavar="INPUTS", help="write both recordings, as the chip would show these inputs")
    compare.add_argument("--force", action="store_true", help="with --make: replace TEN and SIXTY if they are there")

    command(commands, "chips", "the chips on a 1-Wire bus, through owserver")

    save = command(commands, "save", "a chip's bytes as they are, into a file")
    save.add_argument("file", metavar="ow:ID", help="a chip as chips lists it, or ow: for the only one")
    add_output(save)

    write = command(commands, "write", "an image onto a chip, so that one that is pulled on the way is refused")
    write.add_argument("file", metavar="FILE", help="an image of 128 or 512 bytes")
    write.add_argument("--to", required=True, metavar="ow:ID", help="the chip, as chips lists it")
    write.add_argument("--keep", metavar="OLD", help="the file for what is on the chip now (ID-old.kindN)")
    write.add_argument("--force", action="store_true", help="write over another sender's sheet")

    report = command(commands, "report", "one page in HTML, to be printed or kept")
    report.add_argument("file", metavar="FILE", help="an image of 40, 128 or 512 bytes")
    report.add_argument("certificate", metavar="CERT.csv", nargs="?", help="as certificate takes it")
    report.add_argument("--customer", metavar="NAME", help="whose sender it is, for the page")
    report.add_argument("--job", metavar="NAME", help="which job it is, for the page")
    add_columns(report)
    add_within(report)
    add_output(report)
    add_today(report)
    return top


class Made(argparse.Action):
    """Writes the version, or a text that is made from the same table as the help, and ends."""

    def __init__(self, **words):
        super().__init__(nargs=0, **words)

    def __call__(self, made, *_):
        manual = importlib.import_module(".manual", __package__)
        texts = {"man": manual.page, "completion": manual.completion, "version": lambda _: version.line() + "\n"}
        print(texts[self.dest](made), end="")
        made.exit()


def command(commands, name, about):
    description = about[:1].upper() + about[1:] + ". " + STATUS
    made = commands.add_parser(name, help=about, description=description, allow_abbrev=False)
    made.add_argument("-s", dest="server", metavar="HOST:PORT", help="where owserver is, for a chip ow:ID in place of a FILE")
    return made


def add_output(to, required=True, about="the file to write"):
    to.add_argument("-o", dest="output", metavar="NEW", required=required, help=about)
    to.add_argument("--force", action="store_true", help="replace NEW if it is there")


def add_trial(to):
    add_output(to, required=False)
    to.add_argument("--dry-run", action="store_true", help="show what would be stored, and write nothing")
    to.add_argument("--exact", action="store_true", help="write nothing where a figure is not stored as it is given")


def add_columns(to):
    to.add_argument("--point", metavar="COLUMN", help="the certificate's column of points, by its head")
    to.add_argument("--deviation", metavar="COLUMN", help="its column of deviations")
    to.add_argument("--error", metavar="COLUMN", help="its column of errors, which are deviations with the sign turned")


def add_json(to):
    to.add_argument("--json", action="store_true", help="as JSON, for a program (docs/JSON.md)")


def add_within(to):
    to.add_argument("--within", metavar="TOLERANCE", help="the most that is allowed, as 0.05%% of the span, or 2N")


def add_today(to):
    to.add_argument(
        "--today", metavar="DATE", default=datetime.date.today().isoformat(), help="the day to judge dates by (today)"
    )


def in_order(words):
    """Options last, wherever they stand. An input like -0.5mV/V is none: a blank before it says so."""
    options, others = [], []
    left = iter(words)
    for word in left:
        if re.match(r"-[0-9.]", word):
            others.append(" " + word)
        elif word.startswith("-") and word != "-":
            value = next(left, None) if word in VALUED else None
            joined = value is not None and word.startswith("--") and value.startswith("-")
            options += [f"{word}={value}"] if joined else [word, value]
        else:
            others.append(word)
    return others + [word for word in options if word is not None]


MODULES = {"set": "setting"}


def answer(words):
    given = parser().parse_args(in_order(words))
    if hasattr(given, "dry_run") and (given.output is not None) == given.dry_run:
        parser().error(f"{given.command} takes either -o NEW or --dry-run")
    module = importlib.import_module("." + MODULES.get(given.command, given.command), __package__)
    owserver.PLACE = given.server or "localhost"
    for output in outputs_of(given):
        files.must_be_no_input(output, inputs_of(given))
    with said_elsewhere(given):
        if getattr(given, "today", None):
            try:
                calls.code(18, given.today)
            except Refusal:
                raise misused(f"--today: '{given.today}' is no date like 2018-01-02") from None
        status = module.run(given)
    sys.stdout.flush()
    return status


def outputs_of(given):
    if getattr(given, "make", None) is not None:
        return [given.ten, given.sixty]
    return [getattr(given, "output", None)]


def inputs_of(given):
    """The files that a command reads and must not replace; `set --force` may replace its own image."""
    named = [given.file] if hasattr(given, "file") else list(getattr(given, "files", ()))
    named = [] if given.command == "set" and given.force else named
    return named + [name for name in (getattr(given, other, None) for other in ("sheet", "certificate", "make")) if name]


def said_elsewhere(given):
    """Where `-o -` has standard output, what is said goes to standard error."""
    if getattr(given, "output", None) != "-":
        return contextlib.nullcontext()
    files.standard = sys.stdout
    return contextlib.redirect_stdout(sys.stderr)


def main(words):
    """The status of a command. What goes wrong is said on standard error, on a line."""
    if sys.stderr is None:
        sys.stderr = open(os.devnull, "w", encoding="utf-8")
    if sys.stdout is None:
        return said("the answer cannot be written", UNREAD)
    for stream in (sys.stdout, sys.stderr):
        if hasattr(stream, "reconfigure"):
            stream.reconfigure(errors="backslashreplace")
    library.told = tell
    signal.signal(signal.SIGTERM, lambda *_: sys.exit(128 + signal.SIGTERM))
    try:
        return answer(words)
    except Trouble as trouble:
        return said(str(trouble), trouble.status)
    except Refusal as refusal:
        return said(headline(refusal), REFUSED)
    except library.NoLibrary as error:
        return said(str(error), UNREAD)
    except BrokenPipeError:
        # A reader that has seen enough, as head.
        drop_output()
        return ACCEPTED
    except OSError as error:
        return said(f"{error.filename or 'the answer cannot be written'}: {error.strerror}", UNREAD)
    except KeyboardInterrupt:
        return said("stopped", 128 + signal.SIGINT)
    except Exception as error:  # pylint: disable=broad-except
        return said(f"this should not happen, please report it: {type(error).__name__}: {error}", UNREAD)


def drop_output():
    """What Python has kept back of an answer that cannot be written is not tried once more at its end."""
    os.dup2(os.open(os.devnull, os.O_WRONLY), 1)


def said(text, status):
    try:
        sys.stdout.flush()
    except OSError:
        drop_output()
    except (ValueError, AttributeError):
        pass
    tell(text)
    return status


def tell(text):
    try:
        print(f"dartelm: {text}", file=sys.stderr)
    except OSError:
        pass
