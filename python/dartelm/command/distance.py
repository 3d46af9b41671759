"""distance: how far readings can stray from a certificate's line, before any chip is written."""
import math
import re

from . import bounds, certificate, fields, files, measurands, sheets, tables
from .fields import FIELDS
from .image import KINDS, Image, plain_sheet, read_sheet, refusal_of
from .refusals import headline
from .trouble import ACCEPTED, REFUSED, Trouble, misused, refused
from .units import LONGEST, many, split

SPAN = re.compile(r"\s*(?:(.+?)\s*\.\.\s*)?(.+?)\s*")


def run(given):
    table = tables.read_table(given.certificate, tables.asked_in(given))
    sheet, points = None, None
    problem = None
    for sheet in spans(given.span):
        try:
            points = certificate.points_of(table, certificate.Scale(sheet))
            break
        except Trouble as trouble:
            problem = problem or trouble
    if points is None:
        raise problem
    print(f"{given.certificate}, {many(len(points), 'point')}")
    for line in table.told():
        print(line)
    told = bounds.told_beforehand(sheet, given.certificate, points)
    print(told.line())
    if given.within is None:
        return ACCEPTED
    print(told.verdict(given.within))
    return ACCEPTED if told.is_within(given.within) else REFUSED


def spans(text):
    """Sheets that have the span: of a figure with a unit, of two, or of a file. A unit may be more than one quantity's."""
    found = [sheet for sheet in (sheet_for(code, text) for code in range(len(measurands.CASES))) if sheet]
    if found:
        return sorted(found, key=lambda sheet: not text.endswith(measurands.unit_of(sheet.values[6]).name))
    if len(text) <= LONGEST and re.match(r"[\s+\-.]*[0-9]", text) and not files.is_there(text):
        raise misused(f"--span: '{text}' is neither a file nor a span like 0..5000N or 16MPa")
    return [sheet_in(text)]


def sheet_for(code, text):
    """A sheet with the span in a measurand's unit; None where it is not in that unit."""
    low, high = SPAN.fullmatch(text).groups() if SPAN.fullmatch(text) else (None, "")
    unit = measurands.unit_of(code)
    greatest = split(high)
    if greatest is None or unit.factor(greatest[1]) is None:
        return None
    least = split(low) if low else (0, "")
    if least is None or least[1] and unit.factor(least[1]) is None:
        return None
    sheet = plain_sheet(33, 0)
    sheet.values[6] = code
    by = fields.Around(33, code, 0)
    first = (low if least[1] else f"{low} {greatest[1]}") if low else f"0 {greatest[1]}"
    sheet.values[7], sheet.values[8] = (FIELDS[33][6].parsed(end, by, "--span") for end in (first, high))
    if sheet.values[7] == sheet.values[8] or math.inf in (abs(sheet.values[7]), abs(sheet.values[8])):
        raise misused(f"--span: '{text}' is no span")
    return sheet


def sheet_in(path):
    """The sheet of an image, or of lines as export writes them."""
    data = files.read_bytes(path)
    if len(data) in KINDS:
        refusal = refusal_of(Image(data))
        if refusal:
            raise refused(f"{path}: {headline(refusal)}; 'dartelm why {path}' tells more")
        return read_sheet(Image(data))
    return sheets.parsed(path, files.read_text(path)).sheet

