"""read: readings of a chip, at inputs that are given or from end to end of the span."""
from . import fields, objects, readings, refusals
from .image import open_image
from .trouble import ACCEPTED, REFUSED, Refusal, misused, refused
from .units import RATIO, counted, figure_of, in_unit, percent, uncounted

MOST = 10000


def run(given):
    if given.table is not None and not 2 <= given.table <= MOST:
        raise misused(f"--table takes 2 to {MOST} inputs")
    if not given.inputs and given.table is None:
        raise misused("read takes an input like 1.0mV/V, or --table N")
    image, sheet = open_image(given.file)
    refusal = readings.why_no_reading(sheet, image, given.dash)
    if refusal:
        raise refused(f"{given.file}: {readings.no_reading_text(sheet, refusal)}")
    asked = [input_of(word) for word in given.inputs]
    if given.table is not None:
        asked += readings.evenly(readings.ends_of(sheet), given.table)
    taken = readings.take(sheet, image, asked, given.dash)
    if given.json:
        unit = fields.around(sheet).unit()
        found = [objects.reading(at, one, unit) for at, one in zip(asked, taken)]
        objects.tell({"file": given.file, "dash": given.dash, "readings": found})
        return REFUSED if any(one["refusal"] for one in found) else ACCEPTED
    print(f"{given.file}, {given.dash} dash")
    for line in table(list(cells_of(sheet, fields.around(sheet), asked, taken))):
        print(line)
    return REFUSED if any(isinstance(one, Refusal) for one in taken) else ACCEPTED


def input_of(text):
    return counted(figure_of(text.strip(), RATIO, "the input"), -9, RATIO, "the input")


def cells_of(sheet, by, asked, taken):
    """A row of cells for each reading. A table's correction is in per cent of the span, a curve's in the sender's unit."""
    unit = by.unit()
    prefix = readings.sheet_prefix(sheet, unit)
    yield "input", "figure", "of the span", "correction"
    for given, one in zip(asked, taken):
        shown = in_unit(uncounted(given, -9), RATIO)
        if isinstance(one, Refusal):
            yield shown, refusals.headline(one), "", ""
        elif sheet.curve():
            yield (
                shown,
                readings.figure_text(one.figure, unit, prefix),
                percent(one.fraction),
                readings.curve_text(sheet, one, unit, prefix),
            )
        else:
            yield shown, readings.figure_text(one.figure, unit, prefix), percent(one.fraction), percent(one.correction, True)


def table(rows):
    """Cells in columns, to the right; a refusal may be longer than its column."""
    widths = [max(len(row[n]) for row in rows if row[-1]) for n in range(len(rows[0]))]
    widths[0] = max(len(row[0]) for row in rows)
    for row in rows:
        yield "  " + "  ".join(cell.rjust(width) for cell, width in zip(row, widths)).rstrip()
