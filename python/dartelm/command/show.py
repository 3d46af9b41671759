"""show: the sheet in plain words and units."""
from . import fields, objects, readings, refusals, singles
from .drawing import text_curve
from .fields import FIELDS, PERIOD
from .image import BYTES, STREAM_BITS, read_image, read_sheet
from .looks import due_date, look_lines
from .trouble import ACCEPTED, REFUSED, Refusal
from .units import OHM, float_text, in_unit, many, percent, plain

FEW = 12
SENDERS = {33: "a bridge sender", 32: "a resistance sender"}


def run(given):
    status = ACCEPTED
    images = [read_image(path) for path in given.files]
    if given.json:
        found = [one_object(path, image, given.today) for path, image in zip(given.files, images)]
        objects.tell(found)
        return ACCEPTED if all(one["accepted"] for one in found) else REFUSED
    for number, (path, image) in enumerate(zip(given.files, images)):
        if number:
            print()
        try:
            sheet = read_sheet(image)
        except Refusal as refusal:
            print(f"{path}: {refusals.headline(refusal)}")
            print(f"  'dartelm why {path}' tells more")
            status = REFUSED
            continue
        print("\n".join(lines_of(path, image, sheet, given)))
    return status


def one_object(path, image, today):
    try:
        return objects.sheet(path, image, read_sheet(image), today)
    except Refusal as refusal:
        return objects.refused(path, refusal)


def lines_of(path, image, sheet, given):
    by = fields.around(sheet)
    yield f"{path}: accepted, {summary(sheet)}"
    for number, name, value in rows(sheet, by):
        yield f"{number:>4}  {name:<39}{value}"
    yield from correction_lines(sheet, by, given.points)
    if given.curve:
        yield from curve_lines(sheet, image, by)
    yield from dash_lines(sheet, image)
    yield from look_lines(sheet, given.today)


def summary(sheet):
    return (
        f"kind {sheet.kind} ({BYTES[sheet.kind]} bytes), {sheet.bits} of {STREAM_BITS[sheet.kind]} bits; "
        f"template {sheet.template}, {SENDERS[sheet.template]}"
    )


def rows(sheet, by):
    """Number, name and value of each field, and of what stands behind them."""
    for field in FIELDS[sheet.template]:
        value = field.shown(sheet.values[field.number], by)
        if field.number == PERIOD[sheet.template]:
            due = due_date(sheet)
            value += f", due {due}" if due else ""
        yield str(field.number), field.name, value
    yield "", "closing text", "none" if sheet.text is None else quoted(sheet.text)


def quoted(text):
    """A closing text, with what does not print as \\x and two digits."""
    return '"' + "".join(chr(c) if 32 <= c < 127 and chr(c) not in '"\\' else f"\\x{c:02x}" for c in text) + '"'


def correction_lines(sheet, by, every):
    if sheet.curve():
        yield from segment_lines(sheet)
        return
    if not sheet.points:
        yield "no calibration points"
        return
    table = point_table(sheet, by)
    against = "physical" if sheet.domain else "electrical"
    points = many(len(sheet.points), "calibration point")
    yield f"{points} against the {against} figure (domain {sheet.domain}), deviations of the span"
    shown = range(len(sheet.points))
    if len(sheet.points) > FEW and not every:
        shown = (0, 1, 2, None, len(sheet.points) - 3, len(sheet.points) - 2, len(sheet.points) - 1)
    widths = [max(len(row[n]) for row in table) for n in range(4)]
    for index in shown:
        if index is None:
            yield f"      .. {len(sheet.points) - 6} more: --points shows them"
            continue
        place, figure, deviation, then = (cell.rjust(width) for cell, width in zip(table[index], widths))
        yield f"{index:>4}  {place}  {figure}  deviation {deviation}  {then}".rstrip()


def point_table(sheet, by):
    """For each point: per cent of the span, the figure there, the deviation, and what it comes to. In domain 0 the point is the
    input's and the chip shows another figure; in domain 1 it is the figure's, and shown at another input."""
    ohms = sheet.template == 32 and sheet.domain == 0
    unit = OHM if ohms else by.unit()
    ruler = readings.electrical_ruler(sheet) if ohms else readings.physical_ruler(sheet)
    prefix = "" if ohms else readings.sheet_prefix(sheet, unit)

    def figures(places):
        found = ruler.figures(places) if ruler else [None] * len(sheet.points)
        return ["" if figure is None else readings.figure_text(figure, unit, prefix) for figure in found]

    moved = [point + deviation for point, deviation in sheet.points]
    if sheet.domain == 1:
        then = [f"shown at {percent(place)}" for place in moved]
    elif ohms:
        then = [""] * len(moved)
    else:
        then = [f"shows {figure}" if figure else "" for figure in figures(moved)]
    return [
        (percent(point), figure, percent(deviation, True), last)
        for (point, deviation), figure, last in zip(sheet.points, figures(point for point, _ in sheet.points), then)
    ]


def segment_lines(sheet):
    segments, terms = many(len(sheet.segments), "segment"), many(len(sheet.terms), "term")
    yield f"a calibration curve of {segments} and {terms}, in per cent of the span"
    at = 0
    for index, (start, count) in enumerate(sheet.segments):
        yield f"{index:>4}  from {percent(start)}: " + ", ".join(term_text(*term) for term in sheet.terms[at : at + count])
        at += count


def term_text(exponent, coefficient):
    return f"{plain(singles.digits(coefficient))} x^{exponent}"


def curve_lines(sheet, image, by):
    """The correction over the span, by readings; of a resistance sender the points alone."""
    if not sheet.points and not sheet.curve():
        return
    if sheet.template == 32 and sheet.curve():
        yield "no curve is drawn: no reading is taken from a resistance sender"
        return
    if sheet.template == 32:
        yield "deviation at each point, of the span (no reading is taken from a resistance sender):"
        yield from text_curve([(point / readings.WHOLE_SPAN, deviation) for point, deviation in sheet.points], tenths)
        return
    refusal = readings.why_no_reading(sheet, image)
    if refusal:
        yield f"no curve: {readings.no_reading_text(sheet, refusal)}"
        return
    taken = readings.take(sheet, image, readings.evenly(readings.ends_of(sheet), 61))
    if sheet.curve():
        unit, prefix = by.unit(), readings.sheet_prefix(sheet, by.unit())
        yield f"correction over the span, in {unit.named(prefix)}:"
        yield from text_curve(readings.curve_corrections(taken), lambda y: in_unit(float_text(y, 4), unit, prefix, True))
        return
    yield "correction over the span:"
    yield from text_curve([(one.position / readings.WHOLE_SPAN, one.correction) for one in taken], tenths)


def tenths(billionths):
    return percent(billionths, True)


def dash_lines(sheet, image):
    if sheet.template == 32:
        yield "dashes: no reading is taken from a resistance sender"
        return
    refusal = readings.why_no_reading(sheet, image, "small")
    if refusal and refusal.number == 23:
        yield "dashes: large only (the small one takes 32 points)"
    elif refusal:
        yield f"dashes: none: {readings.no_reading_text(sheet, refusal)}"
    else:
        yield "dashes: large and small"
