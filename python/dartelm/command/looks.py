"""What is accepted and yet worth a look. None of it is a refusal."""
from .. import calls
from . import fields, readings, rules
from .fields import DATE, FIELDS, MISSING, PERIOD
from .image import build
from .trouble import Refusal
from .units import percent

# The number by which calls turn dates into text and back, whatever the template.
DATES = 18


def look_lines(sheet, today):
    return [f"look at: {line}" for line in looks(sheet, today)]


def looks(sheet, today):
    yield from dates(sheet, calls.code(DATES, today))
    yield from orders(sheet)
    yield from no_reading(sheet)
    yield from sums(sheet)


def due_code(sheet):
    date = sheet.values[DATE[sheet.template]]
    return None if date is MISSING else date + sheet.values[PERIOD[sheet.template]]


def due_date(sheet):
    """The day by which it is to be calibrated again, as text."""
    code = due_code(sheet)
    if code is None:
        return None
    try:
        return calls.text(DATES, code)
    except Refusal:
        return "after 2177-06-05"


def dates(sheet, now):
    date = sheet.values[DATE[sheet.template]]
    if date is MISSING:
        return
    if date > now:
        yield f"the calibration date is still to come: {calls.text(DATES, date)}"
    elif due_code(sheet) < now:
        yield f"calibration is overdue since {due_date(sheet)}"


def orders(sheet):
    """Values that stand in another order than their names say, and a physical span of nothing."""
    values = sheet.values
    for low, high, what in pairs(sheet):
        if MISSING not in (values[low], values[high]) and values[low] > values[high]:
            ends = f"{shown(sheet, low)} is above {shown(sheet, high)}"
            yield f"{what}: {ends} (fields {low} and {high})"
    if MISSING not in (values[7], values[8]) and values[7] == values[8]:
        yield f"minimum and maximum physical value are both {shown(sheet, 7)}: every reading shows it"
    if sheet.template == 33 and MISSING not in (values[15], values[16], values[17]):
        low, nominal, high = (values[n] for n in (16, 15, 17))
        if low <= high and not low <= nominal <= high:
            nominal, low, high = (shown(sheet, number) for number in (15, 16, 17))
            yield f"the nominal excitation, {nominal}, is not between {low} and {high}"


def no_reading(sheet):
    """An end that is missing or outside, or ends that do not rise. A resistance sender is read in ohms."""
    if sheet.template == 32:
        return
    refusal = readings.why_no_reading(sheet, build(sheet))
    if refusal and refusal.number in (13, 21):
        yield f"no reading is possible: {rules.ends_rule(sheet, refusal)}"


def sums(sheet):
    """A table against the electrical figure whose points plus deviations fall: the pointer drops back as the input rises."""
    if sheet.domain != 0:
        return
    moved = [point + deviation for point, deviation in sheet.points]
    falls = [n for n in range(1, len(moved)) if moved[n] < moved[n - 1]]
    if falls:
        first = falls[0]
        yield (
            f"the pointer drops back between calibration points {first - 1} and {first}: point plus deviation falls from "
            f"{percent(moved[first - 1])} to {percent(moved[first])}"
        )


def pairs(sheet):
    yield 7, 8, "least above greatest physical value"
    yield 10, 11, "least above greatest electrical value"
    if sheet.template == 33:
        yield 16, 17, "least above greatest excitation"
    else:
        yield 14, 15, "nominal above greatest excitation current"


def shown(sheet, number):
    return FIELDS[sheet.template][number - 1].shown(sheet.values[number], fields.around(sheet))
