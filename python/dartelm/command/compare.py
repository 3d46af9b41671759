"""compare: two recordings of one run, at ten and at sixty refreshes a second, against each other and against the chip."""
import csv
import io
import re
from fractions import Fraction

from .. import calls
from . import fields, files, readings, refusals
from .fields import MISSING
from .image import open_image
from .tables import unit_in
from .trouble import ACCEPTED, REFUSED, Refusal, Trouble, misused, refused
from .units import PERCENT, RATIO, figure_of, in_unit, many, percent, split, uncounted

FAST = 6
TIME = {"time", "t", "seconds", "clock"}
INPUT = {"input", "inputs", "signal", "electrical"}
SHOWN = {"fraction", "shown", "figure", "reading", "q", "display"}
PLAIN = ("billionths", "billionth", "ppb")
# Separates nothing: a line of words is the head of one column.
ONE_CELL = "\x1f"
HEADS = "time (s),input (nV/V),fraction (billionths)"


def run(given):
    image, sheet = open_image(given.file)
    if given.make is not None:
        return make(given, image)
    scale = Scale(sheet, fields.around(sheet).unit())
    slow, fast = (Recording(path, scale) for path in (given.ten, given.sixty))
    if len(fast.ticks) != FAST * len(slow.ticks):
        counts = f"{many(len(slow.ticks), 'tick')} at ten a second, {len(fast.ticks)} at sixty, which is not six times as many"
        raise refused(f"refused: 26 at ticks {len(fast.ticks)}: {counts}")
    failing = first_failing(image, slow, fast)
    if failing is None:
        print(f"AGREE: {many(len(slow.ticks), 'tick')} at ten a second, {len(fast.ticks)} at sixty; each shows its input's reading")
        return ACCEPTED
    for line in told(given, image, slow, fast, failing):
        print(line)
    return REFUSED


def first_failing(image, slow, fast):
    """The first fast tick that fails, by the proved call; None where the recordings agree."""
    found = image.ask(calls.compare, *([(tick.input, tick.shown) for tick in one.ticks] for one in (slow, fast)))
    return None if found.agrees else found.tick


def told(given, image, slow, fast, number):
    """The tick, its time, what each list has and what the chip's reading is."""
    tick = fast.ticks[number]
    at = f"time {tick.time}" if tick.time else f"{number / 60:.4f} s"
    yield f"DIFFER: the first tick that fails is {number} at sixty a second, {at}, {given.sixty}:{tick.line}"
    yield f"  at sixty: {tick.text()}"
    if number % FAST == 0:
        other = slow.ticks[number // FAST]
        yield f"  at ten:   {other.text()}, tick {number // FAST}, {given.ten}:{other.line}"
    (reading,) = readings.of(image, [tick.input])
    if isinstance(reading, Refusal):
        yield f"  reading:  {refusals.headline(reading)}"
    else:
        yield f"  reading:  {percent(reading.fraction)} ({reading.fraction} billionths) at {in_unit(uncounted(tick.input, -9), RATIO)}"


class Tick:
    """A refresh: where it stands, its time where there is one, the input in nV/V and the fraction in billionths."""

    def __init__(self, line, time, given, shown):
        self.line = line
        self.time = time
        self.input = given
        self.shown = shown

    def text(self):
        return f"input {in_unit(uncounted(self.input, -9), RATIO)}, shows {percent(self.shown)} ({self.shown} billionths)"


class Scale:
    """Figures in the sender's unit as billionths of the span, where they are whole."""

    def __init__(self, sheet, unit):
        self.unit = unit
        ends = [sheet.values[7], sheet.values[8]]
        self.ends = None if MISSING in ends else [Fraction(end) for end in ends]

    def billionths(self, text):
        """A fraction as it is written: billionths, per cent of the span, or the sender's unit."""
        number, word = split(text) or (None, "")
        if number is None:
            raise misused(f"'{text}' is no number")
        if word in ("", *PLAIN):
            exact = Fraction(number)
        elif word in PERCENT.spellings or word == "% of span":
            exact = Fraction(number) * 10**7
        elif self.ends and self.ends[0] != self.ends[1]:
            figure = Fraction(figure_of(text, self.unit, "the figure"))
            exact = (figure - self.ends[0]) / (self.ends[1] - self.ends[0]) * readings.WHOLE_SPAN
        else:
            raise misused(f"'{text}': the sheet has no physical span")
        return whole(exact, text, "billionths of the span")


def whole(exact, text, what):
    if exact.denominator != 1 or abs(exact) >= 1 << 63:
        raise misused(f"'{text}' is no whole number of {what}")
    return exact.numerator


def nanovolts(text):
    """An input: nV/V where nothing is said."""
    number, word = split(text) or (None, "")
    if number is None:
        raise misused(f"'{text}' is no number")
    exact = Fraction(figure_of(text, RATIO, "the input")) * 10**9 if word else Fraction(number)
    return whole(exact, text, "nV/V")


class Recording:
    """The ticks of a file: a line each, with heads or as two numbers, input and fraction."""

    def __init__(self, path, scale, shown=True):
        self.path = path
        self.ticks = []
        columns = None
        for line, row in rows(path):
            try:
                if columns is None and not split(row[-1]):
                    columns = heads(row, shown)
                    continue
                columns = columns or plain_columns(row, shown)
                self.ticks.append(self.tick(line, row, columns, scale))
            except Trouble as trouble:
                raise misused(f"{path}:{line}: {trouble}") from None

    def tick(self, line, row, columns, scale):
        if len(row) != columns.count:
            raise misused(f"{many(len(row), 'cell')}, where others have {columns.count}")
        given = nanovolts(columns.cell(row, "input"))
        shown = scale.billionths(columns.cell(row, "shown")) if "shown" in columns.places else None
        return Tick(line, columns.cell(row, "time") if "time" in columns.places else "", given, shown)


def rows(path):
    text = files.read_text(path)
    mark = next((mark for mark in ";\t," if mark in text), None)
    if mark is None:
        mark = " " if all(split(word) for word in text.split("\n", 1)[0].split()) else ONE_CELL
    reader = csv.reader(io.StringIO(text, newline=""), delimiter=mark, skipinitialspace=True)
    for row in reader:
        cells = [cell.strip() for cell in row]
        if any(cells) and not cells[0].startswith("#"):
            yield reader.line_num, [cell for cell in cells if cell or mark != " "]


class Columns:
    """Where the columns are, and the unit in each head."""

    def __init__(self, count, places):
        self.count = count
        self.places = places

    def cell(self, row, name):
        at, unit = self.places[name]
        return row[at] if not unit or re.search(r"[^\d.eE+\-\s]", row[at]) else f"{row[at]} {unit}"


def plain_columns(row, shown):
    wanted = ["input", "shown"] if shown else ["input"]
    if len(row) != len(wanted):
        raise misused(f"{many(len(row), 'cell')} without heads; a line has {' and '.join(wanted)}, or the columns have heads")
    return Columns(len(row), {name: (at, "") for at, name in enumerate(wanted)})


def heads(row, shown):
    found = {}
    for name, words in (("time", TIME), ("input", INPUT), ("shown", SHOWN)):
        fit = [at for at, head in enumerate(row) if words & set(re.findall("[a-z]+", head.lower()))]
        if len(fit) > 1:
            raise misused(f"{' and '.join(repr(row[at]) for at in fit)} may each be the {name}")
        if fit:
            found[name] = (fit[0], unit_in(row[fit[0]]) if name != "time" else "")
    for name in ("input", "shown") if shown else ("input",):
        if name not in found:
            raise misused("there are no columns like 'input (nV/V)' and 'fraction (billionths)'")
    return Columns(len(row), found)


def make(given, image):
    """Writes the recordings that both dashes would make of a list of inputs, one for each fast tick."""
    for path in (given.ten, given.sixty):
        files.must_be_new(path, given.force)
    inputs = [tick.input for tick in Recording(given.make, None, shown=False).ticks]
    if len(inputs) % FAST:
        raise misused(f"{given.make}: {many(len(inputs), 'input')}, which is no multiple of six")
    found = readings.of(image, inputs)
    for at, one in enumerate(found):
        if isinstance(one, Refusal):
            shown = in_unit(uncounted(inputs[at], -9), RATIO)
            raise refused(f"nothing is written: input {at + 1}, {shown}: {refusals.headline(one)}")
    ticks = [(at, one, got.fraction) for at, (one, got) in enumerate(zip(inputs, found))]
    for path, some in ((given.ten, ticks[::FAST]), (given.sixty, ticks)):
        text = "".join(f"{line}\n" for line in (HEADS, *(f"{at / 60:.4f},{one},{shown}" for at, one, shown in some)))
        files.write_new(path, text.encode("ascii"), given.force)
        print(f"{path}: written, {many(len(some), 'tick')}")
    return ACCEPTED

