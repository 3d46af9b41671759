"""What a chip stores for the figures that it is given: the nearest step, by proposals and builds of the proved calls."""
import math

from .. import calls
from ..declared import Level
from .image import build, plain_sheet
from .trouble import Refusal, refused, tried

OUT_OF_RANGE = 10
HEADS = ("field", "now", "given", "stored", "difference")


def nearer(below, above, count, geometric=False):
    """Whether the value above is the nearer one, by difference or by ratio; a tie goes upward."""
    if geometric:
        return count * count >= below * above
    return count - below >= above - count


def settled(count, stored, geometric=False):
    """The whole number that is handed in for a figure between two of them: the one whose stored value is nearer to the figure.
    One that is out of range puts the figure out of range. `stored` gives a list of stored values, None for a refused one."""
    below = math.floor(count)
    if count == below:
        return below
    kept = stored((below, below + 1))
    if None in kept:
        return below + kept.index(None)
    return below + 1 if kept[0] != kept[1] and nearer(*kept, count, geometric) else below


def out_of_range(answer):
    return isinstance(answer, Refusal) and answer.number == OUT_OF_RANGE


class Reference:
    """A plain chip of a template and precision, on which any field's figure can be proposed."""

    def __init__(self, template, precision):
        self.template = template
        self.sheet = plain_sheet(template, precision or 0)
        if isinstance(tried(build, self.sheet), Refusal):
            self.sheet = plain_sheet(template, 0)
        self.image = build(self.sheet)

    def propose(self, number, value):
        """What the field would become, or the refusal."""
        return tried(self.image.ask, calls.propose, number, value, Level.MAKER)

    def settled(self, number, count, geometric):
        def stored(wholes):
            return [self.stored(number, one) for one in wholes]

        return settled(count, stored, geometric)

    def stored(self, number, count):
        """None where it is out of range."""
        answer = self.propose(number, count)
        if isinstance(answer, Refusal) and not out_of_range(answer):
            raise answer
        return None if out_of_range(answer) else answer.value


def points(wholes):
    """What is stored for points, in billionths of the span; None for one that is out of range."""
    return [read_back({"domain": 0, "points": [(one, 0)]}, calls.pair, 0, "point") for one in wholes]


def deviations(wholes):
    return [read_back({"domain": 0, "points": [(0, one)]}, calls.pair, 0, "deviation") for one in wholes]


def starts(wholes):
    """Of segments. One that is stored as the first, 0, is refused beside it."""
    curves = [{"segments": [(0, 1), (one, 1)], "terms": [(0, 1.0)] * 2} for one in wholes]
    return [read_back(curve, calls.segment, 1, "start") for curve in curves]


def read_back(parts, call, index, member):
    """A figure of a plain chip that is built with these parts."""
    sheet = plain_sheet(33, 0)
    vars(sheet).update(parts)
    image = tried(build, sheet)
    if isinstance(image, Refusal):
        return None if out_of_range(image) else 0
    return getattr(image.ask(call, index), member)


class Row:
    """A figure as it is given and as it is stored. Where it is refused, why."""

    def __init__(self, name, now, given, stored, difference="", refused=None):
        self.cells = (name, now, given, stored, difference)
        self.refused = refused
        self.is_exact = refused is None and given_alone(given) == stored

    def told(self):
        name, _, given, stored, difference = self.cells
        return f"{name}: {given} is stored as {stored} ({difference})"


def exact_or_nothing(rows):
    """`--exact`: the command ends where a figure is not stored as it was given."""
    other = [row.told() for row in rows if not row.is_exact]
    if other:
        raise refused("nothing is written (--exact): " + "; ".join(other))


def given_alone(given):
    """Without the figure as it was written in another unit."""
    return given.rpartition(" = ")[2]


def table(rows, now=True):
    """Rows in columns; without what stands there now where nothing does."""
    shown = [HEADS] + [row.cells for row in rows]
    columns = [n for n in range(len(HEADS)) if now or n != 1]
    widths = {n: max(len(cells[n]) for cells in shown) for n in columns}
    for cells in shown:
        yield "  " + "  ".join(cells[n].ljust(widths[n]) for n in columns).rstrip()

