"""Readings of a chip, and what stands beside them: the same reading without a correction, and figures at places of the span."""
import math
from fractions import Fraction

from .. import calls
from ..declared import Dash
from . import singles
from .fields import MISSING, is_single
from .image import Sheet, build
from .refusals import headline
from .rules import ends_rule, numbered
from .trouble import Refusal, tried
from .units import float_text, in_unit, rounded, uncounted

WHOLE_SPAN = 1_000_000_000
# How far outside the span a reading is taken, at either end.
OUTSIDE = WHOLE_SPAN // 10


def of(image, inputs, dash="large"):
    """For each input its reading, or its refusal."""
    return [tried(image.ask, calls.reading, one, Dash[dash.upper()]) for one in inputs]


class Ruler:
    """The straight line between two Singles, by proved readings. It is built with a span of 1 V/V, where an input of n nV/V is
    n billionths of the span."""

    def __init__(self, low, high):
        sheet = Sheet()
        values = [17, 0, 1, 0, 0, 0, low, high, 0, 0, WHOLE_SPAN, 0] + [MISSING] * 6 + [0] * 3
        sheet.values = dict(enumerate(values, 1))
        self.image = build(sheet)

    def figures(self, places):
        """The figure at each place, None where it is more than a tenth outside the span."""
        return [None if isinstance(got, Refusal) else got.figure for got in of(self.image, places)]

    def place(self, figure):
        return self.places([figure])[0]

    def places(self, figures):
        """For each figure the place whose own is nearest, found by halving, all of them a step at a time; None for one that is
        more than a tenth outside, or where there is no span."""
        first, last = self.figures((-OUTSIDE, WHOLE_SPAN + OUTSIDE))
        least, greatest = min(first, last), max(first, last)
        ends = {
            n: (-OUTSIDE, WHOLE_SPAN + OUTSIDE)
            for n, figure in enumerate(figures)
            if first != last and least <= figure <= greatest
        }
        for _ in range((WHOLE_SPAN + 2 * OUTSIDE).bit_length()):
            middles = {n: (low + high) // 2 for n, (low, high) in ends.items()}
            for (n, middle), found in zip(middles.items(), self.figures(middles.values())):
                low, high = ends[n]
                ends[n] = (middle, high) if (found <= figures[n]) == (first < last) else (low, middle)
        nearest = {n: self.nearer(figures[n], *pair) for n, pair in ends.items()}
        return [nearest.get(n) for n in range(len(figures))]

    def nearer(self, figure, low, high):
        below, above = (Fraction(found) for found in self.figures((low, high)))
        return low if abs(figure - below) <= abs(above - figure) else high


def physical_ruler(sheet):
    """None where an end is missing."""
    low, high = sheet.values[7], sheet.values[8]
    return None if MISSING in (low, high) else Ruler(low, high)


def electrical_ruler(sheet):
    """In ohms or nV/V, at full precision ohms or V/V."""
    ends = [sheet.values[10], sheet.values[11]]
    if MISSING in ends:
        return None
    return Ruler(*(end if is_single(end) else singles.nearest(uncounted(end, 0)) for end in ends))


def ends_of(sheet):
    """The electrical ends in nV/V, between which inputs are asked for. A reading says whether it can be taken there."""
    ends = [sheet.values[10], sheet.values[11]]
    if MISSING in ends:
        return None
    return tuple(math.floor(Fraction(end) * WHOLE_SPAN + Fraction(1, 2)) if is_single(end) else end for end in ends)


def evenly(ends, count):
    """So many inputs from end to end."""
    low, high = ends
    if count == 1:
        return [low]
    return [low + (high - low) * n // (count - 1) for n in range(count)]


class Taken:
    """A reading beside its input: the fraction and the figure, and what they are without a correction."""

    def __init__(self, given, reading, bare):
        self.input = given
        self.fraction, self.figure = reading.fraction, reading.figure
        self.position, self.straight = bare.fraction, bare.figure
        self.correction = self.fraction - self.position


def take(sheet, image, inputs, dash="large"):
    """A Taken for each input, or its refusal."""
    inputs = list(inputs)
    bare = build(sheet.bare())
    return [
        reading if isinstance(reading, Refusal) else Taken(given, reading, straight)
        for given, reading, straight in zip(inputs, of(image, inputs, dash), of(bare, inputs, dash))
    ]


def curve_corrections(taken):
    """Places on the span and what a curve adds there, in the sender's unit. Figures of readings are finite (docs/PROMISES.md)."""
    return [(one.position / WHOLE_SPAN, one.figure - one.straight) for one in taken]


def why_no_reading(sheet, image, dash="large"):
    """The refusal of a reading at the least electrical value; None where one is taken."""
    ends = ends_of(sheet)
    got = of(image, [ends[0] if ends and abs(ends[0]) < 1 << 62 else 0], dash)[0]
    return got if isinstance(got, Refusal) else None


def no_reading_text(sheet, refusal):
    """Why no reading is taken. 4 is a block that is not built here, or, of a reading, a resistance sender's."""
    if sheet.template == 32 and refusal.number == 4:
        return f"refused: 4 at bit {refusal.place}: no reading is taken from a resistance sender"
    if refusal.number in (13, 21):
        return numbered(refusal, f"no reading: {ends_rule(sheet, refusal)}")
    return headline(refusal)


def figure_text(figure, unit, prefix):
    return in_unit(float_text(figure), unit, prefix)


def curve_text(sheet, one, unit, prefix):
    """What a curve adds, to a billionth of the greater end's power of ten."""
    return in_unit(rounded(one.figure - one.straight, greater_end(sheet).adjusted() - 9), unit, prefix, True)


def greater_end(sheet):
    return max(abs(singles.digits(value)) for value in (sheet.values[7], sheet.values[8]))


def sheet_prefix(sheet, unit):
    """One prefix for all physical figures of a sheet, which suits its greater end. Without both ends there are no such figures."""
    return "" if MISSING in (sheet.values[7], sheet.values[8]) else unit.prefix_for(greater_end(sheet))
