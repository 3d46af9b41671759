"""How far readings can be from a certificate's line: the proved bounds in per cent of the span and in the sender's unit, rounded
upward."""
import math
from fractions import Fraction

from .. import calls
from . import fields, refusals, rules
from .fields import MISSING
from .trouble import Refusal, misused, refused
from .units import EXACT, PERCENT, figure_of, in_unit, split, uncounted

# A bound B is of B / 2000 billionths of the span.
SHARE = Fraction(1, 2000)
WHOLE_SPAN = 10**9
# The greatest fraction of a reading without a table or in domain 0: 1.1 of the span, and the greatest deviation.
FARTHEST = 1_100_000_000 + 1_097_150_000
DIGITS = 2


class Bound:
    """A distance in billionths of the span, as an exact fraction, beside the span of a sheet."""

    def __init__(self, sheet, billionths):
        self.billionths = billionths
        self.unit = fields.around(sheet).unit()
        ends = [sheet.values[7], sheet.values[8]]
        self.ends = None if MISSING in ends else [Fraction(end) for end in ends]

    def percent(self):
        return in_unit(upward(self.billionths / 10**7), PERCENT)

    def physical(self):
        """With the float's own part: 2^-53 of the least figure and of the span times 4 q + 1."""
        low, high = self.ends
        span = abs(high - low)
        own = (abs(low) + span * (4 * FARTHEST + 1) / WHOLE_SPAN) / 2**53
        return self.billionths / WHOLE_SPAN * span + own

    def text(self):
        """Per cent of the span, and the sender's unit where the span has both ends."""
        if self.ends is None:
            return f"{self.percent()} of the span"
        return f"{self.percent()} of the span, {in_unit(upward(self.physical()), self.unit)}"

    def is_within(self, tolerance):
        """A tolerance is per cent of the span, or a figure in the sender's unit."""
        if tolerance.unit_is_percent(self.unit):
            return self.billionths <= tolerance.figure(PERCENT) * 10**7
        if self.ends is None:
            raise misused("--within: the sheet has no physical span; give per cent of the span")
        return self.physical() <= tolerance.figure(self.unit)

    def allowed(self, tolerance):
        """A tolerance in billionths of the span."""
        if tolerance.unit_is_percent(self.unit):
            return tolerance.figure(PERCENT) * 10**7
        low, high = self.ends
        return tolerance.figure(self.unit) / abs(high - low) * WHOLE_SPAN if high != low else Fraction(0)


class Tolerance:
    """What `--within` says: 0.05% of the span, or 2N."""

    def __init__(self, text):
        self.text = text.strip()

    def unit_is_percent(self, unit):
        parts = split(self.text)
        return parts is not None and parts[1] in PERCENT.spellings and unit.name != "%"

    def figure(self, unit):
        found = Fraction(figure_of(self.text, unit, "--within"))
        if found < 0:
            raise misused(f"--within: '{self.text}' is below 0")
        return found


class Beforehand(Bound):
    """What a certificate's points allow a chip that is built from them, told before it is."""

    def line(self):
        return f"no reading of a chip built from these points is further from their line than {self.text()}"

    def is_within(self, tolerance):
        return super().is_within(Tolerance(tolerance))

    def verdict(self, tolerance):
        return f"{'WITHIN' if self.is_within(tolerance) else 'MORE THAN'} {tolerance.strip()}"


def told_beforehand(sheet, path, points):
    """The proved distance of points; a list that a build would refuse is refused."""
    try:
        bound = calls.distance(points).bound
    except Refusal as refusal:
        raise refused(f"{path}: {list_rule(points, refusal)}") from None
    return Beforehand(sheet, bound * SHARE)


def list_rule(points, refusal):
    """Why a list of points is refused. A refusal's place is the point's index from 0."""
    if refusal.number == 16:
        return rules.numbered(refusal, rules.points_rule(len(points)))
    if refusal.number == 10:
        said = rules.point_rule(points[refusal.place])
        return f"point {refusal.place + 1}: refused: 10 at place {refusal.place}: {said}"
    name = f"point {refusal.place + 1}: " if refusal.number in (7, 22) else ""
    return name + refusals.headline(refusal)


def upward(figure):
    """A fraction rounded upward to some digits, as a decimal."""
    if figure == 0:
        return EXACT.create_decimal(0)
    exponent = math.floor(math.log10(figure)) - DIGITS + 1
    count = math.ceil(figure / Fraction(10) ** exponent)
    return uncounted(count, exponent)
