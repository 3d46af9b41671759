"""A refusal in the words of what it is about: the field and its rule, the point and its range, the ends of the span."""
from . import singles, storing
from .fields import FIELDS, MISSING, is_single
from .refusals import PLACES
from .storing import Reference
from .trouble import Refusal
from .units import PERCENT, in_unit, uncounted

MOST_POINTS = 127
LARGEST_SINGLE = singles.as_float(singles.INFINITE - 1)


def numbered(refusal, said):
    """The number and the place, then the rule."""
    place = "field" if refusal.number in (9, 10) else PLACES.get(refusal.number, "place")
    return f"refused: {refusal.number} at {place} {refusal.place}: {said}"


def field_rule(by, field, value, text):
    """Why a value cannot stand in a field: it is missing, or out of range."""
    if value is MISSING:
        return f"{field.name} is missing, and has to have a value"
    least, greatest = field_range(by, field, value)
    return f"{field.name} is {field.given(text, by)}; it has to be {least} to {greatest}"


def field_range(by, field, value):
    """The least and the greatest figure that a field takes, by proposals on a plain chip."""
    if is_single(value):
        return tuple(field.shown(end, by) for end in (-LARGEST_SINGLE, LARGEST_SINGLE))
    reference = Reference(by.template, by.precision)

    def is_taken(count):
        return not isinstance(reference.propose(field.number, count), Refusal)

    return tuple(field.shown(end, by) for end in ends_of(reference.sheet.values[field.number], is_taken))


def ends_of(inside, is_taken):
    """How far whole numbers are taken below and above one that is, found by doubling and halving."""
    found = []
    for way in (-1, 1):
        end, step = inside, 1
        while step < 1 << 40 and is_taken(end + way * step):
            end, step = end + way * step, 2 * step
        while step:
            if is_taken(end + way * step):
                end += way * step
            step //= 2
        found.append(end)
    return found


def billionths_rule(stored, count):
    """Why a point or a deviation is out of range; None where it is not."""
    least, greatest = ends_of(0, lambda one: stored([one])[0] is not None)
    shown = in_unit(uncounted(count, -7), PERCENT)
    if count > greatest:
        return f"{shown} is more than a chip can hold ({in_unit(uncounted(greatest, -7), PERCENT)})"
    if count < least:
        return f"{shown} is less than a chip can hold ({in_unit(uncounted(least, -7), PERCENT)})"
    return None


def point_rule(point):
    """Why one of two figures of a point is out of range."""
    said = billionths_rule(storing.points, point[0])
    if said:
        return said
    said = billionths_rule(storing.deviations, point[1])
    return f"deviation {said}" if said else "out of range"


def points_rule(count):
    return f"{count} points; a chip takes {MOST_POINTS}"


def ends_rule(sheet, refusal):
    """Why no reading is taken: an end that is missing or outside, or ends that do not rise."""
    named = FIELDS[sheet.template][refusal.place - 1]
    value = sheet.values[refusal.place]
    if refusal.number == 21:
        return f"{named.name} is {named.shown(value, None)}; it has to be -2000 mV/V to 2000 mV/V"
    if value is MISSING:
        return f"{named.name} is missing"
    low, high = (FIELDS[33][n - 1].shown(sheet.values[n], None) for n in (10, 11))
    if low == high:
        return f"minimum and maximum electrical value are both {low}"
    return f"minimum electrical value, {low}, is not below the maximum, {high}"

