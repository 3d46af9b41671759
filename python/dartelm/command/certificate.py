"""certificate: a chip against its certificate's points, by the proved conformity."""
import math
from fractions import Fraction

from .. import calls
from ..answers import ReadingAnswer
from . import bounds, fields, objects, readings, tables
from .image import build, open_image
from .readings import WHOLE_SPAN
from .trouble import ACCEPTED, REFUSED, Refusal, Trouble, misused, refused
from .units import PERCENT, RATIO, Unit, figure_of, float_text, in_unit, many, nearest_count, percent, split, uncounted

FEW = 6
LARGEST = 2
OF_SPAN = Unit("%", also=(*PERCENT.spellings, tables.SPAN))
# A tenth of a per cent: what points allow a chip that is built from them is no measure above it.
MOST_ALLOWED = 1_000_000
MEANING = "AGREES says that the chip holds these points; whether the sender itself is within tolerance, the certificate says"
HEADS = ("point", "at", "input", "certificate", "chip", "difference", "of the span")


def run(given):
    image, sheet = open_image(given.file)
    beside = against(image, sheet, given.certificate, tables.asked_in(given), given.within)
    if given.json:
        objects.tell(objects.certificate(given.file, given.certificate, beside))
        return ACCEPTED if beside.agrees() else REFUSED
    print(f"{given.file} against {given.certificate}, {many(len(beside.points), 'point')}")
    for line in beside.told:
        print(line)
    for line in beside.lines():
        print(line)
    print(beside.verdict())
    if beside.agrees():
        print(beside.meaning())
    return ACCEPTED if beside.agrees() else REFUSED


def against(image, sheet, path, asked=tables.Asked(), within=None):
    """The chip beside the certificate in a file."""
    refusal = readings.why_no_reading(sheet, image)
    if refusal:
        raise refused(readings.no_reading_text(sheet, refusal))
    table = tables.read_table(path, asked)
    beside = beside_points(image, sheet, path, points_of(table, Scale(sheet)), within)
    beside.told = list(table.told())
    return beside


def beside_points(image, sheet, path, points, within=None):
    try:
        if sheet.domain == 1:
            return AgainstTwin(image, sheet, points, within)
        told = bounds.Beforehand(sheet, calls.distance(points).bound * bounds.SHARE)
        own = image.ask(calls.conformity, points)
    except Refusal as refusal:
        raise refused(f"{path}: {bounds.list_rule(points, refusal)}") from None
    if not own.is_straight:
        return AgainstCurve(image, sheet, points, within)
    return AgainstTable(image, sheet, points, within, bounds.Bound(sheet, own.bound * bounds.SHARE), told)


def points_of(table, scale):
    """Points and deviations in billionths of the span."""
    points = []
    for line, point, deviation in table.rows:
        try:
            points.append(scale.pair(point, deviation, table.turned))
        except Trouble as trouble:
            raise Trouble(f"{table.path}:{line}: {trouble}", trouble.status) from None
    return points


class Scale:
    """Figures of a certificate as billionths of the span: per cent by the point, physical figures by proved readings."""

    def __init__(self, sheet):
        self.unit = fields.around(sheet).unit()
        self.ruler = readings.physical_ruler(sheet)

    def pair(self, point, deviation, turned=False):
        at, figure = self.point(point)
        return at, self.deviation(deviation, at, figure, -1 if turned else 1)

    def point(self, text):
        if self.is_percent(text):
            return billionths(text, "point"), None
        figure = Fraction(figure_of(text, self.unit, "point"))
        return self.place(figure, text), figure

    def deviation(self, text, at, figure, sign):
        if self.is_percent(text) or figure is None and self.unit.factor((split(text) or (0, ""))[1]) is None:
            return billionths(text, "deviation", sign)
        if figure is None:
            raise misused("a deviation in the sender's unit needs a point in it")
        return self.place(figure + sign * Fraction(figure_of(text, self.unit, "deviation")), text) - at

    def is_percent(self, text):
        """Per cent of the span. A sender whose own unit is per cent has it unless the span is named."""
        return text.rstrip().endswith((tables.SPAN, *(PERCENT.spellings if self.unit.name != "%" else ())))

    def place(self, figure, text):
        if self.ruler is None:
            raise misused(f"'{text}' has no place: an end of the physical span is missing")
        found = self.ruler.place(figure)
        if found is None:
            raise misused(f"'{text}' is neither on the span nor within a tenth of it")
        return found


def billionths(text, what, sign=1):
    """Per cent of the span, to the nearest billionth of it."""
    return nearest_count(sign * Fraction(figure_of(text, OF_SPAN, what)), -7, what)


def line_at(points, x):
    """The certificate's line at x, exact: document 01, "Reading"."""
    if x <= points[0][0]:
        return x + points[0][1]
    for (a, s), (b, t) in zip(points, points[1:]):
        if x <= b:
            return x + s + Fraction(t - s) * (x - a) / (b - a)
    return x + points[-1][1]


class At:
    """The chip against the certificate at an input: q, what the certificate has there, and the difference, in billionths."""

    def __init__(self, name, place, given, reading, wanted):
        self.name = name
        self.place = place
        self.input = given
        self.fraction = reading.fraction
        self.figure = reading.figure
        self.wanted = wanted
        self.difference = reading.fraction - wanted


class Against:
    """A chip beside its certificate at the points of both, for a person to look at."""

    def __init__(self, image, sheet, points, within=None):
        self.tolerance = None if within is None else bounds.Tolerance(within)
        self.image, self.sheet, self.points = image, sheet, points
        self.unit = fields.around(sheet).unit()
        self.prefix = readings.sheet_prefix(sheet, self.unit)
        self.ruler = readings.physical_ruler(sheet)
        self.low, self.high = readings.ends_of(sheet)
        self.at = self.taken((str(number), place) for number, place in enumerate(self.places(points), 1))
        self.own = self.taken(("chip", place) for place in self.places(sheet.points))

    def places(self, points):
        """Where points stand on the electrical span."""
        return [point for point, _ in points]

    def taken(self, named):
        """Readings at the inputs that are nearest to places."""
        named = list(named)
        span = self.high - self.low
        inputs = [self.low + math.floor(Fraction(place * span, WHOLE_SPAN) + Fraction(1, 2)) for _, place in named]
        found = zip(named, inputs, self.fractions(inputs), self.wanted(inputs))
        return [
            At(*name, given, reading, wanted) for name, given, reading, wanted in found if not isinstance(reading, Refusal)
        ]

    def fractions(self, inputs):
        """What the chip shows at inputs: a reading, or a refusal."""
        return readings.of(self.image, inputs)

    def wanted(self, inputs):
        """What the certificate has at inputs, in billionths: its line, where a reading says that they lie."""
        span = self.high - self.low
        return [line_at(self.points, Fraction((given - self.low) * WHOLE_SPAN, span)) for given in inputs]

    def over(self, count):
        """Places from end to end of the span, and the differences there."""
        steps = [WHOLE_SPAN * n // (count - 1) for n in range(count)]
        return [(one.place / WHOLE_SPAN, float(one.difference)) for one in self.taken(("", place) for place in steps)]

    def all(self):
        return self.at + self.own

    def within(self, one):
        raise NotImplementedError

    def agrees(self):
        return all(self.within(one) for one in self.all())

    def distance(self):
        """The proved distance in whole billionths; None where there is none."""
        return None

    def bound(self):
        """How far any reading of this chip can be from the certificate, in whole billionths; None where that is not proved."""
        return None

    def meaning(self):
        return MEANING

    def no_tolerance(self):
        if self.tolerance:
            raise misused("--within is for a chip with a table against the electrical figure, or without one")

    def figure(self, place):
        found = self.ruler.figures([place])[0]
        return "" if found is None else readings.figure_text(found, self.unit, self.prefix)

    def physical(self, billionths, sign=True):
        """A difference in billionths in the sender's unit."""
        zero, far = self.ruler.figures((0, min(abs(billionths), WHOLE_SPAN)))
        figure = (far - zero) * (-1 if billionths < 0 else 1)
        return in_unit(float_text(figure if sign else abs(figure), 4), self.unit, self.prefix, sign)

    def lines(self):
        yield from self.heading()
        rows = [HEADS, *self.rows()]
        widths = [max(len(row[n]) for row in rows) for n in range(len(HEADS))]
        for row in rows:
            yield "  " + "  ".join(text.rjust(width) for text, width in zip(row, widths)).rstrip()

    def rows(self):
        """A row for each of the certificate's points, and for the worst of the chip's own that are too far off."""
        far = sorted((one for one in self.own if not self.within(one)), key=lambda one: -abs(one.difference))
        for one in sorted(self.at + far[:FEW], key=lambda one: one.place):
            difference = round(one.difference)
            yield (
                one.name,
                percent(one.place),
                in_unit(uncounted(one.input, -9), RATIO),
                self.figure(round(one.wanted)),
                readings.figure_text(one.figure, self.unit, self.prefix),
                self.physical(difference),
                percent(difference, True) + ("" if self.within(one) else " !"),
            )

    def worst(self):
        one = max(self.all(), key=lambda one: abs(one.difference))
        difference = round(one.difference)
        own = ", a point of the chip's own" if one.name == "chip" else ""
        return f"the worst is at {percent(one.place)}{own}: {percent(difference, True)}, {self.physical(difference)}"

    def beyond(self):
        """How many of each sort of points are too far off."""
        sorts = ((self.at, "the certificate's"), (self.own, "the chip's own"))
        counts = [(sum(not self.within(one) for one in some), whose, len(some)) for some, whose in sorts if some]
        return " and at ".join(f"{far} of {whose} {many(count, 'point')}" for far, whose, count in counts)


class AgainstTable(Against):
    """A chip that is read by a table against the electrical figure, or without one. How far any of its readings can be from the
    certificate is proved for every input (conformity), and so is what these points allow a chip that is built from them
    (distance)."""

    def __init__(self, image, sheet, points, within, own, told):
        super().__init__(image, sheet, points, within)
        self.own_bound = own
        self.told_bound = told

    def allowed(self):
        return self.told_bound.billionths if self.tolerance is None else self.told_bound.allowed(self.tolerance)

    def within(self, one):
        return abs(one.difference) <= self.allowed()

    def distance(self):
        return math.ceil(self.told_bound.billionths)

    def bound(self):
        return math.ceil(self.own_bound.billionths)

    def is_open(self):
        """Where two points are a hair apart a chip built from them may be off by any size: that is no measure."""
        return self.tolerance is None and self.told_bound.billionths > MOST_ALLOWED

    def agrees(self):
        if self.tolerance is not None:
            return self.own_bound.is_within(self.tolerance)
        return not self.is_open() and self.own_bound.billionths <= self.told_bound.billionths

    def heading(self):
        yield f"no reading of this chip, at any input, is further from the certificate than {self.own_bound.text()}"
        yield f"a chip built from these points could be off by {self.told_bound.text()}"

    def verdict(self):
        if self.is_open():
            return (
                f"NO VERDICT: a chip built from these points could be off by {self.told_bound.text()}, which is more than 0.1 %: "
                "two of them are a hair apart; --within TOLERANCE says what is allowed"
            )
        more = "what storing at the nearest step explains" if self.tolerance is None else self.tolerance.text
        if self.agrees():
            return f"AGREES: at every input within {more}; {self.worst()}"
        return f"DIFFERS: by up to {self.own_bound.text()}, more than {more}; {self.worst()}"


class AgainstTwin(Against):
    """A table against the physical figure has no proved distance: the chip is held against one that is made from the
    certificate. A point's figure is shown at point plus deviation."""

    def __init__(self, image, sheet, points, within=None):
        twin = sheet.bare()
        twin.domain, twin.points = sheet.domain, points
        self.twin = build(twin, LARGEST)
        super().__init__(image, sheet, points, within)
        self.no_tolerance()

    def places(self, points):
        return [point + deviation for point, deviation in points]

    def wanted(self, inputs):
        return [0 if isinstance(got, Refusal) else got.fraction for got in readings.of(self.twin, inputs)]

    def within(self, one):
        return one.difference == 0

    def heading(self):
        yield "a table against the physical figure: nothing is proved of every input; the chip is held against one made from these points"

    def verdict(self):
        if self.agrees():
            return "AGREES: at every point it shows what a chip made from the certificate shows"
        return f"DIFFERS: from a chip made from the certificate at {self.beyond()}; {self.worst()}"


class AgainstCurve(Against):
    """With a curve the fraction is the position: the figure tells where the chip is, the place that has it without a curve."""

    def __init__(self, *words):
        super().__init__(*words)
        self.no_tolerance()

    def fractions(self, inputs):
        found = super().fractions(inputs)
        places = self.ruler.places([Fraction(one.figure) for one in found if not isinstance(one, Refusal)])
        if None in places:
            raise refused("the chip's curve gives a figure more than a tenth outside the span")
        left = iter(places)
        return [one if isinstance(one, Refusal) else ReadingAnswer(next(left), one.figure) for one in found]

    def within(self, one):
        return True

    def agrees(self):
        return False

    def heading(self):
        yield "a curve: nothing is proved of its distance from points; what it shows is laid beside them"

    def verdict(self):
        return f"NO VERDICT: conformity is proved for tables of points, and the chip has a curve; {self.worst()}"
