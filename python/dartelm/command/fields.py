"""The fields of a sheet: their names, and their values in words and units and back.

Names are the console's (docs/CONSOLE.md, `show`). A value is the package's: a whole number, a Single as a float, None for
missing.
"""
import difflib
import re
from fractions import Fraction

from .. import calls
from . import measurands, singles
from .storing import Reference
from .trouble import Refusal, misused
from .units import AMPERE, DAY, EXACT, OHM, RATIO, SECOND, VOLT, figure_of, in_unit, plain, split, uncounted

MISSING = None


def is_single(value):
    return isinstance(value, float)


class Around:
    """What a value goes by beside its own field: the template, the measurand's unit, the precision."""

    def __init__(self, template, measurand=None, precision=None):
        self.template = template
        self.measurand = measurand
        self.precision = precision
        self.references = {}

    def settled(self, number, count, geometric):
        """The whole number to hand in for a count that is none."""
        if self.precision not in self.references:
            self.references[self.precision] = Reference(self.template, self.precision)
        return self.references[self.precision].settled(number, count, geometric)

    def unit(self):
        if self.measurand is None or self.measurand >= len(measurands.CASES):
            raise misused(f"physical measurand: {self.measurand} has no unit; they are 0 to {len(measurands.CASES) - 1}")
        return measurands.unit_of(self.measurand)


def around(sheet):
    return Around(sheet.template, sheet.values[6], sheet.values[9])


class Number:
    """A number without a unit."""

    def shown(self, value, _):
        return str(value)

    def parsed(self, text, _, what):
        if not re.fullmatch(r"[0-9]{1,18}", text):
            raise misused(f"{what}: '{text}' is no whole number; it has no unit")
        return int(text)


class Text:
    """Letters or a date, which calls turn into a code and back by template 33's number."""

    def __init__(self, asked, example):
        self.asked = asked
        self.example = example

    def shown(self, value, by):
        return calls.text(self.asked, value)

    def parsed(self, text, by, what):
        try:
            return calls.code(self.asked, text)
        except Refusal:
            raise misused(f"{what}: '{text}' cannot stand there; write it as {self.example}") from None


class Letters(Text):
    """In a sheet that is written the blanks of initials need marks around them."""

    def shown(self, value, by):
        text = super().shown(value, by)
        return f'"{text}"' if text != text.strip() or not text else text

    def parsed(self, text, by, what):
        return super().parsed(text[1:-1] if len(text) > 1 and text[0] == text[-1] == '"' else text, by, what)


class Choice:
    """A numbered case. Its names go by the template."""

    def __init__(self, names):
        self.names = names

    def shown(self, value, by):
        names = self.cases(by)
        return f"{names[value]} ({value})" if value < len(names) else str(value)

    def cases(self, by):
        return self.names[by.template]

    def parsed(self, text, by, what):
        names = self.cases(by)
        word = re.fullmatch(r"(.*?)\s*\(([0-9]{1,3})\)", text)
        if word and self.code(word.group(1), by) == int(word.group(2)):
            return self.code(word.group(1), by)
        if re.fullmatch(r"[0-9]{1,3}", text):
            return int(text)
        code = self.code(text, by)
        if code is None:
            cases = ", ".join(f"{code} {name}" for code, name in enumerate(names))
            raise misused(f"{what}: '{text}' is none of {cases}")
        return code

    def code(self, text, by):
        names = [name.lower() for name in self.cases(by)]
        return names.index(text.lower()) if text.lower() in names else None


class Measurand(Choice):
    """What is measured, by its unit."""

    def __init__(self):
        super().__init__(None)

    def cases(self, _):
        return [f"{name}, {unit.name}" for name, unit in measurands.CASES]

    def code(self, text, by):
        code = measurands.code_of(text)
        return super().code(text, by) if code is None else code

    def parsed(self, text, by, what):
        """A quantity's name alone has the units of all its cases."""
        fit = [code for code, (name, _) in enumerate(measurands.CASES) if name.lower() == text.lower()]
        if len(fit) > 1:
            cases = [f"{code} ({measurands.unit_of(code).name})" for code in fit]
            raise misused(f"{what}: '{text}' fits {', '.join(cases[:-1])} and {cases[-1]}")
        return fit[0] if fit else super().parsed(text, by, what)


class Figure:
    """A value with a unit. What was given is shown to its last digit, which a Single may not have."""

    def unit_by(self, by):
        raise NotImplementedError

    def exact(self, text, by, what):
        """The decimal that was given, in the unit without a prefix."""
        return figure_of(text, self.unit_by(by), what)

    def decimal(self, value):
        """The decimal that a value is shown as."""
        return singles.digits(value)

    def given(self, text, by, what):
        unit = self.unit_by(by)
        shown = in_unit(self.exact(text, by, what), unit)
        number, word = split(text)
        return shown if unit.exponent(word) is not None else f"{plain(number)} {word} = {shown}"

    def difference(self, text, value, by, what):
        """What is stored minus what was given."""
        unit = self.unit_by(by)
        stored = self.decimal(value)
        return in_unit(EXACT.subtract(stored, self.exact(text, by, what)), unit, unit.prefix_for(stored), True)


class Quantity(Figure):
    """A whole number of 10^exponent units. Geometric: steps of a ratio."""

    def __init__(self, unit, exponent, geometric=False):
        self.unit = unit
        self.exponent = exponent
        self.geometric = geometric

    def unit_by(self, _):
        return self.unit

    def decimal(self, value):
        return super().decimal(value) if is_single(value) else uncounted(value, self.exponent)

    def shown(self, value, _):
        return in_unit(self.decimal(value), self.unit)

    def parsed(self, text, by, what):
        """A value; between two whole counts the count."""
        figure = figure_of(text, self.unit, what)
        count = Fraction(figure) / Fraction(10) ** self.exponent
        if abs(count) >= 1 << 62:
            raise misused(f"{what}: {in_unit(figure, self.unit)} is far outside what it counts")
        return count.numerator if count.denominator == 1 else count


class Electrical(Quantity):
    """An electrical end: a whole number, at full precision a Single."""

    def __init__(self, unit, exponent, full):
        super().__init__(unit, exponent)
        self.full = full

    def parsed(self, text, by, what):
        if by.precision == self.full:
            return singles.nearest(figure_of(text, self.unit, what))
        return super().parsed(text, by, what)


class Physical(Figure):
    """A Single in the measurand's unit."""

    def unit_by(self, by):
        return by.unit()

    def shown(self, value, by):
        return in_unit(singles.digits(value), by.unit())

    def parsed(self, text, by, what):
        return singles.nearest(figure_of(text, by.unit(), what))


class Field:
    def __init__(self, number, name, form):
        self.number = number
        self.name = name
        self.form = form

    def shown(self, value, by):
        return "missing" if value is MISSING else self.form.shown(value, by)

    def parsed(self, text, by, what=None):
        text = text.strip()
        value = MISSING if text == "missing" else self.form.parsed(text, by, what or self.name)
        return by.settled(self.number, value, self.form.geometric) if isinstance(value, Fraction) else value

    def given(self, text, by):
        """A text that is understood, as `shown` would have it."""
        if isinstance(self.form, Figure) and text.strip() != "missing":
            return self.form.given(text.strip(), by, self.name)
        return self.shown(self.parsed(text, by), by)

    def difference(self, text, value, by):
        """Of a figure what is stored minus what was given."""
        if not isinstance(self.form, Figure) or value is MISSING:
            return ""
        return self.form.difference(text.strip(), value, by, self.name)


PRECISION = Choice(
    {
        33: ("steps of 1 mV/V", "steps of 25 nV/V", "full precision"),
        32: ("steps of 10 ohm", "steps of 1000 ohm", "steps of 1 ohm", "full precision"),
    }
)
COMMON = (
    Field(1, "manufacturer ID", Number()),
    Field(2, "model number", Number()),
    Field(3, "version letter", Text(3, "one of A to Z")),
    Field(4, "version number", Number()),
    Field(5, "serial number", Number()),
    Field(6, "physical measurand", Measurand()),
    Field(7, "minimum physical value", Physical()),
    Field(8, "maximum physical value", Physical()),
    Field(9, "full-scale electrical value precision", PRECISION),
)


def calibration(first):
    """The fields that end both templates."""
    return (
        Field(first, "calibration date", Text(18, "2018-01-02, from 1998-01-01 to 2177-06-05")),
        Field(first + 1, "calibration initials", Letters(19, "three of A to Z, blank , . / _ @")),
        Field(first + 2, "calibration period", Quantity(DAY, 0)),
        Field(first + 3, "measurement location ID", Number()),
    )


FIELDS = {
    33: COMMON
    + (
        Field(10, "minimum electrical value", Electrical(RATIO, -9, 2)),
        Field(11, "maximum electrical value", Electrical(RATIO, -9, 2)),
        Field(12, "bridge type", Choice({33: ("quarter", "half", "full")})),
        Field(13, "bridge element impedance", Quantity(OHM, -1)),
        Field(14, "response time", Quantity(SECOND, -8, True)),
        Field(15, "excitation level, nominal", Quantity(VOLT, -1)),
        Field(16, "excitation level, minimum", Quantity(VOLT, -1)),
        Field(17, "excitation level, maximum", Quantity(VOLT, -1)),
    )
    + calibration(18),
    32: COMMON
    + (
        Field(10, "minimum electrical value", Electrical(OHM, 0, 3)),
        Field(11, "maximum electrical value", Electrical(OHM, 0, 3)),
        Field(12, "mapping method", Choice({32: ("linear", "inverse m/(x+b)", "inverse b+m/x", "inverse 1/(b+m/x)")})),
        Field(13, "response time", Quantity(SECOND, -8, True)),
        Field(14, "excitation current, nominal", Quantity(AMPERE, -10, True)),
        Field(15, "excitation current, maximum", Quantity(AMPERE, -10, True)),
    )
    + calibration(16),
}
# Fields by what they are, in both templates.
DATE, PERIOD = {33: 18, 32: 16}, {33: 20, 32: 18}

# Words that documents 01 and 02 have for the standard's.
SAME = {"least": "minimum", "greatest": "maximum", "maker": "manufacturer"}


def words_of(text):
    return [SAME.get(word, word) for word in re.sub(r"[\W_]+", " ", text.lower()).split()]


def field_named(template, text):
    """The field that a number or words fit: its name, or the beginnings of some of its words."""
    fields = FIELDS[template]
    if re.fullmatch(r"\s*[0-9]{1,4}\s*", text):
        for field in fields:
            if field.number == int(text):
                return field
        raise misused(f"there is no field {text.strip()} in template {template}: they are 1 to {len(fields)}")
    asked = words_of(text)
    fit = [field for field in fields if asked and words_of(field.name) == asked]
    fit = fit or [field for field in fields if asked and all(any(w.startswith(a) for w in words_of(field.name)) for a in asked)]
    if len(fit) == 1:
        return fit[0]
    if fit:
        raise misused(f"'{text}' fits " + " and ".join(f"'{field.name}' ({field.number})" for field in fit))
    near = difflib.get_close_matches(" ".join(asked), [field.name for field in fields], 1, 0.4)
    raise misused(f"there is no field '{text}' in template {template}" + (f"; did you mean '{near[0]}'?" if near else ""))
