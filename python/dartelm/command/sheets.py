"""A sheet as lines `name = value unit`, and back. docs/BENCH.md has the form."""
import re
from fractions import Fraction

from . import fields, singles, storing
from .fields import FIELDS, Around, field_named
from .image import BYTES, LAST_FIELD, Sheet
from .show import quoted
from .trouble import Trouble, misused
from .units import PERCENT, figure_of, percent, plain, split

DOMAINS = ("electrical", "physical")


def written(sheet):
    """The lines of a sheet."""
    by = fields.around(sheet)
    yield f"kind = {sheet.kind}"
    yield f"template = {sheet.template}"
    for field in FIELDS[sheet.template]:
        yield f"{field.name} = {field.shown(sheet.values[field.number], by)}"
    if sheet.domain is not None and sheet.points:
        yield f"domain = {DOMAINS[sheet.domain]}"
    for point, deviation in sheet.points:
        yield f"point = {percent(point)}, {percent(deviation, True)}"
    at = 0
    for start, count in sheet.segments:
        yield f"segment = {percent(start)}"
        for exponent, coefficient in sheet.terms[at : at + count]:
            yield f"term = {exponent}, {plain(singles.digits(coefficient))}"
        at += count
    if sheet.text is not None:
        yield f"text = {quoted(sheet.text)}"


class Draft:
    """A sheet that is read from lines, the line of each of its parts, and points and starts as they were given, in per cent."""

    def __init__(self, name):
        self.name = name
        self.sheet = Sheet()
        self.given = {}
        self.lines = {}
        self.texts = {}
        self.points = []
        self.segments = []
        self.terms = []
        self.exact = {}
        self.elsewhere = {}

    def wrong(self, line, text):
        return misused(f"{self.name}:{line}: {text}")

    def at(self, key):
        """Where a part stands, for a message: a point may come from a certificate."""
        if key in self.elsewhere:
            return self.elsewhere[key]
        return f"{self.name}:{self.lines[key]}" if key in self.lines else self.name


def parsed(name, text, kind=None):
    """The draft that lines give, for the kind that is asked for or the one that they name. Errors name the line."""
    draft = Draft(name)
    for number, line in enumerate(text.splitlines(), 1):
        if line.strip() and not line.lstrip().startswith("#"):
            put(draft, number, line)
    sheet = draft.sheet
    sheet.kind = numbered(draft, "kind", BYTES) if kind is None else kind
    sheet.template = numbered(draft, "template", LAST_FIELD)
    values(draft)
    table(draft)
    if "text" in draft.given:
        sheet.text = text_of(draft, draft.given["text"])
    return draft


def put(draft, number, line):
    name, equals, value = line.partition("=")
    name, value = " ".join(fields.words_of(name)), uncommented(value.strip())
    if not equals or not name:
        raise draft.wrong(number, f"'{line.strip()}' is no line 'name = value'")
    lists = {"point": draft.points, "segment": draft.segments, "term": draft.terms}
    if name in lists:
        draft.lines[name, len(lists[name])] = number
        lists[name].append((number, value))
        return
    if name in draft.given:
        raise draft.wrong(number, f"'{name}' stands in line {draft.lines[name]} already")
    draft.given[name] = value
    draft.lines[name] = number


def uncommented(value):
    """Without a comment behind it; between marks # is a letter like others."""
    found = re.fullmatch(r'("[^"]*")\s*#.*|(.*?)\s#[^"]*', value)
    return value if not found else found.group(1) or found.group(2).rstrip()


def numbered(draft, name, among):
    """The kind or the template."""
    if name not in draft.given:
        raise misused(f"{draft.name}: there is no line '{name} = ..', one of {', '.join(map(str, among))}")
    value = draft.given[name]
    if not value.isdigit() or int(value) not in among:
        raise draft.wrong(draft.lines[name], f"'{value}' is no {name}: {', '.join(map(str, among))}")
    return int(value)


def values(draft):
    """The fields, each by its line; those that set how others are understood go first."""
    template = draft.sheet.template
    found = {}
    for name, value in draft.given.items():
        if name in ("kind", "template", "domain", "text"):
            continue
        line = draft.lines[name]
        try:
            field = field_named(template, name)
        except Trouble as trouble:
            raise draft.wrong(line, str(trouble)) from None
        if field.number in found:
            raise draft.wrong(line, f"'{field.name}' stands in line {found[field.number][0]} already")
        found[field.number] = (line, value)
    for field in FIELDS[template]:
        if field.number not in found:
            raise misused(f"{draft.name}: there is no line '{field.name} = ..'")
        draft.lines[field.number], draft.texts[field.number] = found[field.number]
    by = Around(template)
    for number in (6, 9, *(n for n in found if n not in (6, 9))):
        draft.sheet.values[number] = value_of(draft, by, FIELDS[template][number - 1], *found[number])
        if number == 6:
            by.measurand = measurand(draft, found[6][0])
        if number == 9:
            by.precision = draft.sheet.values[9]


def measurand(draft, line):
    value = draft.sheet.values[6]
    if value is fields.MISSING or value >= len(fields.measurands.CASES):
        raise draft.wrong(line, "the physical measurand is one of 0 to 45")
    return value


def value_of(draft, by, field, line, text):
    try:
        return field.parsed(text, by)
    except Trouble as trouble:
        raise draft.wrong(line, str(trouble)) from None


def table(draft):
    """The points with their domain, or the curve."""
    sheet = draft.sheet
    if draft.points and draft.segments:
        raise draft.wrong(draft.segments[0][0], "a sheet has points or a curve, not both")
    if draft.points:
        domain = draft.given.get("domain")
        if domain not in DOMAINS:
            line = draft.lines.get("domain", draft.points[0][0])
            raise draft.wrong(line, "points need a line 'domain = electrical' or 'domain = physical'")
        sheet.domain = DOMAINS.index(domain)
    elif "domain" in draft.given:
        raise draft.wrong(draft.lines["domain"], "a domain without points")
    sheet.points = [point(draft, index, *row) for index, row in enumerate(draft.points)]
    owners = [max((n for n, (start, _) in enumerate(draft.segments) if start < line), default=None) for line, _ in draft.terms]
    if None in owners:
        raise draft.wrong(draft.terms[owners.index(None)][0], "a term before the first segment")
    starts = [storing.settled(billionths(draft, ("segment", n), *row), storing.starts) for n, row in enumerate(draft.segments)]
    sheet.segments = [(start, owners.count(n)) for n, start in enumerate(starts)]
    sheet.terms = [term(draft, line, *two(draft, line, value, "term")) for line, value in draft.terms]


def two(draft, line, text, what):
    parts = [part.strip() for part in text.split(",")]
    if len(parts) != 2:
        raise draft.wrong(line, f"a {what} has two parts with a comma between them")
    return parts


def point(draft, index, line, text):
    place, deviation = two(draft, line, text, "point")
    place = billionths(draft, ("point", index), line, place)
    deviation = billionths(draft, ("deviation", index), line, deviation)
    return storing.settled(place, storing.points), storing.settled(deviation, storing.deviations)


def billionths(draft, part, line, text):
    """A figure in per cent as billionths of the span, which need not be whole."""
    try:
        draft.exact[part] = figure_of(text, PERCENT, part[0])
    except Trouble as trouble:
        raise draft.wrong(line, str(trouble)) from None
    count = Fraction(draft.exact[part]) * 10**7
    if abs(count) >= 1 << 62:
        raise draft.wrong(line, f"{part[0]}: '{text}' is far outside the span")
    return count


def term(draft, line, exponent, coefficient):
    number = split(coefficient)
    if not re.fullmatch(r"-?[0-9]{1,3}", exponent) or number is None or number[1]:
        raise draft.wrong(line, "a term is an exponent and a coefficient, as 2, -0.015")
    return int(exponent), singles.nearest(number[0])


def text_of(draft, value):
    """A closing text between marks, in which \\x and two hexadecimal digits stand for a character."""
    line = draft.lines["text"]
    if len(value) < 2 or value[0] != '"' or value[-1] != '"':
        raise draft.wrong(line, 'the text stands between ", as text = "left drum"')
    inner = value[1:-1]
    bad = re.search(r'["]|\\(?!x[0-9a-f]{2})|[^\x01-\x7f]', inner)
    if bad:
        raise draft.wrong(
            line, f"'{bad.group()}' cannot stand in the text; \\x and two hexadecimal digits stand for a character"
        )
    return re.sub(r"\\x([0-9a-f]{2})", lambda found: chr(int(found.group(1), 16)), inner).encode("latin-1")
