"""make: an image from the lines of a sheet."""
from . import bounds, certificate, fields, files, refusals, rules, sheets, singles, tables
from .fields import FIELDS
from .image import BYTES, STREAM_BITS, build, read_sheet, write_image, wrote
from .looks import look_lines
from .storing import Reference, Row, exact_or_nothing, table
from .trouble import ACCEPTED, Refusal, misused, refused
from .units import EXACT, PERCENT, in_unit, percent, plain, split, uncounted


def run(given):
    if given.output is not None:
        files.must_be_new(given.output, given.force)
    draft = sheets.parsed(given.sheet, files.read_text(given.sheet), given.kind)
    if given.certificate:
        from_certificate(draft, given)
    elif given.within is not None:
        raise misused("--within needs --certificate CERT.csv")
    try:
        image = made(draft)
    except Refused as why:
        if given.dry_run:
            tell(field_rows(draft))
        raise refused(f"nothing is written: {why}") from None
    rows = list(stored_rows(draft, read_sheet(image)))
    tell(rows)
    if given.exact:
        exact_or_nothing(rows)
    if given.dry_run:
        print("nothing is written (--dry-run)")
        return ACCEPTED
    stored = write_image(given.output, image, given.force)
    for line in look_lines(stored, given.today):
        print(line)
    print(f"{wrote(given.output)}, accepted: kind {stored.kind} ({BYTES[stored.kind]} bytes), {stored.bits} bits")
    return ACCEPTED


def from_certificate(draft, given):
    """The points of a certificate, for a table against the electrical figure, and how far readings can stray from them."""
    sheet = draft.sheet
    if sheet.points or sheet.curve():
        raise misused(f"{draft.name}: it has {'points' if sheet.points else 'a curve'} of its own; leave them out, or --certificate")
    table = tables.read_table(given.certificate, tables.asked_in(given))
    sheet.domain, sheet.points = 0, certificate.points_of(table, certificate.Scale(sheet))
    for index, ((line, *_), (point, deviation)) in enumerate(zip(table.rows, sheet.points)):
        draft.exact["point", index], draft.exact["deviation", index] = uncounted(point, -7), uncounted(deviation, -7)
        draft.elsewhere["point", index] = f"{table.path}:{line}"
    told = bounds.told_beforehand(sheet, given.certificate, sheet.points)
    for line in (*table.told(), told.line()):
        print(line)
    if given.within is not None and not told.is_within(given.within):
        raise refused(f"nothing is written: {told.verdict(given.within)}")


class Refused(Exception):
    """Why a sheet cannot be built, in words."""


def made(draft):
    try:
        return build(draft.sheet)
    except Refusal as refusal:
        raise Refused(reason(draft, refusal)) from None


def reason(draft, refusal):
    """The line that a build's refusal is about, and the rule. A place may be a field's number or a point's: without points it is
    a field's."""
    sheet = draft.sheet
    if refusal.number in (9, 10) and refused_alike(sheet.bare_with_text(), refusal):
        if refusal.place > len(FIELDS[sheet.template]):
            return f"{draft.at('text')}: {refusals.headline(refusal, 'character')}"
        field = FIELDS[sheet.template][refusal.place - 1]
        return f"{draft.at(refusal.place)}: {rules.numbered(refusal, said_of(draft, field))}"
    if refusal.number == 10 and sheet.points:
        said = rules.point_rule(sheet.points[refusal.place])
        return f"{draft.at(('point', refusal.place))}: refused: 10 at point {refusal.place}: {said}"
    if refusal.number in (7, 22) and sheet.points:
        return f"{draft.at(('point', refusal.place))}: {refusals.headline(refusal)}"
    if refusal.number == 16:
        return f"{draft.name}: {rules.numbered(refusal, rules.points_rule(len(sheet.points)))}"
    if refusal.number in (10, 24) and sheet.curve():
        return f"{draft.at(curve_line(draft, refusal))}: {refusals.headline(refusal)}"
    room = f"; kind {sheet.kind} has {STREAM_BITS[sheet.kind]}" if refusal.number == 11 else ""
    return f"{draft.name}: {refusals.headline(refusal)}{room}"


def said_of(draft, field):
    by = fields.around(draft.sheet)
    return rules.field_rule(by, field, draft.sheet.values[field.number], draft.texts[field.number])


def curve_line(draft, refusal):
    """A place may be a segment's index or a term's: with terms that are right it is a segment's."""
    alike = refused_alike(draft.sheet.with_plain_terms(), refusal)
    return "segment" if alike else "term", refusal.place


def refused_alike(sheet, refusal):
    try:
        build(sheet)
    except Refusal as other:
        return (other.number, other.place) == (refusal.number, refusal.place)
    return False


def tell(rows):
    for line in table(rows, now=False):
        print(line)


def field_rows(draft):
    """The fields of a sheet that is refused, each by a proposal of its own on a plain chip."""
    by = fields.around(draft.sheet)
    reference = Reference(draft.sheet.template, by.precision)
    rows = []
    for field in FIELDS[draft.sheet.template]:
        text, value = draft.texts[field.number], draft.sheet.values[field.number]
        answer = reference.propose(field.number, value)
        refused_here = isinstance(answer, Refusal)
        if refused_here and answer.number != 12:
            said = rules.field_rule(by, field, value, text)
            rows.append(Row(field.name, "", field.given(text, by), "refused", said.rpartition("; ")[2], refused=said))
            continue
        stored = value if refused_here else answer.value
        rows.append(Row(field.name, "", field.given(text, by), field.shown(stored, by), field.difference(text, stored, by)))
    return rows


def stored_rows(draft, stored):
    """A row for each field, point, segment and term."""
    by = fields.around(stored)
    for field in FIELDS[stored.template]:
        text, value = draft.texts[field.number], stored.values[field.number]
        yield Row(field.name, "", field.given(text, by), field.shown(value, by), field.difference(text, value, by))
    for index, (point, deviation) in enumerate(stored.points):
        yield pair_row(f"point {index}", [draft.exact["point", index], draft.exact["deviation", index]], [point, deviation])
    for index, (start, _) in enumerate(stored.segments):
        yield pair_row(f"segment {index}", [draft.exact["segment", index]], [start])
    for index, (_, text) in enumerate(draft.terms):
        given, kept = split(text.split(",")[1])[0], singles.digits(stored.terms[index][1])
        yield Row(f"term {index}", "", plain(given), plain(kept), plain(EXACT.subtract(kept, given)))


def pair_row(name, given, stored):
    """Figures in per cent of the span; the second is a deviation, with its sign."""
    kept = [uncounted(one, -7) for one in stored]
    return Row(
        name,
        "",
        ", ".join(in_unit(one, PERCENT, "", bool(n)) for n, one in enumerate(given)),
        ", ".join(percent(one, bool(n)) for n, one in enumerate(stored)),
        ", ".join(in_unit(EXACT.subtract(now, was), PERCENT, "", True) for was, now in zip(given, kept)),
    )

