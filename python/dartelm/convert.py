"""Between the dataclasses of answers.py and the header's structs."""
from __future__ import annotations

import dataclasses
import operator

from . import answers
from .declared import CURVE_SEGMENTS, CURVE_TERMS, FIELDS, NO_DOMAIN, STRUCTS, Domain, Level, Template
from .native import FLOATS, INTEGERS, TYPES, whole


def to_struct(name, given):
    """A struct of the header: the members that it has of those given."""
    struct = TYPES[name]()
    for member, sort, _ in STRUCTS[name]:
        if member in given:
            setattr(struct, member, to_member(given[member], sort, member))
    return struct


def to_member(value, sort, what):
    if sort in INTEGERS:
        return whole(value, sort, what)
    return float(value) if sort in FLOATS else value


def value_struct(value):
    if value is None:
        return to_struct("value", {"is_missing": 1})
    if isinstance(value, float):
        return to_struct("value", {"single": value, "is_single": 1})
    return to_struct("value", {"whole": operator.index(value)})


def fields_struct(fields):
    if len(fields.values) > FIELDS:
        raise ValueError(f"values: {len(fields.values)} are more than {FIELDS}")
    values = [value_struct(value) for value in fields.values]
    return to_struct(
        "fields",
        {
            "values": (TYPES["value"] * FIELDS)(*values),
            "end_bit": int(fields.end_bit),
            "level": int(fields.level),
            "template_id": int(fields.template_id),
            "is_resistance": int(fields.template_id == Template.RESISTANCE),
        },
    )


def curve_struct(curve):
    """A curve with more segments or terms than there is room for has a count that is refused: what is behind it is left out."""
    segments = [to_struct("curve_segment", dataclasses.asdict(one)) for one in curve.segments[:CURVE_SEGMENTS]]
    terms = [to_struct("curve_term", dataclasses.asdict(one)) for one in curve.terms[:CURVE_TERMS]]
    return to_struct(
        "curve",
        {
            "count": len(curve.segments),
            "segments": (TYPES["curve_segment"] * CURVE_SEGMENTS)(*segments),
            "terms": (TYPES["curve_term"] * CURVE_TERMS)(*terms),
        },
    )


def value_of(struct):
    if struct.is_missing:
        return None
    return struct.single if struct.is_single else struct.whole


def template_of(struct):
    """A sheet's fields name their template by its number, or by a flag."""
    if hasattr(struct, "is_resistance"):
        return Template.RESISTANCE if struct.is_resistance else Template.BRIDGE
    return Template(struct.template_id)


def fields_of(struct, count):
    values = tuple(value_of(value) for value in struct.values[:count])
    return answers.Fields(values, bool(struct.end_bit), Level(struct.level), template_of(struct))


def sheet_of(struct):
    given = plain(answers.SheetAnswer, struct)
    return answers.SheetAnswer(**{**given, "fields": fields_of(struct.fields, struct.field_count)})


def answer_of(sort, struct):
    """The dataclass of a struct whose members are numbers, flags or a value."""
    return sort(**plain(sort, struct))


def plain(sort, struct):
    return {one.name: MEMBERS.get(one.name, lambda value: value)(getattr(struct, one.name)) for one in dataclasses.fields(sort)}


# What the members of some names become.
MEMBERS = {
    "end_bit": bool,
    "agrees": bool,
    "is_straight": bool,
    "is_done": bool,
    "bytes": bytes,
    "template_id": Template,
    "domain": lambda value: None if value == NO_DOMAIN else Domain(value),
    "value": value_of,
}
