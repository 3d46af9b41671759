"""The header's calls, by its names without dartelm_.

An image is bytes. Its kind follows from its length unless `kind` says otherwise. A call that writes returns the new image. A refused
call raises Refusal, and a number that the header's type does not hold ValueError.
"""
from __future__ import annotations

from typing import Optional, Union

from . import convert
from .answers import (
    CheckAnswer,
    ComparedAnswer,
    ConformityAnswer,
    Curve,
    DistanceAnswer,
    Fields,
    PairAnswer,
    Pairs,
    ProposalAnswer,
    ReadingAnswer,
    RowAnswer,
    SegmentAnswer,
    SheetAnswer,
    TermAnswer,
    Value,
)
from .declared import LONGEST_INDEX, NO_DOMAIN, NO_KIND, Domain
from .native import call
from .refusal import Refusal

Bytes = Union[bytes, bytearray, memoryview]

# The bytes of an image, by kind.
LENGTHS = {0: 40, 1: 128, 2: 512}


def _accepted(name, **given):
    """The answer of a call that is not refused, and what it wrote to."""
    answer, written = call(name, **given)
    if answer.number != 0:
        raise Refusal(answer.number, answer.place)
    return answer, written


def _of(name, image, kind, **given):
    """The answer of a call on an image."""
    return _accepted(name, kind=_kind(image, kind), image=image, **given)[0]


def _written(name, image, kind, **given):
    """The image as a call leaves it."""
    return bytes(_accepted(name, kind=_kind(image, kind), image=image, **given)[1]["image"])


def _kind(image, kind):
    return call("kind_of", bytes=len(image))[0] if kind is None else kind


def _by_turns(pairs):
    return [number for first, second in pairs for number in (first, second)]


def _characters(text):
    """The bytes of a text; a character that is not ASCII becomes 255, which every call refuses."""
    return text if isinstance(text, (bytes, bytearray)) else bytes(ord(c) if ord(c) < 128 else 255 for c in text)


def version() -> int:
    """The library's number, which rises when a call or a struct changes."""
    return call("version")[0]


def kind_of(length: int) -> Optional[int]:
    """The kind of the chip whose image has so many bytes; None if there is none."""
    kind = call("kind_of", bytes=length)[0]
    return None if kind == NO_KIND else kind


def check(image: Bytes, *, kind: Optional[int] = None) -> CheckAnswer:
    """Checks an image."""
    return convert.answer_of(CheckAnswer, _of("check", image, kind))


def field(image: Bytes, field: int, *, kind: Optional[int] = None) -> Value:
    """Reads one field."""
    return convert.value_of(_of("field", image, kind, field=field).value)


def index(image: Bytes, *, kind: Optional[int] = None) -> bytes:
    """Makes the index of an image, for `fetch`."""
    number = _kind(image, kind)
    _, written = _accepted("index", kind=number, image=image, buffer=bytes(LONGEST_INDEX))
    found = sheet(image, kind=number)
    return bytes(written["buffer"])[: 4 * (found.field_count + found.points)]


def fetch(image: Bytes, index: Bytes, field: int, *, kind: Optional[int] = None) -> Value:
    """Reads one field where an index says that it is."""
    return convert.value_of(_of("fetch", image, kind, index=index, field=field).value)


def sheet(image: Bytes, *, kind: Optional[int] = None) -> SheetAnswer:
    """Reads all fields with one check."""
    return convert.sheet_of(_of("sheet", image, kind))


def pair(image: Bytes, index: int, *, kind: Optional[int] = None) -> PairAnswer:
    """Reads a calibration point with its deviation, by index from 0."""
    return convert.answer_of(PairAnswer, _of("pair", image, kind, index=index))


def segment(image: Bytes, index: int, *, kind: Optional[int] = None) -> SegmentAnswer:
    """Reads a segment of a curve, by index from 0."""
    return convert.answer_of(SegmentAnswer, _of("segment", image, kind, index=index))


def term(image: Bytes, index: int, *, kind: Optional[int] = None) -> TermAnswer:
    """Reads a term of a curve, by index from 0 over all its segments."""
    return convert.answer_of(TermAnswer, _of("term", image, kind, index=index))


def character(image: Bytes, index: int, *, kind: Optional[int] = None) -> str:
    """Reads a character of the closing text, by index from 0."""
    return chr(_of("character", image, kind, index=index).character)


def build(
    kind: int,
    fields: Fields,
    text: Union[str, bytes] = "",
    points: Pairs = (),
    domain: Optional[Domain] = Domain.ELECTRICAL,
) -> bytes:
    """Builds an image. Points are calibration points with their deviations, in billionths of the span, and the domain is theirs: None
    may be handed in where there are none."""
    if domain is None and len(points) > 0:
        raise ValueError("domain: points need one")
    return _written(
        "build",
        bytes(LENGTHS.get(kind, 0)),
        kind,
        fields=convert.fields_struct(fields),
        text=_characters(text),
        domain=NO_DOMAIN if domain is None else domain,
        points=_by_turns(points),
    )


def build_curve(kind: int, fields: Fields, curve: Curve, text: Union[str, bytes] = "") -> bytes:
    """Builds an image with a curve in place of points."""
    return _written(
        "build_curve",
        bytes(LENGTHS.get(kind, 0)),
        kind,
        fields=convert.fields_struct(fields),
        text=_characters(text),
        curve=convert.curve_struct(curve),
    )


def change(image: Bytes, field: int, value: Value, level: int, *, kind: Optional[int] = None) -> bytes:
    """Changes one field, as a writer of a level."""
    return _written("change", image, kind, level=level, field=field, value=convert.value_struct(value))


def propose(image: Bytes, field: int, value: Value, level: int, *, kind: Optional[int] = None) -> ProposalAnswer:
    """Returns what a field would become by a change, and changes nothing."""
    answer = _of("propose", image, kind, level=level, field=field, value=convert.value_struct(value))
    return convert.answer_of(ProposalAnswer, answer)


def commit(
    image: Bytes, field: int, present_code: int, new_code: int, level: int, *, kind: Optional[int] = None
) -> bytes:
    """Stores a proposal's new code, if the field still has its present code."""
    return _written("commit", image, kind, level=level, field=field, present_code=present_code, new_code=new_code)


def reading(image: Bytes, input: int, dash: int, *, kind: Optional[int] = None) -> ReadingAnswer:
    """Takes a reading at an input in nV/V, on a dash."""
    return convert.answer_of(ReadingAnswer, _of("reading", image, kind, input=input, dash=dash))


def compare(image: Bytes, slow: Pairs, fast: Pairs, *, kind: Optional[int] = None) -> ComparedAnswer:
    """Compares a recording of ten refreshes a second with one of sixty, and both with the image. A recording has the input in nV/V
    and the fraction shown, refresh by refresh."""
    answer = _of("compare", image, kind, slow=_by_turns(slow), fast=_by_turns(fast))
    return convert.answer_of(ComparedAnswer, answer)


def distance(points: Pairs) -> DistanceAnswer:
    """Returns how far a reading can be from these calibration points, before a chip is written."""
    return convert.answer_of(DistanceAnswer, _accepted("distance", points=_by_turns(points))[0])


def conformity(image: Bytes, points: Pairs, *, kind: Optional[int] = None) -> ConformityAnswer:
    """Returns how far any reading of this image can be from the line through these points."""
    return convert.answer_of(ConformityAnswer, _of("conformity", image, kind, points=_by_turns(points)))


def next_row(present: Bytes, wanted: Bytes, *, kind: Optional[int] = None) -> RowAnswer:
    """Returns the next row to write to a chip that holds `present`, so that it comes to hold `wanted`."""
    answer = _accepted("next_row", kind=_kind(wanted, kind), present=present, wanted=wanted)[0]
    return convert.answer_of(RowAnswer, answer)


def text(field: int, code: int) -> str:
    """The text of a code of field 3, 18 or 19: a letter, a date, three letters."""
    answer = _accepted("text", field=field, code=code)[0]
    return bytes(answer.characters[: answer.length]).decode("ascii")


def code(field: int, text: Union[str, bytes]) -> int:
    """The code of a text of field 3, 18 or 19."""
    return _accepted("code", field=field, text=_characters(text))[0].code


def page(image: Bytes, page: int, *, kind: Optional[int] = None) -> bytes:
    """The 31 stream bytes of a page, from 0; none for a wrong kind, length or page. The image is not checked."""
    answer = call("page", kind=_kind(image, kind), image=image, page=page)[0]
    return bytes(answer.bytes[: answer.count])
