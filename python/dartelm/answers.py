"""What is handed to a call and what it returns: the header's structs as dataclasses, without number and place."""
from __future__ import annotations

from dataclasses import dataclass, replace
from typing import Optional, Sequence, Tuple, Union

from .declared import Domain, Level, Template

#: A field's value: a whole number in the field's unit, a Single as a float, or None where it is missing.
Value = Union[int, float, None]


@dataclass(frozen=True)
class Fields:
    """A sheet's fields: field f is values[f - 1]. The level is the writer's, and is not stored."""

    values: Sequence[Value]
    end_bit: bool = False
    level: Level = Level.OWNER
    template_id: Template = Template.BRIDGE

    def with_value(self, field: int, value: Value) -> Fields:
        """These fields with another value of one of them."""
        if not 1 <= field <= len(self.values):
            raise IndexError(f"no field {field}")
        return replace(self, values=(*self.values[: field - 1], value, *self.values[field:]))


@dataclass(frozen=True)
class CheckAnswer:
    """What a check gives."""

    bits: int
    points: int
    characters: int
    end_bit: bool
    template_id: Template
    domain: Optional[Domain]
    segments: int
    terms: int


@dataclass(frozen=True)
class SheetAnswer:
    """What a check gives, and all fields."""

    bits: int
    points: int
    characters: int
    field_count: int
    fields: Fields
    domain: Optional[Domain]
    segments: int
    terms: int


@dataclass(frozen=True)
class PairAnswer:
    """A calibration point and its deviation, in billionths of the span."""

    point: int
    deviation: int


@dataclass(frozen=True)
class SegmentAnswer:
    """A segment of a curve: its start in billionths of the span, and how many terms it has."""

    start: int
    terms: int


@dataclass(frozen=True)
class TermAnswer:
    """A term of a curve: the exponent of the position in per cent of the span, and the coefficient in per cent of the span."""

    exponent: int
    coefficient: float


@dataclass(frozen=True)
class Curve:
    """A curve for a build: its segments, and the terms of one after the other."""

    segments: Sequence[SegmentAnswer]
    terms: Sequence[TermAnswer]


@dataclass(frozen=True)
class ProposalAnswer:
    """What a field would become: the code that it has, the code to be stored, and what that reads back."""

    present_code: int
    new_code: int
    value: Value


@dataclass(frozen=True)
class ReadingAnswer:
    """A reading: the fraction in billionths of the span, and the figure in the measurand's unit."""

    fraction: int
    figure: float


@dataclass(frozen=True)
class ComparedAnswer:
    """Whether two recordings agree; else the first fast tick that fails, from 0."""

    agrees: bool
    tick: int


@dataclass(frozen=True)
class DistanceAnswer:
    """The certificate distance of a list of points: K, and B in 2000ths of a billionth of the span."""

    slope: int
    bound: int


@dataclass(frozen=True)
class ConformityAnswer:
    """How far a reading of an image can be from a list of points: K, and B in 2000ths of a billionth of the span. Both are 0 where the
    sheet has no straight table to compare, but a curve or a table of domain 1."""

    slope: int
    bound: int
    is_straight: bool


@dataclass(frozen=True)
class RowAnswer:
    """The next row of an image that is written to a chip: nothing more is to be written, or the row's offset and its bytes."""

    is_done: bool
    offset: int
    bytes: bytes


#: Calibration points with their deviations, or inputs with the fractions shown, in their order.
Pairs = Sequence[Tuple[int, int]]
