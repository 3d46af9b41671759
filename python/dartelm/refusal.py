"""A refused call."""
from .declared import REFUSALS, Number


class Refusal(Exception):
    """A call is refused: its number, the number's name in the header without DARTELM_, and the place. docs/REFUSALS.md says what
    each number means and what its place is."""

    number: int
    name: str
    place: int

    def __init__(self, number: int, place: int) -> None:
        super().__init__(number, place)
        self.number = int(number)
        self.name = Number(number).name
        self.place = int(place)

    def __str__(self) -> str:
        return f"{self.name} ({self.number}), place {self.place}. {REFUSALS[self.number][0]}"
