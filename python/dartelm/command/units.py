"""Units, their prefixes and decimal points. Decimals are exact here: a prefix moves the point and nothing else."""
import decimal
import math
import re
from fractions import Fraction

from .trouble import misused

EXACT = decimal.Context(prec=200)
PREFIXES = {"n": -9, "u": -6, "\u00b5": -6, "\u03bc": -6, "m": -3, "": 0, "k": 3, "M": 6}
NUMBER = re.compile(r"\s*([+-]?(?:[0-9]+\.?[0-9]*|\.[0-9]+)(?:[eE][+-]?[0-9]{1,2}(?![0-9]))?)\s*(.*?)\s*")
LONGEST = 40
FEW = 3


class Unit:
    """A unit's name, other spellings, the prefixes that are understood, and those that figures are shown with, from the least:
    the first that leaves a figure below `most`. Other units of the same quantity are understood by their exact factors."""

    def __init__(self, name, also=(), prefixes="", shown=("",), most=1000):
        self.name = name
        self.spellings = (name, *also)
        self.prefixes = prefixes
        self.shown = shown
        self.most = most
        self.others = {}

    def exponent(self, word):
        """The power of ten of a unit as it is written; None where it is another."""
        for prefix in ("", *self.prefixes):
            if any(word == prefix + spelling for spelling in self.spellings):
                return PREFIXES[prefix]
        return None

    def factor(self, word):
        """What a unit as it is written is in this one, exactly; None where it is another quantity's."""
        exponent = self.exponent(word)
        return self.others.get(word) if exponent is None else Fraction(10) ** exponent

    def named(self, prefix=""):
        return prefix + self.name

    def prefix_for(self, figure):
        for prefix in self.shown:
            if abs(shifted(figure, -PREFIXES[prefix])) < self.most:
                return prefix
        return self.shown[-1]

    def takes(self):
        """The spellings that are understood, for a message."""
        names = [self.name] + [prefix + self.name for prefix in self.prefixes if prefix.isascii()] + list(self.others)[:FEW]
        return names[0] if len(names) == 1 else ", ".join(names[:-1]) + " or " + names[-1]


RATIO = Unit("V/V", prefixes="mu\u00b5\u03bcn", shown=("m",))
OHM = Unit("ohm", also=("Ohm", "ohms", "\u03a9", "\u2126"), prefixes="mkM")
VOLT = Unit("V", also=("v",), prefixes="mk")
SECOND = Unit("s", also=("sec", "second", "seconds"), prefixes="mu\u00b5\u03bcn", shown=("u", "m", ""))
AMPERE = Unit("A", prefixes="mu\u00b5\u03bcn", shown=("u", "m", ""))
DAY = Unit("days", also=("day", "d"))
PERCENT = Unit("%", also=("percent", "per cent"))


def shifted(figure, places):
    return figure.scaleb(places, context=EXACT)


def plain(figure):
    """A decimal's digits, without noughts behind the last; a very small or large one with a power of ten."""
    if figure and not -9 <= figure.adjusted() <= 15:
        return format(figure.normalize(EXACT), "e")
    text = format(figure, "f")
    if "." in text:
        text = text.rstrip("0").rstrip(".")
    return text


def in_unit(figure, unit, prefix=None, sign=False):
    """A figure in a unit, with the prefix given or the one that suits it."""
    prefix = unit.prefix_for(figure) if prefix is None else prefix
    text = plain(shifted(figure, -PREFIXES[prefix]))
    return f"{signed(text) if sign else text} {unit.named(prefix)}"


def signed(text):
    return text if text.startswith("-") or text == "0" else "+" + text


def split(text):
    """A number and what stands behind it; None where no number begins."""
    found = NUMBER.fullmatch(text)
    if not found or len(text) > LONGEST:
        return None
    return EXACT.create_decimal(found.group(1)), found.group(2)


def figure_of(text, unit, what):
    """The decimal that a text like 350.5ohm gives, in the unit without a prefix."""
    parts = split(text)
    if parts is None:
        raise misused(f"{what}: '{text}' is no number in {unit.takes()}")
    number, word = parts
    if re.match(r",[0-9]", word):
        raise misused(
            f"{what}: '{text.strip()}' has a comma; write it with a decimal point, as {text.strip().replace(',', '.', 1)}"
        )
    if not word:
        example = plain(number) + unit.named(unit.shown[0])
        raise misused(f"{what}: '{text.strip()}' has no unit; write it in {unit.takes()}, as {example}")
    factor = unit.factor(word)
    if factor is None:
        raise misused(f"{what}: '{word}' is not understood here; write it in {unit.takes()}")
    exponent = unit.exponent(word)
    return times(number, factor) if exponent is None else shifted(number, exponent)


def times(number, factor):
    """A decimal times a factor: exact where the product has an end, else to 200 digits."""
    return EXACT.divide(EXACT.multiply(number, decimal.Decimal(factor.numerator)), decimal.Decimal(factor.denominator))


def counted(figure, exponent, unit, what):
    """A figure as a whole number of 10^exponent units. One between two of them is not rounded here."""
    count = shifted(figure, -exponent)
    whole = int(count)
    if count != whole:
        below = whole if count > 0 else whole - 1
        near = " or ".join(in_unit(shifted(decimal.Decimal(n), exponent), unit) for n in (below, below + 1))
        raise misused(f"{what}: {in_unit(figure, unit)} is finer than it counts; write {near}")
    if abs(whole) >= 1 << 63:
        raise misused(f"{what}: {in_unit(figure, unit)} is far outside what it counts")
    return whole


def nearest_count(figure, exponent, what):
    """The whole number of 10^exponent units that is nearest to a fraction, halves upward."""
    count = math.floor(figure / Fraction(10) ** exponent + Fraction(1, 2))
    if abs(count) >= 1 << 63:
        raise misused(f"{what}: far outside what it counts")
    return count


def uncounted(count, exponent):
    return shifted(decimal.Decimal(count), exponent)


def percent(billionths, sign=False):
    """Billionths of the span as per cent."""
    return in_unit(uncounted(billionths, -7), PERCENT, "", sign)


def many(count, word):
    return f"{count} {word}" if count == 1 else f"{count} {word}s"


def float_text(figure, digits=10):
    """A float's decimal digits, as a decimal."""
    return EXACT.create_decimal(format(figure, f".{digits}g"))


def rounded(figure, exponent):
    """A float to a power of ten, as a decimal; one that is far above it to some digits."""
    found = EXACT.create_decimal_from_float(figure)
    if found.adjusted() - exponent > LONGEST:
        return float_text(figure)
    return EXACT.plus(found.quantize(decimal.Decimal(1).scaleb(exponent), context=EXACT))
