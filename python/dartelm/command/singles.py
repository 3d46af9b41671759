"""The Single nearest to a decimal, and the decimal digits of a Single. A Single is a float that has its value."""
import decimal
import math
import struct
from fractions import Fraction

INFINITE = 0x7F800000


def as_float(bits):
    return struct.unpack(">f", bits.to_bytes(4, "big"))[0]


def nearest(figure):
    """The Single nearest to a decimal, of two the even one; past the last an infinite one, which a call refuses."""
    sign = -1.0 if figure.is_signed() else 1.0
    size = abs(figure)
    try:
        about = int.from_bytes(struct.pack(">f", float(size)), "big")
    except OverflowError:
        return sign * math.inf
    near = [bits for bits in (about - 1, about, about + 1) if 0 <= bits < INFINITE]
    exact = Fraction(size)
    return sign * as_float(min(near, key=lambda bits: (abs(Fraction(as_float(bits)) - exact), bits % 2)))


def digits(figure):
    """The shortest decimal that is stored as this Single."""
    for count in range(1, 10):
        text = decimal.Decimal(format(figure, f".{count}g"))
        if nearest(text) == figure:
            return text
    return decimal.Decimal(figure)
