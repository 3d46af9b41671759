"""The structs and calls of the header by ctypes, after the tables of declared.py."""
import ctypes
import functools
import operator

from .declared import CALLS, STRUCTS
from .library import library

INTEGERS = {
    "uint8_t": ctypes.c_uint8,
    "uint32_t": ctypes.c_uint32,
    "uint64_t": ctypes.c_uint64,
    "int64_t": ctypes.c_int64,
    "size_t": ctypes.c_size_t,
    "char": ctypes.c_uint8,
}
FLOATS = {"float": ctypes.c_float, "double": ctypes.c_double}

TYPES = {**INTEGERS, **FLOATS}
for _name, _members in STRUCTS.items():
    TYPES[_name] = type(
        _name,
        (ctypes.Structure,),
        {"_fields_": [(member, TYPES[sort] * length if length else TYPES[sort]) for member, sort, length in _members]},
    )

# Each call's parameters: name, type, and of an array its element's type.
PARAMETERS = {
    name: [
        (parameter, sort, sort.removeprefix("const ").removesuffix("[]") if sort.endswith("[]") else None)
        for parameter, sort in parameters
    ]
    for name, (_, parameters) in CALLS.items()
}


def whole(value, sort, what):
    """A whole number of a C type. ctypes would cut off what does not fit."""
    number = operator.index(value)
    bits = 8 * ctypes.sizeof(INTEGERS[sort])
    least = -(1 << (bits - 1)) if sort.startswith("int") else 0
    if not least <= number < least + (1 << bits):
        raise ValueError(f"{what}: {number} is not from {least} to {least + (1 << bits) - 1}")
    return number


def buffer(values, sort, what):
    """An array that is never NULL, and its length."""
    element = TYPES[sort]
    if isinstance(values, (bytes, bytearray, memoryview)):
        data = bytes(values)
        return (element * max(1, len(data))).from_buffer_copy(data or b"\0"), len(data)
    numbers = [whole(value, sort, what) for value in values]
    return (element * max(1, len(numbers)))(*numbers), len(numbers)


def call(name, **given):
    """Makes a call. Returns the struct or number that it returns, and what it wrote to, by parameter."""
    words, written = [], {}
    for parameter, sort, element in PARAMETERS[name]:
        value = given.pop(parameter)
        if element:
            array, length = buffer(value, element, parameter)
            words += (array, length)
            if not sort.startswith("const "):
                written[parameter] = array
        else:
            words.append(whole(value, sort, parameter) if sort in INTEGERS else value)
    if given:
        raise TypeError(f"{name} has no {', '.join(given)}")
    return function(name)(*words), written


@functools.lru_cache(maxsize=None)
def function(name):
    """A call of the library, with the types of its words."""
    found = getattr(library(), "dartelm_" + name)
    found.argtypes = []
    for _, sort, element in PARAMETERS[name]:
        found.argtypes += [ctypes.c_void_p, ctypes.c_size_t] if element else [TYPES[sort]]
    found.restype = TYPES[CALLS[name][0]]
    return found
