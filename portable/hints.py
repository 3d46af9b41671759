"""What helps a compiler and changes nothing that runs: which functions are small, which numbers are stored byte by byte, and which
loops end where their counter meets its bound."""
from . import mir
from .live import derefs, stored
from .mir import Assign, Copy, Int, Loop, Op2

SMALL = 24    # statements of a small function
LARGEST = 360    # of one that is called in several places, with those of the small functions that it calls
MOST_TURNS = 32    # of a loop that is unrolled, or whose test is `!=`


# ---- small functions

class Small:
    """A function is small if it has few statements, and few still with those of the small functions that it calls. One that is
    called in one place may have a loop, and call what it likes. `lengths`: the statements of each."""

    def __init__(self, functions, lengths):
        self.functions, self.lengths, self.found = functions, lengths, {}
        self.called = {}
        for name in lengths:
            for callee in mir.callees(functions[name]):
                self.called[callee] = self.called.get(callee, 0) + 1

    def __contains__(self, name):
        return self.looked_up(name)[0]

    def looked_up(self, name):
        """(whether it is small, its statements with those of the small functions that it calls)"""
        if name not in self.found:
            fn = self.functions[name]
            inside = [self.looked_up(callee) for callee in mir.callees(fn)]
            whole = self.lengths[name] + sum(length for small, length in inside if small)
            loops = any(isinstance(s, Loop) for s in mir.statements(fn.body))
            once = self.called.get(name) == 1
            self.found[name] = (self.lengths[name] <= SMALL and (once or (whole <= LARGEST and not loops)), whole)
        return self.found[name]


# ---- numbers that are stored byte by byte

def stored_by_bytes(fn):
    """The parameters of 64 bits that are stored byte by byte: of each of bytes 1 to 7 there is a store through a pointer. A compiler
    that takes the number apart first no longer sees that the stores are one."""
    shifts = {}
    for s in mir.statements(fn.body):
        if isinstance(s, Assign) and s.place is not None and (derefs(s.place) or not isinstance(s.place.base, int)):
            for e in mir.values(s.value):
                if isinstance(e, Op2) and e.op == 'Shr' and isinstance(e.y, Int) and is_parameter(fn, e.x):
                    shifts.setdefault(e.x.place.base, set()).add(e.y.value)
    return [local for local, by in sorted(shifts.items()) if by >= set(range(8, 64, 8)) and fn.locals[local].type == ('Int', 64)]


def is_parameter(fn, e):
    return isinstance(e, Copy) and not e.place.steps and e.place.base in range(1, fn.params + 1)


# ---- loops whose counter meets its bound

def is_met(fn, loop, test):
    """Whether a counter that is less than its bound is one that is not equal to it: it starts from a value, the bound is the same
    value and a small number (a sum that fits, `op2_chk`), both are stored to once before the loop, and a turn adds 1 at most once."""
    if not (isinstance(test, Op2) and test.op == 'Lt' and test.sign == 'Unsigned' and all(is_local(fn, x) for x in (test.x, test.y))):
        return False
    counter, bound = test.x.place.base, test.y.place.base
    starts = stores_of(fn, counter)
    ends = stores_of(fn, bound)
    steps = [s for s in loop.body if stored(s) == counter]
    if len(ends) != 1 or len(starts) != 2 or len(steps) != 1:
        return False
    start = next(s for s in starts if s is not steps[0])
    end = ends[0].value
    return is_next(steps[0].value, counter) and isinstance(end, Op2) and end.op == 'Add' and end.sign == 'Unsigned' \
        and isinstance(end.y, Int) and 0 < end.y.value <= MOST_TURNS and alike(end.x, start.value) and is_fixed(fn, start.value) \
        and not any(s in (start, ends[0]) for s in mir.statements(loop.body))


def is_local(fn, e):
    return isinstance(e, Copy) and not e.place.steps and isinstance(e.place.base, int) and not fn.locals[e.place.base].in_memory \
        and e.place.base > fn.params


def stores_of(fn, local):
    return [s for s in mir.statements(fn.body) if isinstance(s, Assign) and s.place is not None and s.place.base == local]


def is_next(e, counter):
    return isinstance(e, Op2) and e.op == 'Add' and isinstance(e.x, Copy) and not e.x.place.steps and e.x.place.base == counter \
        and isinstance(e.y, Int) and e.y.value == 1


def is_fixed(fn, e):
    """Whether a value is made of numbers and of parameters that are not stored to."""
    if isinstance(e, Op2):
        return is_fixed(fn, e.x) and is_fixed(fn, e.y)
    return isinstance(e, Int) or (is_parameter(fn, e) and not fn.locals[e.place.base].in_memory and not stores_of(fn, e.place.base))


def alike(x, y):
    """Whether two values are written alike; of places those of a local as a whole."""
    if type(x) is not type(y):
        return False
    if isinstance(x, Copy):
        return not x.place.steps and not y.place.steps and isinstance(x.place.base, int) and x.place.base == y.place.base
    if isinstance(x, Int):
        return (x.width, x.value) == (y.width, y.value)
    return isinstance(x, Op2) and (x.op, x.sign) == (y.op, y.sign) and alike(x.x, y.x) and alike(x.y, y.y)
