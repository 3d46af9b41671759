"""What a value reads, and which locals are still read behind a statement."""
from . import mir


def derefs(place):
    return any(k == 'Deref' for k, _ in place.steps)


class Reads:
    """The locals that a value reads, whether it reads memory, and whether it calls. `reading` is false of a place whose address
    is taken or that is stored to: of these only the pointers on the way are read."""

    def __init__(self, fn, value, reading=True):
        self.locals, self.memory, self.calls = {}, False, 0
        self.fn = fn
        self.value(value, reading)

    def value(self, e, reading=True):
        if isinstance(e, (mir.Copy, mir.AddrOf)):
            self.place(e.place, reading and isinstance(e, mir.Copy))
        elif isinstance(e, mir.CallOf):
            self.calls += 1
        for x in mir.parts(e):
            self.value(x)

    def place(self, place, reading):
        steps = sum(k == 'Deref' for k, _ in place.steps)
        self.memory |= steps > 1 or (steps == 1 and reading)
        if isinstance(place.base, int):
            in_memory = self.fn.locals[place.base].in_memory and place.base not in self.fn.tables
            if reading or steps:
                self.memory |= in_memory
            self.locals[place.base] = self.locals.get(place.base, 0) + 1


def reads_of(fn, s):
    """Of a statement itself, not of the bodies inside it."""
    own = mir.own_values(s)
    all_ = Reads(fn, mir.Unit())
    for i, e in enumerate(own):
        one = Reads(fn, e, not (isinstance(s, mir.Assign) and i == 1))
        all_.memory |= one.memory
        all_.calls += one.calls
        for local, n in one.locals.items():
            all_.locals[local] = all_.locals.get(local, 0) + n
    return all_


def stored(s):
    """The local that a statement stores to as a whole."""
    if isinstance(s, mir.Assign) and s.place is not None and isinstance(s.place.base, int) and not s.place.steps:
        return s.place.base
    return None


def live(fn, body, after, levels=()):
    """The locals that are read before they are stored to, at the start of a body. Each statement gets `past`: those that are
    still read once its own values are evaluated, what it stores to left out, and `live_after`. A loop gets `top`: those at the
    start of a turn."""
    for s in reversed(body):
        s.live_after = after
        if isinstance(s, mir.Return):
            past = set()
        elif isinstance(s, mir.Exit):
            past = levels[-1 - s.level]
        elif isinstance(s, mir.Loop):
            past, s.top = set(), None
            while s.top != past:
                s.top = past
                past = live(fn, s.body, s.top, (*levels, s.top)) | s.top
        elif isinstance(s, mir.Block):
            past = live(fn, s.body, after, (*levels, after))
        elif mir.bodies(s):
            past = set()
            for inner in mir.bodies(s):
                past |= live(fn, inner, after, levels)
            if isinstance(s, mir.Switch) and s.default is None and not s.arms:
                past = after
        else:
            past = after - {stored(s)}
        s.past = past
        after = past | set(reads_of(fn, s).locals)
    return after
