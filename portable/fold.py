"""From MIR to statements that a reader follows: temporaries go where they are used, tables of constants stand once, and what is
only read is not copied. Nothing else is moved, and no call or store changes its order with another."""
from . import mir
from .inline import stores_nothing, without_dead, without_empty
from .live import Reads, derefs, live, reads_of, stored
from .mir import AddrOf, Aggregate, Assign, Block, Bool, CallOf, Copy, Exit, Float, If, Int, Loop, Op1, Op2, Place, Repeat, Return
from .mir import SliceOf, Switch, Tag, Unit

# A value of more parts than this stays a variable of its own.
LARGEST = 12

# What is so where a comparison of integers is not, and whether its operands change places.
OPPOSITE = {'Eq': ('Ne', False), 'Ne': ('Eq', False), 'Lt': ('Le', True), 'Le': ('Lt', True)}


def constant(e):
    return isinstance(e, (Int, Float, Bool, Tag))


# ---- what is only read

def pointers_only_read(fn, local):
    """Whether nothing is stored through the address of a local: it is lent as `&`, or goes by `offset` to places that are read."""
    todo, seen = [local], set()
    while todo:
        at = todo.pop()
        for s in mir.statements(fn.body):
            if isinstance(s, Assign) and s.place is not None and s.place.steps and s.place.base == at:
                return False
            for v in mir.own_values(s):
                for e in mir.values(v):
                    taken = isinstance(e, AddrOf) and e.place.base == at and (at == local) and not derefs(e.place)
                    handed = at != local and isinstance(e, Copy) and e.place.base == at and not e.place.steps
                    if not taken and not handed:
                        continue
                    to = stored(s)
                    if to is None or isinstance(s.value, CallOf):
                        return False
                    kind = fn.locals[to].type
                    if kind[0] == 'Ref' and not kind[1]:
                        continue
                    is_offset = isinstance(s.value, Op2) and s.value.op == 'Offset' and s.value.x is e
                    if kind != ('Ptr',) or not (s.value is e or is_offset):
                        return False
                    if to not in seen:
                        seen.add(to)
                        todo.append(to)
    return True


def is_idle(fn):
    """Whether a function gives `()` and does nothing else."""
    return bool(fn.body) and all(isinstance(s, Return) or (stored(s) == 0 and isinstance(s.value, Unit)) for s in fn.body)


def without_calls(body, names):
    body[:] = [s for s in body if not (isinstance(s, Assign) and isinstance(s.value, CallOf) and s.value.name in names)]
    for s in body:
        for inner in mir.bodies(s):
            without_calls(inner, names)


def stores_to(fn, local):
    return [s for s in mir.statements(fn.body)
            if isinstance(s, Assign) and s.place.base == local and not derefs(s.place)]


def known(fn, types, t, value):
    """What a value is that is made of numbers and truths alone, as a constant in memory is; else None."""
    if isinstance(value, Copy) and isinstance(value.place.base, int) and not value.place.steps and value.place.base > fn.params:
        home, stores = fn.locals[value.place.base], stores_to(fn, value.place.base)
        is_made = len(stores) == 1 and not stores[0].place.steps and not home.in_memory and value.place.base not in fn.statics
        return known(fn, types, t, stores[0].value) if is_made and isinstance(stores[0].value, Aggregate) else None
    if isinstance(value, (Int, Bool)):
        return value.value
    if not isinstance(value, Aggregate):
        return None
    if t[0] == 'Array':
        of = [t[1]] * len(value.xs)
    elif types.is_bare(t):
        return value.xs[0].value
    elif t[0] == 'Named' and types.shapes[t[1]][0] == 'Fields' and ('Unit',) not in types.shapes[t[1]][1]:
        of = types.shapes[t[1]][1]
    else:
        return None
    parts = tuple(known(fn, types, a, x) for a, x in zip(of, value.xs))
    return None if None in parts else parts


def only_read(fn, types, is_large):
    """A local in memory that is stored to once, from constants, becomes a table, as a constant in memory is; one that is stored to
    once, from a value that does not change, becomes that value."""
    fn.tables, fn.copies = dict(fn.statics), {}
    lent_once(fn)
    for local, home in enumerate(fn.locals):
        wanted = local > fn.params and local not in fn.statics and (home.in_memory or is_large(home.type) or local not in fn.named)
        stores = stores_to(fn, local) if wanted else []
        if len(stores) != 1 or stores[0].place.steps or not pointers_only_read(fn, local):
            continue
        value = stores[0].value
        made = known(fn, types, home.type, value) if home.type[0] == 'Array' and isinstance(value, Aggregate) else None
        if made is not None:
            fn.tables[local] = made
        elif isinstance(value, Copy) and isinstance(value.place.base, int) and not derefs(value.place) \
                and steady(fn, place := through(fn.copies, value.place)):
            fn.copies[local] = place
        else:
            continue
        remove(fn.body, stores[0])
    if fn.copies:
        each_place(fn.body, lambda p: through(fn.copies, p))


def lent_once(fn):
    """A reference that is stored to once, from the address of a constant in memory, becomes that address."""
    lent = {}
    for s in mir.statements(fn.body):
        to = stored(s)
        if to is not None and isinstance(s.value, AddrOf) and s.value.place.base in fn.statics and not fn.locals[to].in_memory \
                and len(stores_to(fn, to)) == 1:
            lent[to] = s
    for s in lent.values():
        remove(fn.body, s)

    def place(p):
        if p.base not in lent:
            return p
        of = lent[p.base].value
        is_whole = p.steps and p.steps[0] == ('Deref', fn.locals[of.place.base].type)
        return Place(of.place.base, p.steps[1:]) if is_whole else Place(AddrOf(of.place), p.steps)

    def leaf(e):
        return AddrOf(lent[e.place.base].value.place) if isinstance(e, Copy) and e.place.base in lent and not e.place.steps else None
    if lent:
        for s in mir.statements(fn.body):
            mir.replace_in(s, place, leaf)


def steady(fn, place):
    """Whether a place's local has one value as long as a copy of it is read: a parameter that is not stored to, or a local that is once,
    by a statement that runs before the one that copies it."""
    source = place.base
    stores = stores_to(fn, source)
    if fn.locals[source].in_memory:
        return False
    if source <= fn.params:
        return source > 0 and not stores
    return len(stores) == 1 and not stores[0].place.steps


def through(copies, p):
    while isinstance(p.base, int) and p.base in copies:
        p = Place(copies[p.base].base, copies[p.base].steps + p.steps)
    return p


def each_place(body, place):
    for s in mir.statements(body):
        mir.replace_in(s, place)


def remove(body, s):
    if s in body:
        body.remove(s)
        return
    for inner in body:
        for b in mir.bodies(inner):
            remove(b, s)


# ---- returns

def set_returns(fn):
    unit = fn.locals[0].type == ('Unit',)
    for s in mir.statements(fn.body):
        if isinstance(s, Return) and not unit:
            s.value = Copy(Place(0, ()))


def sink_returns(fn, body):
    """`if .. {t = a} else {t = b}; return t` returns from each branch."""
    for s in body:
        for inner in mir.bodies(s):
            sink_returns(fn, inner)
    while len(body) > 3 and isinstance(body[-1], Return) and stored(body[-2]) == 0 and is_copy_of(body[-2], stored(body[-3])) \
            and is_copy_of(body[-3], None) and not fn.locals[stored(body[-3])].in_memory:
        body[-3:-1] = [Assign(Place(0, ()), body[-3].value)]
    if len(body) < 3 or not isinstance(body[-1], Return) or not isinstance(body[-3], (If, Switch)):
        return
    last = body[-2]
    if stored(last) != 0 or not is_copy_of(last, None):
        return
    branches = mir.bodies(body[-3])
    if not any(b and stored(b[-1]) == last.value.place.base for b in branches) \
            and not any(b and isinstance(b[-1], (If, Switch)) for b in branches):
        return
    for b in branches:
        if not ends(b):
            b += [Assign(Place(0, ()), Copy(last.value.place)), Return(Copy(Place(0, ())))]
            sink_returns(fn, b)
    del body[-2:]


def is_copy_of(s, local):
    """Whether a statement stores a copy of a local, or where that is None of any local, as a whole."""
    if stored(s) is None or not isinstance(s.value, Copy) or s.value.place.steps or not isinstance(s.value.place.base, int):
        return False
    return local is None or s.value.place.base == local


def ends(body):
    """Whether nothing behind a body runs."""
    if not body:
        return False
    s = body[-1]
    if isinstance(s, (Return, Exit)):
        return True
    return isinstance(s, (If, Switch)) and all(ends(b) for b in mir.bodies(s))


# ---- switches that C has as `if`s

def arms_of(s):
    """The arms of a switch, the default last: a second one alone first where the first does nothing."""
    arms = s.arms + ([] if s.default is None else [((), s.default)])
    return [arms[1], ((), [])] if len(arms) == 2 and not arms[0][1] and arms[1][1] and arms[1][0] else arms


def is_chain(s):
    """Whether a switch is `if`s in C: it has two arms, or an arm leaves a loop."""
    return len(arms_of(s)) <= 2 or any(isinstance(x, Exit) for b in mir.bodies(s) for x in mir.statements(b))


def tests_of(s):
    """How often these `if`s name the value: once for each key of each arm but the last."""
    return sum(len(keys) for keys, _ in arms_of(s)[:-1])


# ---- temporaries

def size_of(e):
    """How many parts a value has; each element of an aggregate is stored by a statement of its own."""
    if isinstance(e, Aggregate):
        return max((size_of(x) for x in e.xs), default=0)
    return sum(1 for _ in mir.values(e)) - (len(e.args) // 2 if isinstance(e, CallOf) else 0)


class Folding:
    """A temporary is a local that the source does not name. Where it is stored to and then read once, in the same list of
    statements and with nothing in between that its value depends on, the value goes where it is read."""

    def __init__(self, fn, named, lent, types):
        self.fn, self.named, self.lent, self.types = fn, named, lent, types
        self.addressed = {e.place.base for s in mir.statements(fn.body) for v in mir.own_values(s) for e in mir.values(v)
                          if isinstance(e, AddrOf) and not derefs(e.place)}    # a value that is nowhere has no address

    def whole(self):
        live(self.fn, self.fn.body, set())
        self.fn.body = self.body(self.fn.body, set())

    def body(self, body, after_all):
        out, pending = [], {}
        for s in body:
            self.simplify(s)
            self.use(out, pending, s)
            for b in ('yes', 'no', 'body', 'default'):
                if isinstance(getattr(s, b, None), list):
                    setattr(s, b, self.body(getattr(s, b), s.past))
            if isinstance(s, Switch):
                s.arms = [(keys, self.body(b, s.past)) for keys, b in s.arms]
            self.keep(out, pending, s)
        for t in list(pending):
            self.flush(out, pending, t)
        return out

    # a statement that reads what is pending
    def use(self, out, pending, s):
        reads = reads_of(self.fn, s)
        if isinstance(s, (Block, Loop)):
            for t in list(pending):
                self.flush(out, pending, t)
            return
        for t in list(pending):
            if t not in reads.locals:
                continue
            if reads.locals[t] == 1 and t not in s.past and self.fits(s, t, pending[t]):
                self.put(s, t, pending.pop(t))
                self.simplify(s)
            else:
                self.flush(out, pending, t)
        reads = reads_of(self.fn, s)
        acts = reads.calls > 0 or self.stores_memory(s)
        for t in list(pending):
            of = Reads(self.fn, pending[t])
            if mir.bodies(s) or stored(s) in of.locals or stored(s) == t or (acts and (of.memory or of.calls)) \
                    or (of.calls and reads.memory) or isinstance(s, (Exit, Return)):
                self.flush(out, pending, t)

    def stores_memory(self, s):
        return isinstance(s, Assign) and s.place is not None and (
            derefs(s.place) or not isinstance(s.place.base, int) or self.fn.locals[s.place.base].in_memory)

    # a statement that stores to a temporary waits for its reader
    def keep(self, out, pending, s):
        t = stored(s)
        nothing = stores_nothing(self.fn, self.types, s)
        if t is None and not nothing:
            out.append(s)
            return
        if nothing or (t not in s.live_after and not self.fn.locals[t].in_memory):
            if isinstance(s.value, CallOf) or Reads(self.fn, s.value).calls:
                s.place = None
                out.append(s)
            return
        foldable = not self.fn.locals[t].in_memory and t not in self.named and t not in self.addressed and (t == 0 or t > self.fn.params) \
            and not isinstance(s.value, Repeat) and not (isinstance(s.value, Aggregate) and t == 0)
        if not foldable:
            out.append(s)
            return
        pending[t] = s.value

    def flush(self, out, pending, t):
        s = Assign(Place(t, ()), pending.pop(t))
        s.past = set()
        out.append(s)

    def fits(self, s, t, value):
        """Whether a value may stand where its temporary is read: not where C would leave open what comes first, not where an
        address is wanted of what has none, and not where it would grow too large."""
        if isinstance(value, Aggregate):
            return isinstance(s, Assign) and is_part(s.value, t) and not any(e.calls for e in [Reads(self.fn, s.value), Reads(self.fn, value)])
        if isinstance(s, Switch) and is_chain(s) and tests_of(s) > 1 and Reads(self.fn, value).calls:
            return False
        own = [replaced_local(e, t, value) for e in mir.own_values(s)]
        if isinstance(s, Assign) and len(own) == 2 and Reads(self.fn, own[1], False).calls:
            return False
        if isinstance(value, SliceOf) and any(reads_field(e, t) for e in mir.own_values(s)):
            return False
        if any(size_of(e) > LARGEST for e in own) and not constant(value):
            return False
        return all(self.ordered(e) and self.lendable(e) for e in own)

    def ordered(self, e):
        parts = mir.parts(e)
        reads = [Reads(self.fn, x) for x in parts]
        for i, one in enumerate(reads):
            if one.calls and any(other.calls or other.memory for j, other in enumerate(reads) if j != i):
                return False
        return all(self.ordered(x) for x in parts)

    def lendable(self, e):
        for call in mir.values(e):
            if isinstance(call, CallOf):
                for i, x in enumerate(call.args, 1):
                    if i in self.lent(call.name) and not (isinstance(x, Copy) and isinstance(x.place.base, int)):
                        return False
        return True

    def put(self, s, t, value):
        def leaf(e):
            return value if isinstance(e, Copy) and e.place.base == t and not e.place.steps else None

        def place(p):
            if p.base != t:
                return p
            if isinstance(value, Copy):
                return Place(value.place.base, value.place.steps + p.steps)
            return Place(value, p.steps)
        mir.replace_in(s, place, leaf)

    def simplify(self, s):
        for name in ('value', 'test'):
            e = getattr(s, name, None)
            if e is not None:
                setattr(s, name, self.simple(e))
        if isinstance(s, Assign) and isinstance(s.value, Aggregate) and s.place is not None:
            kind = self.kind_of_place(s.place)
            if kind and kind[0] == 'Slice':
                s.value = self.simple(SliceOf(kind[1], *s.value.xs))
            elif kind and kind[0] == 'Named' and self.types.is_bare(kind):
                s.value = Tag(kind, s.value.xs[0].value)

    def kind_of_place(self, p):
        return self.fn.locals[p.base].type if isinstance(p.base, int) and not p.steps else None

    def simple(self, e):
        """`&*p` is p, and the slice of a slice's own address and length is that slice."""
        if isinstance(e, AddrOf) and e.place.steps and e.place.steps[-1][0] == 'Deref':
            rest = e.place.steps[:-1]
            return e.place.base if not rest and not isinstance(e.place.base, int) else Copy(Place(e.place.base, rest))
        if isinstance(e, Op1) and e.op == 'Not' and isinstance(e.x, Op2) and e.x.op in OPPOSITE:
            op, turned = OPPOSITE[e.x.op]
            return Op2(op, e.x.sign, e.x.y, e.x.x) if turned else Op2(op, e.x.sign, e.x.x, e.x.y)
        if isinstance(e, SliceOf):
            e = SliceOf(e.element, self.simple(e.pointer), e.length)
            p, n = e.pointer, e.length
            if isinstance(p, Copy) and isinstance(n, Copy) and isinstance(p.place.base, int) and p.place.base == n.place.base \
                    and p.place.steps[-1:] == (('Field', 0),) and n.place.steps == p.place.steps[:-1] + (('Field', 1),):
                return Copy(Place(p.place.base, p.place.steps[:-1]))
        return e


def is_part(e, t):
    """Whether an aggregate has a local as one of its parts, or such an aggregate."""
    return isinstance(e, Aggregate) and any(
        is_part(x, t) or (isinstance(x, Copy) and x.place.base == t and not x.place.steps) for x in e.xs)


def reads_field(e, t):
    return any(isinstance(x, (Copy, AddrOf)) and x.place.base == t and x.place.steps for x in mir.values(e))


def replaced_local(e, t, value):
    def place(p):
        if p.base != t:
            return p
        if isinstance(value, Copy):
            return Place(value.place.base, value.place.steps + p.steps)
        return Place(value, p.steps)
    return mir.replaced(e, place, lambda x: value if isinstance(x, Copy) and x.place.base == t and not x.place.steps else None)


def prepare(fn, types, is_large):
    """Once for each function, before any is folded: what a callee only reads is known then."""
    only_read(fn, types, is_large)
    without_dead(fn, types, live)
    without_empty(fn.body)
    set_returns(fn)
    sink_returns(fn, fn.body)
