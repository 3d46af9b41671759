"""MIR as a tree. Its forms are the constructors of the kit's logic/Mir/Syntax.antt, and mean what logic/Mir/Val.antt,
logic/Prog/Machine.antt and logic/Prog/Memory.antt say; reading.py makes the tree of what was proved.

A type is a tuple: ('Int', 64), ('Float', 32), ('Bool',), ('Unit',), ('Ptr',), ('Ref', mutable, T), ('Array', T, n),
('Slice', T) and ('Named', name). Lifetimes are left out: "What the machine does not read: a reference's lifetime, mutability
and pointee" (Syntax.antt).
"""
from dataclasses import dataclass, field


class Unknown(Exception):
    """A form, a type or a toolchain that this translator does not know."""


class Failed(Exception):
    """A command of the toolchain that failed, as where a crate is not proved."""


# ---- the tree of a function

@dataclass(eq=False)
class Place:
    """`place : ℕ → List Step → Place`. The base is a local's number; once temporaries are folded it may be an expression."""
    base: object
    steps: tuple


@dataclass(eq=False)
class Copy:
    place: Place


@dataclass(eq=False)
class Int:
    width: int
    value: int


@dataclass(eq=False)
class Float:
    width: int
    bits: int


@dataclass(eq=False)
class Bool:
    value: bool


@dataclass(eq=False)
class Unit:
    pass


@dataclass(eq=False)
class Op2:
    op: str
    sign: str
    x: object
    y: object


@dataclass(eq=False)
class Op1:
    op: str
    args: tuple
    x: object


@dataclass(eq=False)
class AddrOf:
    place: Place


@dataclass(eq=False)
class Aggregate:
    xs: list


@dataclass(eq=False)
class Repeat:
    x: object
    n: int


@dataclass(eq=False)
class Tag:
    """A value of an enum without fields: the aggregate of its tag alone."""
    type: tuple
    value: int


@dataclass(eq=False)
class SliceOf:
    """The aggregate of a slice's two fields, its first element's address and its length."""
    element: tuple
    pointer: object
    length: object


@dataclass(eq=False)
class CallOf:
    """A call as a value: `call : Name → List Opd → Place → Body` is an assignment of it."""
    name: str
    args: list


@dataclass(eq=False)
class Assign:
    place: Place
    value: object


@dataclass(eq=False)
class If:
    test: object
    yes: list
    no: list


@dataclass(eq=False)
class Switch:
    value: object
    arms: list    # (keys, body)
    default: object    # a body, or None: then the machine is stuck where no key is the number


@dataclass(eq=False)
class Block:
    body: list


@dataclass(eq=False)
class Loop:
    body: list


@dataclass(eq=False)
class Exit:
    level: int


@dataclass(eq=False)
class Return:
    value: object = None    # what local 0 holds; None where that is `()`


@dataclass(eq=False)
class Local:
    type: tuple
    in_memory: bool    # `Home`: memorySlot where its address is taken


@dataclass(eq=False)
class Function:
    name: str
    params: int
    locals: list
    body: list
    shapes: dict = field(default_factory=dict)    # the declared types that it names: ('Fields', types) or ('Variants', lists)
    statics: dict = field(default_factory=dict)    # by a local's number: the value of the constant that it stands for, a number or a tuple of its parts
    symbol: str = None    # its name in the source: its own, without the arguments of an instance

    def __post_init__(self):
        self.symbol = self.symbol or self.name


# ---- looking through a tree

def bodies(s):
    """The bodies inside a statement."""
    if isinstance(s, If):
        return [s.yes, s.no]
    if isinstance(s, Switch):
        return [body for _, body in s.arms] + ([s.default] if s.default is not None else [])
    if isinstance(s, (Block, Loop)):
        return [s.body]
    return []


def statements(body):
    for s in body:
        yield s
        for inner in bodies(s):
            yield from statements(inner)


def parts(e):
    """The values inside a value; a place's base is one where it is no local."""
    if isinstance(e, (Copy, AddrOf)):
        return [] if isinstance(e.place.base, int) else [e.place.base]
    if isinstance(e, Op2):
        return [e.x, e.y]
    if isinstance(e, (Op1, Repeat)):
        return [e.x]
    if isinstance(e, Aggregate):
        return e.xs
    if isinstance(e, SliceOf):
        return [e.pointer, e.length]
    if isinstance(e, CallOf):
        return e.args
    return []


def values(e):
    yield e
    for x in parts(e):
        yield from values(x)


def own_values(s):
    """The values of a statement itself, not of the bodies inside it: (value, ..); a stored-to place is a Copy of it."""
    if isinstance(s, Assign):
        through = s.place is not None and (s.place.steps or not isinstance(s.place.base, int))
        return [s.value] + ([Copy(s.place)] if through else [])
    if isinstance(s, If):
        return [s.test]
    if isinstance(s, Switch):
        return [s.value]
    if isinstance(s, Return) and s.value is not None:
        return [s.value]
    return []


def replaced(e, place, leaf=None):
    """A value with each place in it replaced by what `place` gives, and each whole value that `leaf` gives another for."""
    other = leaf(e) if leaf else None
    if other is not None:
        return other
    again = lambda x: replaced(x, place, leaf)
    if isinstance(e, (Copy, AddrOf)):
        base = e.place.base if isinstance(e.place.base, int) else again(e.place.base)
        return type(e)(place(Place(base, e.place.steps)))
    if isinstance(e, Op2):
        return Op2(e.op, e.sign, again(e.x), again(e.y))
    if isinstance(e, Op1):
        return Op1(e.op, e.args, again(e.x))
    if isinstance(e, Repeat):
        return Repeat(again(e.x), e.n)
    if isinstance(e, Aggregate):
        return Aggregate([again(x) for x in e.xs])
    if isinstance(e, SliceOf):
        return SliceOf(e.element, again(e.pointer), again(e.length))
    if isinstance(e, CallOf):
        return CallOf(e.name, [again(x) for x in e.args])
    return e


def replace_in(s, place, leaf=None):
    """The same in a statement itself, not in the bodies inside it."""
    if isinstance(s, Assign):
        s.value = replaced(s.value, place, leaf)
        if s.place is not None and (s.place.steps or not isinstance(s.place.base, int)):
            base = s.place.base if isinstance(s.place.base, int) else replaced(s.place.base, place, leaf)
            s.place = place(Place(base, s.place.steps))
    elif isinstance(s, If):
        s.test = replaced(s.test, place, leaf)
    elif isinstance(s, (Switch, Return)) and s.value is not None:
        s.value = replaced(s.value, place, leaf)


def callees(fn):
    return [e.name for s in statements(fn.body) for v in own_values(s) for e in values(v) if isinstance(e, CallOf)]
