"""From the forms of mir.json to the tree of mir.py. A function may have parameters of two more kinds, types and dictionaries: "A call
names arguments for them, and the machine puts those in before it runs the code" (Syntax.antt). Here they are put in as it is read
(`inst_fn` of the kit's logic/Mir/MapTy.antt), so that what is behind this file has neither. Whatever is not known stops the
translation (`Unknown`)."""
import json
from dataclasses import dataclass

from .layout import Layout
from .mir import (AddrOf, Aggregate, Assign, Block, Bool, CallOf, Copy, Exit, Float, Function, If, Int, Local, Loop, Op1, Op2, Place, Repeat,
                  Return, Switch, Unit, Unknown)

# What carries no sign, a sign, or more, of the operations on two.
PLAIN = ('And', 'Or', 'Xor', 'Shl', 'Eq', 'Ne', 'Offset', 'WrapAdd', 'WrapSub', 'WrapMul', 'FloatAdd', 'FloatSub', 'FloatMul', 'FloatDiv',
         'FloatEq', 'FloatNe', 'FloatLt', 'FloatLe')
SIGNED = ('Add', 'Sub', 'Mul', 'Div', 'Rem', 'Shr', 'Lt', 'Le')
ON_ONE = {'Not': 0, 'Cast': 3, 'FloatNeg': 0, 'FloatToFloat': 1, 'FloatToBits': 0, 'FloatFromBits': 1, 'IntToFloat': 2}

# What stands behind the name of a method that a trait declares: it has no body of its own.
DECLARED = '+decl'

# The kit's `==` of two slices, `pointwise A.eq`: of numbers it is whether both have the same bytes.


def only(d):
    if not isinstance(d, dict) or len(d) != 1:
        raise Unknown(f'a form: {json.dumps(d)[:80]}')
    return next(iter(d.items()))


@dataclass(frozen=True)
class Dict:
    """`impl`: "its methods, each a function, in the trait's order; and types for its type parameters and dictionaries for its own
    bounds". Its methods are found by its name."""
    impl: str
    types: tuple
    dicts: tuple


# The dictionaries at which a function was met, in the order in which it was.
WAYS = {}


@dataclass(frozen=True)
class Instance:
    """`fn`: "a function, at arguments for its parameters"."""
    symbol: str
    types: tuple = ()
    dicts: tuple = ()

    @property
    def name(self):
        """Two closures that capture nothing have one type, of no bytes, and differ in the dictionary alone: then it has a number."""
        ways = WAYS.setdefault((self.symbol, self.types), [])
        if self.dicts not in ways:
            ways.append(self.dicts)
        way = ways.index(self.dicts)
        return spelled(self.symbol, self.types) + (f'#{way + 1}' if way else '')


def spelled(name, types):
    return f"{name}<{', '.join(map(shown, types))}>" if types else name


def shown(t):
    kind = t[0]
    if kind in ('Int', 'Float'):
        return f"{'u' if kind == 'Int' else 'f'}{t[1]}"
    if kind == 'Ref':
        return ('&mut ' if t[1] else '&') + shown(t[2])
    if kind == 'Array':
        return f'[{shown(t[1])}; {t[2]}]'
    if kind == 'Slice':
        return f'[{shown(t[1])}]'
    return str(t[1]) if kind in ('Named', 'Number') else kind.lower()


class Reading:
    """One function, at arguments. `impls`: the methods of each impl that a function so far has named, by its name."""

    def __init__(self, instance, fn, impls):
        self.fn, self.types, self.dicts = fn, instance.types, instance.dicts
        self.declared = {t['name']: t for t in fn['types']}
        self.shapes, self.statics, self.calls, self.impls = {}, {}, {}, impls
        for impl in fn['generics']['impls']:
            if impls.setdefault(impl['name'], impl['methods']) != impl['methods']:
                raise Unknown(f"two impls named {impl['name']}")
        if len(self.types) != len(fn['generics']['types']) or len(self.dicts) != len(fn['generics']['bounds']):
            raise Unknown('other arguments than it takes')

    # ---- types

    def type(self, t, given=None):
        """`given`: what is put in for the type parameters, where these are not the function's. A struct of no bytes, and a reference to
        what has none, is ('Unit',): nothing is read or written there, and C passes nothing on."""
        given = self.types if given is None else given
        if t in ('Bool', 'Unit', 'Ptr'):
            return (t,)
        k, v = only(t)
        if k == 'Int' and v in (8, 16, 32, 64):
            return (k, v)
        if k == 'Float' and v in (32, 64):
            return (k, v)
        if k == 'Ref':
            to = self.type(v[2], given)
            return to if to == ('Unit',) else (k, v[1] == 'Mut', to)
        if k == 'Array':
            return (k, self.type(v[0], given), self.number(v[1], given))
        if k == 'Struct' and v[0] == '&[]':
            pointer, length = (self.type(x, given) for x in v[1])
            if pointer[0] == 'Ref' and length == ('Int', 64):
                return ('Slice', pointer[2])
        if k == 'Named':
            return self.named(v[0]['name'], tuple(self.type(x, given) for x in v[1]))
        if k == 'Param' and v < len(given):
            return given[v]
        if k == 'Const':
            return ('Number', v)
        raise Unknown(f'a type: {json.dumps(t)[:120]}')

    def number(self, n, given):
        """A length: a number, or the parameter that has it."""
        k, v = only(n)
        if k == 'Param' and v < len(given) and given[v][0] == 'Number':
            return given[v][1]
        if k != 'Lit':
            raise Unknown(f'a length: {json.dumps(n)[:80]}')
        return v

    def named(self, name, types):
        """A declared type: `ty_named`, with its shape, "the fields are one text, and a use puts its arguments in" (Syntax.antt)."""
        full = spelled(name, types)
        if full not in self.shapes and name in self.declared:
            self.shapes[full] = None
            self.shapes[full] = self.shape(self.declared[name]['shape'], types)
        if self.shapes.get(full) and self.shapes[full][0] == 'Fields' and set(self.shapes[full][1]) <= {('Unit',)}:
            return ('Unit',)
        return ('Named', full)

    def shape(self, shape, given):
        k, v = only(shape)
        if k == 'Fields':
            return (k, tuple(self.field(t, given) for t in v))
        if k == 'Variants':
            return (k, tuple(tuple(self.field(t, given) for t in fields) for fields in v))
        raise Unknown(f'the shape of a type: {k}')

    def field(self, t, given):
        """A reference to nothing has 8 bytes in the machine's struct and none here."""
        of = self.type(t, given)
        if of == ('Unit',) and 'Ref' in t:
            raise Unknown('a field that refers to a value of no bytes')
        return of

    def measured(self, what, t):
        """`size_of`, `align_of`: in the machine, where a pointer has 8 bytes; so of what has none."""
        t, layout = self.type(t), Layout(self.shapes)
        if layout.has_pointer(t):
            raise Unknown(f'the size of what has a pointer: {shown(t)}')
        return Int(64, {'SizeOf': layout.size, 'AlignOf': layout.align}[what](t))

    # ---- what a call names

    def dict(self, d):
        k, v = only(d)
        if k == 'Given' and v < len(self.dicts):
            return self.dicts[v]
        if k == 'Impl':
            return Dict(v[0], tuple(self.type(t) for t in v[1]), tuple(self.dict(x) for x in v[2]))
        raise Unknown(f'a dictionary: {json.dumps(d)[:120]}')

    def callee(self, c):
        """`key_of`, `args_of`: "A method of an impl takes the impl's arguments and then its own" (logic/Mir/Inst.antt)."""
        k, v = only(c)
        if k == 'Fn':
            found = Instance(v[0], *self.arguments(v[1]))
        elif k == 'Method':
            of = self.dict(v[0])
            types, dicts = self.arguments(v[2])
            if of.impl not in self.impls or v[1] >= len(self.impls[of.impl]):
                raise Unknown(f'a method of {of.impl}')
            found = Instance(self.impls[of.impl][v[1]], of.types + types, of.dicts + dicts)
        else:
            raise Unknown(f'what a call names: {k}')
        if self.calls.setdefault(found.name, found) != found:
            raise Unknown(f'{found.name} at other dictionaries')
        return found.name

    def arguments(self, args):
        return tuple(self.type(t) for t in args['types']), tuple(self.dict(d) for d in args['dicts'])

    # ---- values

    def step(self, s):
        k, v = only(s)
        if k == 'Deref':
            return (k, self.type(v))
        if k in ('Field', 'Variant'):
            return (k, v)
        raise Unknown(f'a step of a place: {k}')

    def place(self, p):
        return Place(p['local'], tuple(self.step(s) for s in p['steps']))

    def operand(self, o):
        if o in ('True', 'False'):
            return Bool(o == 'True')
        if o == 'Unit':
            return Unit()
        k, v = only(o)
        if k == 'Copy':
            return Copy(self.place(v))
        if k == 'Int' and v['width'] in (8, 16, 32, 64) and 0 <= v['value'] < 2 ** v['width']:
            return Int(v['width'], v['value'])
        if k == 'Float' and v['width'] in (32, 64):
            return Float(v['width'], v['bits'])
        if k in ('SizeOf', 'AlignOf'):
            return self.measured(k, v)
        if k == 'NumOf' and self.type(v[1])[0] == 'Number':
            return Int(v[0], self.type(v[1])[1])
        raise Unknown(f'an operand: {json.dumps(o)[:120]}')

    def value(self, r):
        k, v = only(r)
        if k == 'Opd':
            return self.operand(v)
        if k == 'Op2':
            op, sign = (v[0], None) if isinstance(v[0], str) else only(v[0])
            if (op in PLAIN and sign is None) or (op in SIGNED and sign in ('Unsigned', 'Signed')):
                x, y = self.operand(v[1]), self.operand(v[2])
                # What has the size of one byte is counted as bytes are.
                return x if op == 'Mul' and 'SizeOf' in v[2] and y.value == 1 else Op2(op, sign, x, y)
            raise Unknown(f'an operation: {op}')
        if k == 'Op1':
            op, args = (v[0], ()) if isinstance(v[0], str) else only(v[0])
            args = tuple(args) if isinstance(args, (list, tuple)) else (args,)
            if len(args) == ON_ONE.get(op):
                return Op1(op, args, self.operand(v[1]))
            raise Unknown(f'an operation: {op}')
        if k == 'AddrOf':
            return AddrOf(self.place(v))
        if k == 'Aggregate':
            return Aggregate([self.operand(x) for x in v])
        if k == 'Repeat':
            return Repeat(self.operand(v[0]), self.number(v[1], self.types))
        raise Unknown(f'a value: {k}')

    # ---- statements

    def body(self, body):
        """Statements stand in prefix order. `seq` becomes a list, and `skip` nothing."""
        at = iter(body)

        def one():
            s = next(at)
            if s == 'Seq':
                return one() + one()
            if s == 'Skip':
                return []
            if s in ('Block', 'Loop'):
                return [{'Block': Block, 'Loop': Loop}[s](one())]
            k, v = only(s) if not isinstance(s, str) else (s, None)
            if k == 'If':
                return self.branches(self.operand(v), one(), one())
            if k == 'Switch':
                arms = [(tuple(keys), one()) for keys in v[1]]
                default = one() if v[2] else None
                return [Switch(self.operand(v[0]), arms, None if default == [None] else default)]
            return self.simple(k, v)

        read = one()
        if next(at, None) is not None:
            raise Unknown('a body that goes on behind its end')
        return read

    @staticmethod
    def branches(test, yes, no):
        """A branch that is `unreachable` alone is not taken: "no call that meets a proved function's contract comes here"."""
        if [None] in (yes, no):
            return no if yes == [None] else yes
        return [If(test, yes, no)]

    def simple(self, k, v):
        """A statement without a body inside it. `unreachable` is None, which only `branches` and a switch's default take away."""
        if k == 'Return':
            return [Return()]
        if k == 'Exit':
            return [Exit(v)]
        if k == 'Assign':
            return [Assign(self.place(v[0]), self.value(v[1]))]
        if k == 'Call':
            return [Assign(self.place(v[2]), CallOf(self.callee(v[0]), [self.operand(x) for x in v[1]]))]
        if k == 'LendStatic':
            return [Assign(self.place(v[0]), AddrOf(Place(self.static(self.type(v[1]), v[2]), ())))]
        if k == 'Unreachable':
            return [None]
        raise Unknown(f'a statement: {k}')

    def static(self, t, constant):
        """`lend_static`: "a reference to the constant, of that type, in memory that is never written and never freed"; here a local
        more, which stands for that memory."""
        value = self.constant(t, constant)
        if value is None or t[0] not in ('Array', 'Named'):
            raise Unknown(f'a constant in memory: {json.dumps(constant)[:120]}')
        for local, (of, same) in self.statics.items():
            if (of, same) == (t, value):
                return local
        local = len(self.fn['locals']) + len(self.statics)
        self.statics[local] = (t, value)
        return local

    def constant(self, t, constant):
        """`Const`: numbers and truths, and arrays and structs of them; None of another. An enum is its tag, if it holds nothing."""
        k, v = only(constant) if isinstance(constant, dict) else (constant, None)
        if k == 'Unit' and t == ('Unit',):
            return ()
        if k == 'Int' and t == ('Int', v['width']):
            return v['value']
        if k == 'Bool' and t == ('Bool',):
            return bool(v)
        if k == 'Ints' and t[0] == 'Array' and t[1] == ('Int', v['width']) and len(v['values']) == t[2]:
            return tuple(v['values'])
        if k == 'Repeat' and t[0] == 'Array' and v[1] == t[2]:
            parts = (self.constant(t[1], v[0]),) * v[1]
        elif k == 'Parts' and t[0] == 'Array' and len(v) == t[2]:
            parts = tuple(self.constant(t[1], x) for x in v)
        elif k == 'Parts' and t[0] == 'Named' and self.shapes[t[1]][0] == 'Fields' and len(v) == len(self.shapes[t[1]][1]):
            parts = tuple(map(self.constant, self.shapes[t[1]][1], v))
        elif k == 'Parts' and t[0] == 'Named' and all(x == ('Unit',) for fields in self.shapes[t[1]][1] for x in fields):
            return self.constant(('Int', 8), v[0])
        else:
            return None
        return None if None in parts else parts


def function_of(instance, fn, impls):
    """(the function as a tree, what it calls by their names)"""
    try:
        reading = Reading(instance, fn, impls)
        body = reading.body(fn['body'])
        if None in flat(body):
            raise Unknown('`unreachable` where it is no whole branch')
        locals_ = [Local(reading.type(x['ty']), {'ValueLocal': False, 'MemorySlot': True}[x['home']]) for x in fn['locals']]
        locals_ += [Local(t, True) for t, _ in reading.statics.values()]
        statics = {local: numbers for local, (_, numbers) in reading.statics.items()}
        return Function(instance.name, fn['params'], locals_, body, reading.shapes, statics, instance.symbol), reading.calls
    except Unknown as e:
        raise Unknown(f'{instance.name}: {e}') from None


def signature_of(instance, fn):
    """A function that C has by hand: its head, with nothing inside. A result that says no more than whether there was an error is
    left out: no function here may read it."""
    try:
        reading = Reading(instance, fn, {})
        locals_ = [Local(reading.type(x['ty']), False) for x in fn['locals'][:fn['params'] + 1]]
        if locals_[0].type[0] == 'Named' and locals_[0].type[1].startswith('core::result::Result<unit, '):
            locals_[0].type = ('Unit',)
        return Function(instance.name, fn['params'], locals_, [], reading.shapes, {}, instance.symbol)
    except Unknown as e:
        raise Unknown(f'{instance.name}: {e}') from None


def flat(body):
    for s in body:
        yield s
        if isinstance(s, If):
            inner = [s.yes, s.no]
        elif isinstance(s, Switch):
            inner = [b for _, b in s.arms] + ([s.default] if s.default is not None else [])
        else:
            inner = [s.body] if isinstance(s, (Block, Loop)) else []
        for b in inner:
            yield from flat(b)
