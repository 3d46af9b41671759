"""Values and places of MIR as C: each form with the sentence of the kit's definition that it stands for.

Integers are unsigned (`vint w n`: "its bits, as a number below 2 ^ bits w"). What is narrower than 32 bits is operated on as
uint32_t and narrowed after, so that C promotes nothing to a signed type. That a sum fits, that a divisor is not 0 and that a
shift is below the width is proved (`op2_chk`), so that C's result is the machine's."""
import re

from . import mir
from .live import derefs
from .mir import Unknown

POSTFIX, UNARY, PRODUCT, SUM, OTHER = range(5)    # how tightly a C expression holds together
LIMITS = {'*': (PRODUCT, UNARY, PRODUCT), '/': (UNARY, UNARY, PRODUCT), '%': (UNARY, UNARY, PRODUCT),
          '+': (SUM, PRODUCT, SUM), '-': (SUM, PRODUCT, SUM), '<': (SUM, SUM, OTHER), '<=': (SUM, SUM, OTHER),
          '>': (SUM, SUM, OTHER), '>=': (SUM, SUM, OTHER), '==': (SUM, SUM, OTHER), '!=': (SUM, SUM, OTHER)}
ARITHMETIC = {'Add': '+', 'Sub': '-', 'Mul': '*', 'Div': '/', 'Rem': '%', 'And': '&', 'Or': '|', 'Xor': '^',
              'Shl': '<<', 'Shr': '>>', 'WrapAdd': '+', 'WrapSub': '-', 'WrapMul': '*'}
COMPARED = {'Eq': '==', 'Ne': '!=', 'Lt': '<', 'Le': '<='}
NEGATED = {'==': '!=', '!=': '==', '<': '>=', '<=': '>'}
FLOATS = {32: 'float', 64: 'double'}


class Value:
    """A C expression: its text, how tightly it holds together, its MIR type, and whether it is a plain C array."""

    def __init__(self, text, hold, type_, array=False, wide=None):
        self.text, self.hold, self.type, self.array = text, hold, type_, array
        self.wide = wide    # the same number as a uint32_t, where the type is narrower

    def within(self, hold):
        return self.text if self.hold <= hold else f'({self.text})'


class Spot:
    """A C place: its text, or that of a pointer to it; what C declares it as where the header does; whether it is const."""

    def __init__(self, text, type_, pointer=False, member=None, array=False, const=False):
        self.text, self.type, self.pointer, self.member, self.array, self.const = text, type_, pointer, member, array, const

    def value(self):
        return f'*{self.text}' if self.pointer else self.text

    def dot(self, name):
        return f"{self.text}{'->' if self.pointer else '.'}{name}"

    def address(self):
        return self.text if self.pointer else f'&{self.text}'


def binary(sign, x, y):
    left, right, hold = LIMITS.get(sign, (UNARY, UNARY, OTHER))
    return f'{x.within(left)} {sign} {y.within(right)}', hold


class Values:
    """fn: the function, folded. spots: what C has for each local. before: copies that a statement wants made before it."""

    def __init__(self, program, fn):
        self.program, self.types, self.fn = program, program.types, fn
        self.spots, self.before, self.copies = {}, [], 0

    # ---- places

    def spot(self, place):
        """`resolve`, `walk`: a place is its base and then step after step."""
        steps = list(place.steps)
        if isinstance(place.base, int):
            if place.base not in self.spots:
                raise Unknown(f'{self.fn.name} reads the address of what has no bytes')
            at = self.spots[place.base]
        elif steps and steps[0][0] == 'Deref':
            at = self.pointed(place.base, steps.pop(0)[1])
        else:
            value = self.value(place.base)
            at = Spot(value.within(POSTFIX), value.type)
        while steps:
            kind, of = steps.pop(0)
            if kind == 'Deref':
                at = self.pointed_by(at, of)
            elif kind == 'Variant' and steps and steps[0][0] == 'Field':
                at = self.variant(at, of, steps.pop(0)[1])
            elif kind == 'Field':
                at = self.field(at, of)
            else:
                raise Unknown(f'a step of a place: {kind}')
        return at

    def variant(self, at, k, field):
        """`variant`: "of an enum, by its position: the same place, as the struct of the tag and that variant's fields"."""
        if at.type[0] != 'Named' or self.types.shapes[at.type[1]][0] != 'Variants':
            raise Unknown(f'a variant of {at.type}')
        if field == 0:
            return Spot(at.value() if self.types.is_bare(at.type) else at.dot('tag'), ('Int', 8), const=at.const)
        name, fields = self.types.variant_names(at.type[1])[k]
        return Spot(at.dot(f'{name}.{fields[field - 1]}'), self.types.shapes[at.type[1]][1][k][field - 1], const=at.const)

    def field(self, at, k):
        """`field`: "of a struct, by its position"."""
        if at.type[0] == 'Slice':
            return Spot(at.dot(('at', 'length')[k]), (('Ref', True, at.type[1]), ('Int', 64))[k])
        if at.type[0] != 'Named' or self.types.shapes[at.type[1]][0] != 'Fields':
            raise Unknown(f'a field of {at.type}')
        of = self.types.shapes[at.type[1]][1][k]
        own = self.types.header.struct_of(at.type[1])
        if own:
            name, member, length = self.types.header.structs[own][k]
            return Spot(at.dot(name), of, member=member, array=bool(length), const=at.const)
        return Spot(at.dot(self.types.field_names(at.type[1])[k]), of, const=at.const)

    # ---- pointers: `offset` counts bytes, an index counts elements

    def index(self, e, size):
        """The index that an offset of so many bytes is, or None."""
        if size == 1:
            return self.value(e)
        if isinstance(e, mir.Int) and e.value % size == 0:
            return Value(f'{e.value // size}u', POSTFIX, ('Int', 64))
        if isinstance(e, mir.Op2) and e.op == 'Mul':
            for x, y in ((e.x, e.y), (e.y, e.x)):
                if isinstance(y, mir.Int) and y.value == size:
                    return self.value(x)
        return None

    def elements(self, at, element):
        """An array as a pointer to its first element, or None."""
        if at.type[0] == 'Array' and at.type[1] == element:
            return at.value() if at.array else at.dot('at')
        return None

    def base_and_index(self, e, element):
        """A pointer to an element: (text, index or None, const)."""
        if isinstance(e, mir.Op2) and e.op == 'Offset':
            text, index, const = self.base_and_index(e.x, element)
            by = self.index(e.y, self.types.layout.size(element))
            if by is None:
                if self.types.layout.has_pointer(element):
                    raise Unknown('an offset into elements that have pointers')
                at = f"(unsigned char *){self.grouped(self.address(e.x, ('Int', 8)))} + {self.value(e.y).within(PRODUCT)}"
                return f'({self.types.pointer(element)})({at})', None, const
            if index is not None:
                by = Value(*binary('+', index, by), ('Int', 64))
            return text, by, const
        if isinstance(e, mir.AddrOf):
            at = self.spot(e.place)
            if at.type == element:
                return at.address(), None, at.const
            inner = self.elements(at, element)
            if inner:
                return inner, None, at.const
            return f'({self.types.pointer(element)}){at.address()}', None, at.const
        value = self.value(e)
        points_to = value.type[2] if value.type[0] == 'Ref' else None
        if points_to == element:
            return value.within(POSTFIX), None, False
        if points_to and points_to[0] == 'Array' and points_to[1] == element:
            return f'{value.within(POSTFIX)}->at', None, False
        return f'({self.types.pointer(element)}){value.within(UNARY)}', None, False

    @staticmethod
    def grouped(text):
        return f'({text})' if ' ' in text and not text.startswith('(') else text

    def pointed(self, e, element):
        """`deref`: "through a pointer or a reference, to a value of that type"."""
        if isinstance(e, mir.AddrOf):
            at = self.spot(e.place)
            if at.type == element:
                return at
        text, index, const = self.base_and_index(e, element)
        if index is not None:
            return Spot(f'{self.postfix(text)}[{index.text}]', element, const=const)
        if text.startswith('&'):
            return Spot(text[1:], element, const=const)
        if isinstance(e, mir.AddrOf) and not text.startswith('('):
            return Spot(f'{text}[0]', element, const=const)
        return Spot(self.postfix(text), element, pointer=True, const=const)

    @staticmethod
    def postfix(text):
        return f'({text})' if text[0] in '(*&-' else text

    def pointed_by(self, at, element):
        points_to = at.type[2] if at.type[0] == 'Ref' else None
        if points_to == element:
            return Spot(at.text if not at.pointer else f'(*{at.text})', element, pointer=True)
        if points_to and points_to[0] == 'Array' and points_to[1] == element:
            return Spot(f"{at.text}->at[0]", element)
        return Spot(f'(({self.types.pointer(element)}){at.text})', element, pointer=True)

    def address(self, e, element):
        """A pointer as a value."""
        text = self.text_of_table(e, element)
        if text:
            return text
        text, index, const = self.base_and_index(e, element)
        if index is not None and index.text != '0u':
            text = f'{text} + {index.within(PRODUCT)}'
        return f'({self.types.pointer(element)}){self.grouped(text)}' if const else text

    def text_of_table(self, e, element):
        """A table of characters as a string."""
        if isinstance(e, mir.AddrOf) and not e.place.steps and element == ('Int', 8):
            numbers = self.fn.tables.get(e.place.base)
            if numbers and all(32 <= n < 127 or n == 10 for n in numbers):
                return self.program.string(numbers)
        return None

    # ---- values

    def as_type(self, e, t):
        """A value where one of that type is wanted."""
        if t[0] == 'Ref':
            return Value(self.address(e, t[2]), SUM, t)
        if t[0] == 'Ptr':
            return Value(self.address(e, ('Int', 8)), SUM, t)
        return self.value(e)

    def value(self, e):
        if isinstance(e, mir.Copy):
            return self.copy(e)
        if isinstance(e, mir.Int):
            return Value(f'{e.value}u', POSTFIX, ('Int', e.width))
        if isinstance(e, mir.Bool):
            return Value(('false', 'true')[e.value], POSTFIX, ('Bool',))
        if isinstance(e, mir.Float):
            return Value(f'dm_{FLOATS[e.width]}_from_bits(0x{e.bits:0{e.width // 4}x}u)', POSTFIX, ('Float', e.width))
        if isinstance(e, mir.Tag):
            return Value(f'{self.types.c(e.type)}_{self.types.variant_names(e.type[1])[e.value][0]}', POSTFIX, e.type)
        if isinstance(e, mir.Op2):
            return self.op2(e)
        if isinstance(e, mir.Op1):
            return self.op1(e)
        if isinstance(e, mir.AddrOf):
            at = self.spot(e.place)
            return Value(self.address(e, at.type), UNARY, ('Ref', True, at.type))
        if isinstance(e, mir.SliceOf):
            name = self.types.c(('Slice', e.element))
            parts = f'{self.address(e.pointer, e.element)}, {self.value(e.length).text}'
            return Value(f'{name}_of({parts})', POSTFIX, ('Slice', e.element))
        if isinstance(e, mir.CallOf):
            return self.call(e)
        raise Unknown(f'a value: {type(e).__name__}')

    def copy(self, e):
        at = self.spot(e.place)
        own = self.types.c(at.type)
        if at.member and not at.array and at.type[0] in ('Int', 'Bool') and at.member != own:
            return Value(f'({own}){at.value()}', UNARY, at.type)
        return Value(at.value(), UNARY if at.pointer else POSTFIX, at.type, at.array)

    def call(self, e):
        """`call`: the operands are evaluated, then the function runs; a large one is lent by its address, and only read."""
        callee = self.program.functions[e.name]
        if len(e.args) != callee.params:
            raise Unknown(f'{self.fn.name} calls {e.name} with other arguments than it takes: prove both again')
        args = []
        for i, x in enumerate(e.args, 1):
            if callee.locals[i].type == ('Unit',):
                continue
            t = callee.locals[i].type
            args.append(self.lent(x, t) if i in self.program.lent(e.name) else self.as_type(x, t).text)
        return Value(f"{self.program.c_name(e.name)}({', '.join(args)})", POSTFIX, callee.locals[0].type)

    def lent(self, x, t):
        """The address of a value that nothing changes while the callee runs: a local that is in no memory, else a copy."""
        if isinstance(x, mir.Copy) and isinstance(x.place.base, int) and not derefs(x.place):
            home = self.fn.locals[x.place.base]
            at = self.spot(x.place)
            if (not home.in_memory or x.place.base in self.fn.tables) and not at.array:
                return at.address()
        self.copies += 1
        name = f'copy{self.copies}'
        self.before.append((f'{self.types.c(t)} {name};', name, t, x))
        return f'&{name}'

    # ---- operations on two

    def tag_names(self, e):
        """The names of an enum's tags, where a value is one."""
        if not isinstance(e, mir.Copy) or [k for k, _ in e.place.steps[-2:]] != ['Variant', 'Field'] or e.place.steps[-1][1] != 0:
            return None
        t = self.spot(mir.Place(e.place.base, e.place.steps[:-2])).type
        return [f'{self.types.c(t)}_{v}' for v, _ in self.types.variant_names(t[1])]

    def tags(self, e, x, y):
        """Two tags as they are compared: a number that one is compared with by its name."""
        names = self.tag_names(e.x)
        if names and isinstance(e.y, mir.Int):
            return x, Value(names[e.y.value], POSTFIX, y.type)
        return (x, y) if names and self.tag_names(e.y) else self.widened(x, y)

    def op2(self, e):
        if e.op == 'Offset':
            return Value(self.address(e, ('Int', 8)), SUM, ('Ptr',))
        x, y = self.value(e.x), self.value(e.y)
        if x.type != y.type:
            raise Unknown(f'{e.op} of {x.type} and {y.type}')
        kind = x.type[0]
        if e.op.startswith('Float') and kind == 'Float':
            return self.float2(e.op[5:], x, y)
        if e.op in ('Eq', 'Ne') and kind in ('Int', 'Bool'):
            return Value(*binary(COMPARED[e.op], *self.tags(e, x, y)), ('Bool',))
        if kind == 'Bool' and e.op in ('And', 'Or', 'Xor'):
            return Value(f'(bool)({binary(ARITHMETIC[e.op], x, y)[0]})', UNARY, ('Bool',))
        if e.op in ('Lt', 'Le') and kind == 'Int':
            if e.sign == 'Signed':
                x, y = self.signed(e.x, x), self.signed(e.y, y)
                return Value(*binary(COMPARED[e.op], x, y), ('Bool',))
            return Value(*binary(COMPARED[e.op], *self.widened(x, y)), ('Bool',))
        if kind == 'Int' and e.op in ARITHMETIC and (e.sign != 'Signed' or e.op in ('Add', 'Sub', 'Mul')):
            return self.arithmetic(ARITHMETIC[e.op], e, x, y)
        raise Unknown(f'an operation: {e.op} {e.sign} of {x.type}')

    def arithmetic(self, sign, e, x, y):
        """`op2_val`: a sum, difference or product fits, read as unsigned or as signed (`op2_chk`), and in two's complement both have
        the same bits; `wrap_add` and so on: "of two integers of one width, modulo 2 ^ the width"; `shl`: (a * 2 ^ b) % 2 ^ bits w;
        `shr`, `div`, `rem`: of the numbers."""
        width = x.type[1]
        if isinstance(e.x, mir.Int) and (sign in ('<<', '>>') or isinstance(e.y, mir.Int)):
            x = Value(f'(uint{max(width, 32)}_t){e.x.value}' + 'u' * (e.x.value >= 2 ** 63), UNARY, x.type)
        if width >= 32:
            return Value(*binary(sign, x, y), x.type)
        x = Value(f'(uint32_t){x.within(UNARY)}', UNARY, x.type) if not isinstance(e.x, mir.Int) else x
        text, hold = binary(sign, x, y)
        fits = e.sign == 'Unsigned' or sign in '&|^'
        return Value(f'(uint{width}_t)({text})', UNARY, x.type, wide=Value(text, hold, x.type) if fits else None)

    @staticmethod
    def widened(x, y):
        """What is narrower than 32 bits is compared as uint32_t."""
        if x.type[0] == 'Int' and x.type[1] < 32:
            x, y = (v.wide or v if v.wide or re.fullmatch(r'\d+u', v.text) else Value(f'(uint32_t){v.within(UNARY)}', UNARY, v.type)
                    for v in (x, y))
        return x, y

    @staticmethod
    def signed(e, x):
        """`to_z`: the bits, read in two's complement."""
        width = x.type[1]
        if isinstance(e, mir.Int):
            number = e.value - 2 ** width if e.value >= 2 ** (width - 1) else e.value
            if number == -2 ** 63:
                return Value('INT64_MIN', POSTFIX, x.type)
            return Value(str(number), UNARY, x.type)
        return Value(f'(int{width}_t){x.within(UNARY)}', UNARY, x.type)

    def float2(self, op, x, y):
        """`Ieee.add` and so on: rounded once, to nearest, ties to even. A comparison with a NaN is false, but for `float_ne`."""
        if op in COMPARED:
            return Value(*binary(COMPARED[op], x, y), ('Bool',))
        if op not in ('Add', 'Sub', 'Mul', 'Div'):
            raise Unknown(f'an operation: Float{op}')
        name = f'dm_{FLOATS[x.type[1]]}_{op.lower()}'
        return Value(f'{name}({x.text}, {y.text})', POSTFIX, x.type)

    # ---- operations on one

    def op1(self, e):
        x = self.value(e.x)
        kind = x.type[0]
        if e.op == 'Not' and kind == 'Bool':
            return Value(f'!{x.within(UNARY)}', UNARY, ('Bool',))
        if e.op == 'Not' and kind == 'Int':
            narrowed = f'(uint{x.type[1]}_t)~(uint32_t)' if x.type[1] < 32 else '~'
            return Value(narrowed + x.within(UNARY), UNARY, x.type)
        if e.op == 'Cast' and kind in ('Int', 'Bool'):
            return self.cast(e.args, x)
        if e.op == 'FloatNeg' and kind == 'Float':
            return Value(f'-{x.within(POSTFIX)}', UNARY, x.type)
        if e.op == 'FloatToFloat' and kind == 'Float':
            return Value(f'({FLOATS[e.args[0]]}){x.within(UNARY)}', UNARY, ('Float', e.args[0]))
        if e.op == 'FloatToBits' and kind == 'Float':
            return self.helped(f'dm_{FLOATS[x.type[1]]}_bits', x, ('Int', x.type[1]))
        if e.op == 'FloatFromBits' and x.type == ('Int', e.args[0]):
            return self.helped(f'dm_{FLOATS[e.args[0]]}_from_bits', x, ('Float', e.args[0]))
        if e.op == 'IntToFloat' and kind == 'Int' and e.args[1] == 64:
            if e.args[0] == 'Signed':
                return Value(f'(double)(int{x.type[1]}_t){x.within(UNARY)}', UNARY, ('Float', 64))
            return Value(f'(double){x.within(UNARY)}', UNARY, ('Float', 64))
        raise Unknown(f'an operation: {e.op} {e.args} of {x.type}')

    def helped(self, name, x, t):
        return Value(f'{name}({x.text})', POSTFIX, t)

    @staticmethod
    def cast(args, x):
        """`cast`: the number, read by the first sign, in the bits that have it under the second: it fits (`op1_chk`)."""
        sign, _, width = args
        if x.type == ('Int', width):
            return x
        if sign == 'Signed' and x.type[0] == 'Int' and width > x.type[1]:
            return Value(f'(uint{width}_t)(int{width}_t)(int{x.type[1]}_t){x.within(UNARY)}', UNARY, ('Int', width))
        return Value(f'(uint{width}_t){x.within(UNARY)}', UNARY, ('Int', width))

    def negated(self, e):
        if isinstance(e, mir.Op1) and e.op == 'Not':
            return self.value(e.x).text
        value = self.value(e)
        if isinstance(e, mir.Op2) and not e.op.startswith('Float') and e.op in COMPARED:
            sign = f' {COMPARED[e.op]} '
            if value.text.count(sign) == 1:
                return value.text.replace(sign, f' {NEGATED[COMPARED[e.op]]} ')
        return f'!{value.within(UNARY)}'
