"""C types: how each type of MIR is declared."""
import re

from .layout import Layout
from .mir import Unknown

SHORT = {'uint8_t': 'u8', 'uint16_t': 'u16', 'uint32_t': 'u32', 'uint64_t': 'u64', 'float': 'f32', 'double': 'f64'}


# The language's own answers, by short names. A result is named by its value alone where the error is this.
ANSWERS = {'core::option::Option': 'Option', 'core::result::Result': 'Result'}
ERROR = 'refusal::Refusal'


def ident(path):
    """C's name of a path, which may have types in it."""
    for said, word in ((r'\([_,]*\)', 'tuple'), ('&mut ', 'mut_'), ('&', 'ref_'), (r'\[([^\[\];]*); ', r'array_\1_'), (r'\[', 'slice_')):
        path = re.sub(said, word, path)
    return 'dm_' + re.sub(r'[^A-Za-z0-9]+', '_', path).strip('_')


def base(name):
    """A type's name in the source, without its arguments."""
    return name.split('<')[0]


def arguments(name):
    """The arguments that stand behind a name, at their level."""
    out, depth, own = [], 0, name[len(base(name)) + 1:-1]
    for c in own:
        if c == ',' and depth == 0:
            out.append('')
        elif out or c != ' ':
            out = out or ['']
            out[-1] += c
        depth += (c in '<[(') - (c in '>])')
    return [x.strip() for x in out]


class Types:
    def __init__(self, header, sources):
        self.header, self.sources, self.shapes = header, sources, {}
        self.layout = Layout(self.shapes)
        self.names, self.named_so = {}, {}    # C's name of each type, and the declared type that has a name
        self.called = {}    # by the last word of a path: the declared types that have it
        self.declared = []    # (name, lines) in an order that C takes

    def learn(self, shapes):
        for name, shape in shapes.items():
            if self.shapes.setdefault(name, shape) != shape:
                raise Unknown(f'two shapes of {name}')
            self.called.setdefault(base(name).split('::')[-1], set()).add(base(name))

    def ident(self, name):
        """C's name of a type or of a function: a path, and its arguments by their last words."""
        of = arguments(name)
        if base(name) in ANSWERS:
            of = of[:1] if of[1:] == [ERROR] else of
            return '_'.join(['dm', ANSWERS[base(name)]] + [self.word(x) for x in of])
        return '_'.join([ident(base(name))] + [self.word(x) for x in of])

    def word(self, name):
        """A type in a name that it is an argument of: the last word of its path, where no other type has that."""
        own = base(name)
        if own in ANSWERS or not re.fullmatch(r'\w+(::\w+)*', own):
            return ident(name)[3:] if own not in ANSWERS and '<' not in name else self.ident(name)[3:]
        last = own.split('::')[-1]
        shown = last if len(self.called.get(last, ())) <= 1 else ident(own)[3:]
        return '_'.join([shown] + [self.word(x) for x in arguments(name)])

    def c(self, t):
        """The C type of a MIR type; what it needs is declared before it."""
        if t not in self.names:
            self.names[t] = self.make(t)
            if t[0] == 'Named' and self.named_so.setdefault(self.names[t], t) != t:
                raise Unknown(f'two types that are {self.names[t]} in C: {t[1]}, {self.named_so[self.names[t]][1]}')
        return self.names[t]

    def make(self, t):
        kind = t[0]
        if kind == 'Bool':
            return 'bool'
        if kind == 'Int':
            return f'uint{t[1]}_t'
        if kind == 'Float':
            return {32: 'float', 64: 'double'}[t[1]]
        if kind == 'Ptr':
            return 'unsigned char *'
        if kind == 'Ref':
            return self.pointer(t[2])
        if kind == 'Slice':
            return self.slice(t[1])
        if kind == 'Array':
            return self.array(t)
        if kind == 'Named':
            return self.named(t)
        raise Unknown(f'a type: {t}')

    def pointer(self, t):
        return (self.c(t) + ' *').replace('* *', '**')

    def short(self, t):
        name = self.c(t)
        return SHORT.get(name, re.sub(r'\W+', '_', name).removeprefix('dm_').strip('_'))

    def say(self, name, lines):
        self.declared.append((name, lines))

    def slice(self, element):
        """A slice is its first element's address and its length, which stays 64 bits wide, as proved."""
        name = f'dm_slice_{self.short(element)}'
        c = self.pointer(element)
        self.say(name, [f'typedef struct {{ {c}at; uint64_t length; }} {name};'])
        self.say(f'{name}_of', [f'static inline {name} {name}_of({c}at, uint64_t length)', '{', f'    {name} slice;', '    slice.at = at;',
                                '    slice.length = length;', '    return slice;', '}'])
        return name

    def array(self, t):
        name = f'dm_array_{self.short(t[1])}_{t[2]}'
        self.say(name, [f'typedef struct {{ {self.c(t[1])} at[{t[2]}]; }} {name};'] + self.sized(name, t))
        return name

    def named(self, t):
        name = t[1]
        kind, parts = self.shapes[name]
        own = self.header.struct_of(name)
        if own:
            self.say(own + ' ', self.sized(own, t))
            return own
        own = self.ident(name)
        comment = self.sources.types[base(name)].comment if base(name) in self.sources.types else []
        comment = [f"/* {' '.join(comment)} */"] if comment else []
        if kind == 'Fields':
            inside = [f'    {self.member(p, f)}' for f, p in zip(self.field_names(name), parts) if p != ('Unit',)]
            self.say(own, comment + [f'typedef struct {{'] + inside + [f'}} {own};'] + self.sized(own, t))
            return own
        names = self.variant_names(name)
        tags = [f'    {own}_{v} = {n}{"," if n + 1 < len(names) else ""}' for n, (v, _) in enumerate(names)]
        lines = comment + ['enum {'] + tags + ['};']
        if self.is_bare(t):
            self.say(own, lines + [f'typedef uint8_t {own};'])
            return own
        held = [(v, ' '.join(self.member(p, f) for f, p in zip(fields, ps) if p != ('Unit',))) for (v, fields), ps in zip(names, parts)]
        inside = [f'    struct {{ uint8_t tag; {members} }} {v};' for v, members in held if members]
        self.say(own, lines + ['typedef union {', '    uint8_t tag;'] + inside + [f'}} {own};'] + self.sized(own, t))
        return own

    def initial(self, t, value):
        """A constant as C has it behind `=`."""
        if t[0] == 'Int':
            return f'{value}u'
        if t[0] == 'Bool':
            return ('false', 'true')[value]
        if t[0] == 'Array':
            return f"{{{{{', '.join(self.initial(t[1], x) for x in value)}}}}}"
        if self.is_bare(t):
            return f'{self.c(t)}_{self.variant_names(t[1])[value][0]}'
        parts = [self.initial(of, x) for of, x in zip(self.shapes[t[1]][1], value) if of != ('Unit',)]
        own = self.header.struct_of(t[1])
        if own:
            parts = [x[1:-1] if length else x for x, (_, _, length) in zip(parts, self.header.structs[own])]
        return f"{{{', '.join(parts)}}}"

    def member(self, t, name):
        return f'{self.c(t)} {name};'.replace('* ', '*')

    def sized(self, name, t):
        return [] if self.layout.has_pointer(t) else [f'DM_SIZE({name}, {self.layout.size(t)});']

    def is_bare(self, t):
        """Whether an enum has no variant with fields of any bytes: it is its tag."""
        kind, parts = self.shapes[t[1]] if t[0] == 'Named' else ('Fields', ())
        return kind == 'Variants' and all(p == ('Unit',) for ps in parts for p in ps)

    def of_place(self, t, steps):
        """The type of the value at a place, from that of what it begins at."""
        variant = None
        for kind, of in steps:
            if kind == 'Deref':
                t = of
            elif kind == 'Variant':
                variant = of
            elif t[0] == 'Slice':
                t = (('Ref', True, t[1]), ('Int', 64))[of]
            elif t[0] == 'Named' and variant is None:
                t = self.shapes[t[1]][1][of]
            elif t[0] == 'Named':
                t, variant = (('Int', 8), *self.shapes[t[1]][1][variant])[of], None
        return t

    def field_names(self, name):
        parts = self.shapes[name][1]
        known = self.sources.fields.get(base(name), [])
        return known if len(known) == len(parts) and len(set(known)) == len(known) else [f'f{i}' for i in range(len(parts))]

    def variant_names(self, name):
        parts = self.shapes[name][1]
        known = self.sources.variants.get(base(name), [])
        if [len(fields) for _, fields in known] == [len(p) for p in parts]:
            return known
        return [(f'V{n}', [f'f{i + 1}' for i in range(len(p))]) for n, p in enumerate(parts)]
