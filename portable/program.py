"""The functions of a program, and one of them as C."""
import re

from . import fold, mir
from .forms import DECLARED
from .hints import stored_by_bytes
from .inline import inlined
from .live import derefs, live
from .mir import Unknown
from .source import plain
from .statements import Statements, wrapped
from .types import Types
from .values import Spot


class Program:
    def __init__(self, functions, header, sources, by_hand=None):
        self.functions, self.header, self.sources, self.by_hand = functions, header, sources, by_hand
        self.exported = {f'dartelm::{name}': call for name, call in header.calls.items()}
        self.types = Types(header, sources)
        self.lent_of, self.tables = {}, {}
        self.without_idle()
        for fn in functions.values():
            self.types.learn(fn.shapes)
            fn.named = self.named(fn)
        inlined(functions, self.is_kit, self.is_derived, self.types)
        self.instances = {}    # of each symbol: how many
        for fn in functions.values():
            self.instances[fn.symbol] = self.instances.get(fn.symbol, 0) + 1
        for name in self.exported:
            if name not in functions:
                raise Unknown(f'the header has {name}, which is in no library')
            header.meet(functions[name], self.types.shapes)
        for fn in functions.values():
            fold.prepare(fn, self.types, self.is_large)

    def without_idle(self):
        """Leaves out the calls of functions that do nothing, as what drops a value that has nothing to give back."""
        idle = set()
        while more := {name for name, fn in self.functions.items() if name not in idle and fold.is_idle(fn)}:
            idle |= more
            for fn in self.functions.values():
                fold.without_calls(fn.body, idle)

    # ---- names

    def c_name(self, name):
        """Its path; of an instance with its arguments only where there is another one."""
        symbol = self.functions[name].symbol
        own, _, way = (symbol if self.instances[symbol] == 1 else name).partition('#')
        if name in self.exported:
            return name.split('::')[-1]
        return self.types.ident(own.replace(DECLARED, '')) + (f'_{way}' if way else '')

    def named(self, fn):
        """The source's names of locals: parameters, copies of parameters in memory, and what is bound, in that order. They are
        taken only where they fit: what a pattern binds is a variant's field, and they are stored to in the source's order."""
        source = self.sources.functions.get(fn.symbol.removesuffix(DECLARED))
        if source is None or len(source.params) != fn.params:
            return {}
        names = {i + 1: x for i, x in enumerate(source.params)}
        first = {}
        for n, s in enumerate(mir.statements(fn.body)):
            if isinstance(s, mir.Assign) and not s.place.steps:
                first.setdefault(s.place.base, (n, s.value))
        at = fn.params + 1
        while at in first and fn.locals[at].in_memory and parameter(fn, first[at][1]):
            names[at] = source.params[first[at][1].place.base - 1]
            at += 1
        stored = [(first.get(at + i), fn.locals[at + i].type, by, rank) for i, (_, by, rank) in enumerate(source.bindings)
                  if at + i < len(fn.locals)]
        order = [x[0] for x, _, _, _ in sorted(stored, key=lambda x: x[3]) if x is not None]
        if order != sorted(order) or not all(x is None or binds(by, x[1], t) for x, t, by, _ in stored):
            return {k: v for k, v in names.items() if k <= fn.params}
        names.update({at + i: name for i, (name, _, _) in enumerate(source.bindings) if name and at + i < len(fn.locals)})
        return names

    def local_name(self, fn, local):
        if local == 0 or (local not in fn.named and local in fn.returned and local > fn.params):
            return 'result'
        return plain(fn.named[local]) if local in fn.named and re.fullmatch(r'[a-z]\w*', fn.named[local]) else f'v{local}'

    # ---- parameters by address

    def is_large(self, t):
        return t[0] in ('Named', 'Array') and self.types.layout.size(t) > 8

    def lent(self, name):
        """The parameters that are handed by the address of the caller's value: structs, enums and arrays of more than 8 bytes."""
        if name not in self.lent_of:
            fn = self.functions[name]
            self.lent_of[name] = set() if name in self.exported else {
                i for i in range(1, fn.params + 1) if self.is_large(fn.locals[i].type)}
        return self.lent_of[name]

    # ---- tables of constants

    def table(self, fn, local):
        """A table stands once in a file, by its source's name where it has one there."""
        t, numbers = fn.locals[local].type, fn.tables[local]
        key = (t, numbers)
        if key not in self.tables:
            own = f'{self.c_name(fn.name)[3:]}_v{local}'
            named = self.sources.tables.get(numbers, own)
            self.tables[key] = f'dm_table_{named if f"dm_table_{named}" not in self.tables.values() else own}'
        return self.tables[key]

    def table_lines(self, key):
        t, parts = key
        if t[0] != 'Array':
            return [f'static const {self.types.c(t)} {self.tables[key]} = {self.types.initial(t, parts)};']
        _, element, count = t
        rows = wrapped('    ' + ', '.join(self.types.initial(element, x) for x in parts))
        head = f'static const {self.types.c(element)} {self.tables[key]}[{count}] = {{'
        return [head] + ['    ' + r.strip() for r in rows] + ['};']

    @staticmethod
    def string(numbers):
        text = ''.join({10: '\\n', 34: '\\"', 92: '\\\\', 63: '\\?'}.get(n, chr(n)) for n in numbers)
        pieces = re.findall(r'(?:[^\\]|\\[^n])*?\\n|.+', text) if '\\n' in text else [text]
        return '(uint8_t *)' + ' '.join(f'"{x}"' for x in pieces)

    # ---- a function

    def fold(self, fn):
        fold.Folding(fn, set(fn.named), self.lent, self.types).whole()

    def signature(self, fn, writer):
        if fn.name in self.exported:
            result, params = self.exported[fn.name]
            listed = ', '.join(c + name if c.endswith('*') else f'{c} {name}' for name, c in params) or 'void'
            return f'{result} {self.c_name(fn.name)}({listed})'
        params = []
        for i in range(1, fn.params + 1):
            t = fn.locals[i].type
            if t == ('Unit',):
                continue
            c = f'const {self.types.c(t)} *' if i in self.lent(fn.name) else f'{self.types.c(t)} '.replace('* ', '*')
            params.append(c + writer.params[i])
        result = 'void' if fn.locals[0].type == ('Unit',) else self.types.c(fn.locals[0].type)
        return f"{result} {self.c_name(fn.name)}({', '.join(params) or 'void'})".replace('* dm_', '*dm_')

    def is_kit(self, name):
        """Whether a function is the kit's, and not by hand."""
        return self.functions[name].symbol.split('::')[0] in self.sources.kit and not self.is_by_hand(name)

    def is_derived(self, name):
        """Whether a function is one that the source does not write: the language derives it, or it gives a constant."""
        symbol = self.functions[name].symbol
        return not self.is_by_hand(name) and not symbol.endswith(DECLARED) and symbol not in self.sources.functions

    def is_by_hand(self, name):
        return bool(self.by_hand) and self.functions[name].symbol in self.by_hand.functions

    def text_by_hand(self, fn):
        self.by_hand.meet(fn.symbol, self.sources)
        fn.returned, writer = set(), Statements(self, fn)
        self.parameters(fn, writer)
        head, own = self.signature(fn, writer), self.by_hand.head(fn.symbol)
        if own != head:
            raise Unknown(f'{fn.symbol} is by hand (portable/outer.c) as {own}, and its head is {head}')
        return head, self.by_hand.lines(fn.symbol)

    def text(self, name):
        """(its head, without the word that its linkage has, its lines)"""
        fn = self.functions[name]
        if self.is_by_hand(name):
            return self.text_by_hand(fn)
        self.fold(fn)
        live(fn, fn.body, set())
        fn.returned = {s.value.place.base for s in mir.statements(fn.body)
                       if isinstance(s, mir.Return) and isinstance(s.value, mir.Copy) and not s.value.place.steps}
        writer = Statements(self, fn)
        first = self.parameters(fn, writer)
        for local in fn.tables:
            t = fn.locals[local].type
            writer.spots[local] = Spot(self.table(fn, local), t, array=t[0] == 'Array', const=True)
        writer.plan()
        for line in first:
            writer.say(line)
        writer.body(fn.body)
        head = self.signature(fn, writer)
        used = ' '.join(writer.lines)
        unused = [f'    (void){p};' for p in writer.c_params if not re.search(rf'\b{p}\b', used)]
        return head, ['{'] + unused + writer.lines + ['}']

    def parameters(self, fn, writer):
        """Parameters as C has them; what has to be made of them first."""
        first, writer.params, writer.c_params = [], {}, []
        if fn.name in self.exported:
            return self.exported_parameters(fn, writer)
        for i in range(1, fn.params + 1):
            t, name = fn.locals[i].type, writer.name(i, [((id(fn.body), None),)])
            writer.params[i] = name
            if t == ('Unit',):
                continue
            if i in self.lent(fn.name) and stores(fn, i):
                writer.params[i] = name + '_lent'
                first.append(f'{self.types.c(t)} {name} = *{name}_lent;')
                writer.spots[i] = Spot(name, t)
            else:
                lent = i in self.lent(fn.name)
                writer.spots[i] = Spot(name, t, pointer=lent, const=lent)
            writer.c_params.append(writer.params[i])
        return first + [f'DM_WHOLE({writer.params[i]});' for i in stored_by_bytes(fn)]

    def exported_parameters(self, fn, writer):
        first, left = [], list(self.exported[fn.name][1])
        for i in range(1, fn.params + 1):
            t = fn.locals[i].type
            if not left:
                raise Unknown(f'the header has other parameters of {fn.name}')
            name, c = left.pop(0)
            writer.names[i] = (name, [((id(fn.body), None),)])
            writer.c_params.append(name)
            if t[0] == 'Slice':
                length = left.pop(0)[0]
                slice_ = f'{name}_lent'
                writer.names[-i] = (slice_, [((id(fn.body), None),)])
                first.append(f'{self.types.c(t)} {slice_} = {self.types.c(t)}_of(({self.types.pointer(t[1])}){name}, {length});')
                writer.spots[i] = Spot(slice_, t)
                writer.c_params.append(length)
            elif c == self.types.c(t):
                writer.spots[i] = Spot(name, t)
            elif t[0] == 'Int' and not stores(fn, i):
                writer.spots[i] = Spot(f'({self.types.c(t)}){name}', t)
            else:
                raise Unknown(f'the header has another type of {name} in {fn.name}')
        if left:
            raise Unknown(f'the header has other parameters of {fn.name}')
        return first


def binds(by, value, t):
    """Whether a local of a type that is first stored to from a value may be what the source binds so."""
    if by == 'pattern':
        return isinstance(value, mir.Copy) and any(k == 'Variant' for k, _ in value.place.steps)
    return {'index': t == ('Int', 64), 'iterator': t[0] == 'Named', 'array': t[0] == 'Array'}.get(by, True)


def parameter(fn, value):
    return isinstance(value, mir.Copy) and value.place.base in range(1, fn.params + 1) and not value.place.steps


def stores(fn, local):
    """Whether a parameter is stored to, or its address taken: then it is a variable of its own."""
    for s in mir.statements(fn.body):
        if isinstance(s, mir.Assign) and s.place is not None and s.place.base == local and not derefs(s.place):
            return True
    return False
