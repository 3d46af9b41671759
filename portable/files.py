"""The files: dartelm.c, and each program's, which includes it and has what that has not."""
import re

from . import mir
from .forms import DECLARED
from .hints import Small
from .mir import Unknown
from .statements import wrapped
from .types import base


def reached(functions, roots):
    """What the roots reach. There is no recursion, so that the stack of a call is known."""
    order, state = [], {}

    def visit(name):
        if name not in functions:
            raise Unknown(f'{name} is called and is in no library')
        if state.get(name) == 'open':
            raise Unknown(f'recursion through {name}')
        if name not in state:
            state[name] = 'open'
            for callee in mir.callees(functions[name]):
                visit(callee)
            state[name] = 'done'
            order.append(name)
    for name in roots:
        visit(name)
    return order


def blocks(text):
    """The prelude's parts, each with the functions that it defines."""
    return [(b, re.findall(r'^static (?:inline )?\w+ (dm_\w+)\(', b, flags=re.M)) for b in text.split('\n\n')]


def needed(parts, text):
    """Of parts with the names that they define those that a text needs, and those that these need; what defines none is kept."""
    used = set(re.findall(r'\bdm_\w+', text))
    kept = set()
    while True:
        more = {n for n, (b, names) in enumerate(parts) if n not in kept and (not names or used & set(names))}
        if not more:
            return [b for n, (b, _) in enumerate(parts) if n in kept]
        kept |= more
        for n in more:
            if parts[n][1]:
                used |= set(re.findall(r'\bdm_\w+', parts[n][0]))


class File:
    """What a file has: its types, tables and functions, without those of the file that it includes."""

    def __init__(self, program, roots, below=None):
        self.program, self.below = program, below
        before = below.functions if below else set()
        names = [n for n in reached(program.functions, roots) if n not in before]
        self.own = sorted(names, key=self.order)
        self.named = dict(below.named if below else {})
        for n in self.own:
            if self.named.setdefault(program.c_name(n), n) != n:
                raise Unknown(f'two functions that are {program.c_name(n)} in C: {n}, {self.named[program.c_name(n)]}')
        self.functions = before | set(names)
        self.texts = {}
        for t in sorted({t for n in self.own for t in program.functions[n].shapes if self.is_used(n, t)}, key=self.type_order):
            program.types.c(('Named', t))
        for n in self.own:
            self.texts[n] = program.text(n)
        self.lengths = dict(below.lengths if below else {})
        self.lengths.update({n: sum(line.count(';') for line in self.texts[n][1]) for n in self.own})
        small = Small(program.functions, self.lengths)
        for n in self.own:
            if n not in program.exported:
                head, lines = self.texts[n]
                is_small = n in small and not program.is_by_hand(n)
                self.texts[n] = (f"{'DM_SMALL' if is_small else 'static'} {head}", lines)
        self.declared = [d for d in program.types.declared if not below or d not in below.declared_so_far]
        self.declared_so_far = list(program.types.declared)
        self.tables = [k for k in program.tables if not below or k not in below.tables]

    def is_used(self, name, t):
        return any(mentions(local.type, t) for local in self.program.functions[name].locals)

    def order(self, name):
        source = self.source(name)
        return (source.order if source else (99, name.split('::')[0], '', 0), name)

    def source(self, name):
        return self.program.sources.functions.get(self.program.functions[name].symbol.removesuffix(DECLARED))

    def type_order(self, name):
        source = self.program.sources.types.get(base(name))
        return (source.order if source else (99, '', '', 0), name)

    def lines(self, prelude):
        """prelude: the text before the types; what nothing here uses is left out, and what the file below has."""
        code = []
        file = None
        for name in self.own:
            source = self.source(name)
            shown = source.file if source else 'the kit'
            if shown != file:
                file = shown
                code += [f'/* ---- {file} ---- */', '']
            head, lines = self.texts[name]
            comment = (source.comment if source else []) + ['By hand (portable/outer.c).'] * self.program.is_by_hand(name)
            if comment:
                code += commented(comment)
            code += wrapped(head) + lines + ['']
        heads = [x for n in self.own if n not in self.program.exported for x in wrapped(self.texts[n][0] + ';')]
        text = '\n'.join(code)
        used = {n for n in self.program.tables.values() if re.search(rf'\b{n}\b', text)}
        tables = [x for k in self.tables if self.program.tables[k] in used for x in self.program.table_lines(k)]
        types = self.types_for(text + '\n'.join(heads) + '\n'.join(tables))
        parts = blocks(prelude)
        if self.below:
            parts = [(b, names) for b, names in parts if names and b not in self.below.prelude]
        self.prelude = needed(parts, text)
        return self.prelude, types, tables, heads, code

    def types_for(self, text):
        """The declarations of the types that are used; of the functions that make a slice those that are."""
        used = set(re.findall(r'\bdm_\w+', text))
        kept = []
        for name, lines in reversed(self.declared):
            tags = set(re.findall(r'^    (\w+) = ', '\n'.join(lines), re.M))
            if name.startswith('dm_') and name not in used and not tags & used:
                self.declared_so_far.remove((name, next(x for own, x in self.declared if own == name)))
                continue
            used |= set(re.findall(r'\bdm_\w+', '\n'.join(lines)))
            kept.append(lines)
        return [line for lines in reversed(kept) for line in lines + ([''] if lines else [])]


def mentions(t, name):
    if t[0] == 'Named':
        return t[1] == name
    return any(isinstance(x, tuple) and mentions(x, name) for x in t[1:])


def commented(comment):
    text = ' '.join(comment).replace('*/', '* /')
    out = []
    line = '/* '
    for word in text.split():
        if len(line) + len(word) > 117:
            out.append(line.rstrip())
            line = ' * '
        line += word + ' '
    return out + [line + '*/']
