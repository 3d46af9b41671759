"""Statements of MIR as C: `code` of the kit's logic/Prog/Machine.antt, form by form."""
import re

from . import mir
from .fold import constant, is_chain
from .hints import MOST_TURNS, is_met
from .live import Reads, derefs, reads_of, stored
from .mir import Unknown
from .values import POSTFIX, Spot, Values

WIDEST = 120


class Level:
    """What an `exit` counts: a block or a loop, and the C statement that it is: None while it is not in one."""

    def __init__(self, kind):
        self.kind, self.label, self.used = kind, None, False


class Statements(Values):
    def __init__(self, program, fn):
        super().__init__(program, fn)
        self.lines, self.depth, self.levels, self.reached, self.labels = [], 1, [], [], 0
        self.declare_in, self.names, self.kept = {}, {}, []    # by a list's id: the locals that are declared in it
        self.apart = set()    # the locals that each list has for itself
        self.pointees = self.what_pointers_point_to()
        self.declared = None    # the local that the statement declares

    def say(self, text):
        self.lines += wrapped('    ' * self.depth + text)

    def what_pointers_point_to(self):
        """A raw pointer says nothing of what it points to: where all its uses agree, C's type says it."""
        found = {}
        for s in mir.statements(self.fn.body):
            for v in mir.own_values(s):
                for e in mir.values(v):
                    if isinstance(e, (mir.Copy, mir.AddrOf)) and isinstance(e.place.base, int) and e.place.steps \
                            and e.place.steps[0][0] == 'Deref' and self.fn.locals[e.place.base].type == ('Ptr',):
                        found.setdefault(e.place.base, set()).add(e.place.steps[0][1])
        return {local: next(iter(types)) for local, types in found.items() if len(types) == 1}

    # ---- where each local is declared: the innermost list of statements that has all its uses

    def plan(self):
        uses = {}    # of each local: (the way to a list, the list, statements there that mention it)

        def walk(body, path):
            path = (*path, (id(body), None))
            own = {}
            for s in body:
                for local in (set(reads_of(self.fn, s).locals) | {stored(s)}) - {None}:
                    own.setdefault(local, []).append(s)
                for inner in mir.bodies(s):
                    walk(inner, path if not isinstance(s, mir.Loop) else (*path, ('loop', frozenset(s.top))))
            for local, found in own.items():
                uses.setdefault(local, []).append((path, body, found))
        walk(self.fn.body, ())
        for local, found in sorted(uses.items()):
            if local in range(1, self.fn.params + 1) or local in self.fn.tables or self.fn.locals[local].type == ('Unit',):
                continue
            paths = [path for path, _, _ in found]
            if self.is_apart(local, found):
                self.apart.add(local)
            else:
                paths = [self.common(local, paths)]
            for path in paths:
                self.declare_in.setdefault(path[-1][0], []).append(local)
            self.name(local, paths)

    def is_apart(self, local, found):
        """Whether each list that mentions a local stores to it first, and nothing behind that list reads it."""
        if self.fn.locals[local].in_memory:
            return False
        return all(stored(own[0]) == local and local not in reads_of(self.fn, own[0]).locals
                   and (isinstance(body[-1], mir.Return) or local not in body[-1].live_after) for _, body, own in found)

    def common(self, local, all_):
        path = all_[0]
        if self.fn.locals[local].in_memory:
            return path[:1]
        for other in all_:
            n = 0
            while n < min(len(path), len(other)) and path[n] == other[n]:
                n += 1
            path = path[:n]
        for n, (kind, top) in enumerate(path):
            if kind == 'loop' and local in top:
                path = path[:n]
                break
        while path[-1][0] == 'loop':
            path = path[:-1]
        return path

    def name(self, local, paths):
        """Its source's name, with a number behind it where another local in reach has that name."""
        own = self.program.local_name(self.fn, local)
        taken = {n for n, all_ in self.names.values() for p in all_ for q in paths if p[:len(q)] == q or q[:len(p)] == p}
        name, n = own, 1
        while name in taken:
            n += 1
            name = f'{own}_{n}'
        self.names[local] = (name, paths)
        return name

    # ---- lists of statements

    def body(self, body):
        waiting = list(self.declare_in.get(id(body), []))
        for s in body:
            mentioned, own = self.mentioned(s), reads_of(self.fn, s).locals
            for local in [x for x in waiting if x in mentioned and (x not in self.apart or x in own or x == stored(s))]:
                waiting.remove(local)
                if stored(s) == local and not isinstance(s.value, (mir.Aggregate, mir.Repeat)) and local not in own:
                    self.place(local)
                    self.declared = local
                else:
                    self.declare(local)
            self.statement(s)
            self.declared = None

    def place(self, local):
        t = self.fn.locals[local].type
        if local in self.pointees:
            t = ('Ref', True, self.pointees[local])
        self.spots[local] = Spot(self.names[local][0], t)
        return t

    def declare(self, local):
        self.say(f'{self.types.c(self.place(local))} {self.names[local][0]};'.replace('* ', '*'))

    def mentioned(self, s):
        out = set()
        for x in [s] + [x for b in mir.bodies(s) for x in mir.statements(b)]:
            out |= set(reads_of(self.fn, x).locals) | {stored(x)}
        return out

    def statement(self, s):
        if isinstance(s, mir.Assign):
            self.assign(s)
        elif isinstance(s, mir.Return):
            self.returned(s)
        elif isinstance(s, mir.If):
            self.branches(s)
        elif isinstance(s, mir.Switch):
            self.switch(s)
        elif isinstance(s, mir.Block):
            self.block(s)
        elif isinstance(s, mir.Loop):
            self.loop(s, [Level('loop')])
        elif isinstance(s, mir.Exit):
            self.leave(s)
        else:
            raise Unknown(f'a statement: {type(s).__name__}')

    def inner(self, body):
        self.depth += 1
        self.body(body)
        self.depth -= 1

    def copied_first(self, text):
        """What a statement wants copied before it stands in a block of its own with it: the number of lines to close."""
        if not self.before:
            return False
        before, self.before = self.before, []
        self.say('{')
        self.depth += 1
        for declared, name, t, x in before:
            value = self.value(x)
            if value.array:
                self.say(declared)
                self.say(f'memcpy(&{name}, &{value.text}, sizeof {name});')
            else:
                self.say(f'{declared[:-1]} = {value.text};')
        return True

    def with_copies(self, text):
        """Says a statement, after what it wants copied."""
        opened = self.copied_first(text)
        self.say(text)
        if opened:
            self.depth -= 1
            self.say('}')

    # ---- returns, branches

    def returned(self, s):
        """`return`: local 0 is read, and the call ends with it."""
        if s.value is None:
            self.with_copies('return;')
        else:
            self.with_copies(f'return {self.as_type(s.value, self.fn.locals[0].type).text};')

    def branches(self, s):
        """`cond`: the one body or the other."""
        if not s.yes and not s.no:
            return
        test = self.value(s.test).text if s.yes else self.negated(s.test)
        opened = self.copied_first(test)
        self.say(f'if ({test}) {{')
        self.inner(s.yes or s.no)
        if s.yes and s.no:
            self.otherwise(s.no)
        self.say('}')
        if opened:
            self.depth -= 1
            self.say('}')

    def otherwise(self, body):
        """`else if` where that is all there is."""
        if len(body) == 1 and isinstance(body[0], mir.If) and body[0].yes and not self.declare_in.get(id(body)):
            before = self.before
            test = self.value(body[0].test).text
            if not self.before:
                self.say(f'}} else if ({test}) {{')
                self.inner(body[0].yes)
                if body[0].no:
                    self.otherwise(body[0].no)
                return
            self.before = before
        self.say('} else {')
        self.inner(body)

    # ---- switches

    def switch(self, s):
        """`switch`: "the first arm that has its bits, read as a number, among its keys runs", else the default. Without a default
        "the machine is stuck" where no key is the number; that is proved not to happen, and the last arm serves."""
        names = self.tag_names(s.value)
        value = self.value(s.value)
        arms = [([names[k] if names else f'{k}u' for k in keys], body) for keys, body in s.arms]
        if s.default is not None:
            arms.append(([], s.default))
        if is_chain(s):
            self.chain(value, arms)
            return
        opened = self.copied_first('')
        self.say(f'switch ({value.text}) {{')
        for n, (keys, body) in enumerate(arms):
            for k in keys:
                self.say(f'case {k}:')
            if n == len(arms) - 1:
                self.say('default:')
            declares = bool(self.declare_in.get(id(body)))
            self.lines[-1] += ' {' if declares else ''
            self.inner(body)
            if not (body and ends(body[-1])):
                self.say('    break;')
            if declares:
                self.say('}')
        self.say('}')
        if opened:
            self.depth -= 1
            self.say('}')

    def chain(self, value, arms):
        """A switch of two arms, or one that an arm leaves a loop from, as `if`s."""
        opened = self.copied_first('')
        said = False
        if len(arms) == 2 and not arms[0][1] and arms[1][1]:
            arms = self.second_alone(arms)
        for n, (keys, body) in enumerate(arms):
            tests = [f'{value.within(POSTFIX)} == {k}' for k in keys]
            test = tests[0] if len(tests) == 1 else ' || '.join(tests)
            last = n == len(arms) - 1
            if not said and last:
                self.body_in_braces(body)
                continue
            if last and not body:
                continue
            if not said:
                self.say(f'if ({test}) {{')
            else:
                self.say('} else {' if last else f'}} else if ({test}) {{')
            if last and len(keys) == 1 and keys[0].startswith('dm_'):
                self.lines[-1] += f' /* {keys[0]} */'
            self.inner(body)
            said = True
        if said:
            self.say('}')
        if opened:
            self.depth -= 1
            self.say('}')

    @staticmethod
    def second_alone(arms):
        """Two arms of which the first does nothing: what the second does, where its keys are."""
        return [arms[1], ([], [])] if arms[1][0] else arms

    def body_in_braces(self, body):
        self.say('{')
        self.inner(body)
        self.say('}')

    # ---- blocks and loops

    def block(self, s):
        """`block`: an `exit` of it goes on behind it. Around a loop alone it is what the loop is left to."""
        if len(s.body) == 1 and isinstance(s.body[0], mir.Loop):
            for local in self.declare_in.get(id(s.body), []):
                self.declare(local)
            self.loop(s.body[0], [Level('block'), Level('loop')])
            return
        level = Level('block')
        self.say('do {')
        self.enter([level], s.body)
        self.say('} while (0);')
        self.labelled(level)

    def loop(self, s, levels):
        """`loop`: turn after turn; an `exit` of the loop itself begins the next."""
        body, first = s.body, s.body[0] if s.body else None
        test = 'for (;;)'
        if len(levels) == 2 and isinstance(first, mir.If) and not first.yes and len(first.no) == 1 \
                and isinstance(first.no[0], mir.Exit) and first.no[0].level == 1:
            text = self.unequal(first.test) if is_met(self.fn, s, first.test) else self.value(first.test).text
            if self.before:
                self.before = []
            else:
                test = f'while ({text})'
                if self.turns_are_known(first.test):
                    self.say('DM_UNROLLED')
                rest = body[1:]
                self.declare_in[id(rest)] = self.declare_in.get(id(body), [])
                self.kept.append(rest)
                body = rest
        self.say(f'{test} {{')
        self.enter(levels, body)
        self.say('}')
        self.labelled(levels[0])

    def unequal(self, test):
        return self.value(mir.Op2('Ne', None, test.x, test.y)).text

    def turns_are_known(self, test):
        """Whether a counter is compared with a small constant, or with what a call gives that is handed nothing but constants."""
        if not isinstance(test, mir.Op2) or test.op not in ('Lt', 'Le'):
            return False
        if isinstance(test.y, mir.Int):
            return 1 < test.y.value <= MOST_TURNS
        if not isinstance(test.y, mir.Copy) or test.y.place.steps or not isinstance(test.y.place.base, int):
            return False
        stores = [s for s in mir.statements(self.fn.body) if stored(s) == test.y.place.base]
        return len(stores) == 1 and isinstance(stores[0].value, mir.CallOf) and all(constant(x) for x in stores[0].value.args)

    def enter(self, levels, body):
        outer, self.reached = self.reached, levels
        self.levels += levels
        self.inner(body)
        del self.levels[-len(levels):]
        self.reached = outer
        if levels[-1].kind == 'loop' and levels[-1].used:
            self.lines.append('    ' * (self.depth + 1) + f'{levels[-1].label}: ;')

    def labelled(self, level):
        if level.used and level.kind == 'block':
            self.say(f'{level.label}: ;')

    def leave(self, s):
        """`exit`: of the block or loop so many out."""
        level = self.levels[-1 - s.level]
        if level in self.reached:
            if level.kind == 'loop':
                self.say('continue;')
                return
            self.say('break;')
            return
        if not level.label:
            self.labels += 1
            level.label = f'out{self.labels}'
        level.used = True
        self.say(f'goto {level.label};')

    # ---- stores

    def assign(self, s):
        """`assign`: the value is evaluated, then it is stored at the place."""
        if s.place is None:
            self.with_copies(f'{self.discarded(s.value)};')
            return
        at = self.spot(s.place)
        if isinstance(s.value, mir.Aggregate):
            self.aggregate(s, at)
        elif isinstance(s.value, mir.Repeat):
            self.repeat(s, at)
        else:
            self.store(at, s.value)

    def discarded(self, e):
        value = self.value(e)
        return value.text if value.type == ('Unit',) else f'(void){value.text}'

    def store(self, at, e):
        if at.type == ('Unit',):
            return
        if isinstance(e, mir.Aggregate):
            self.fill(at, e.xs)
            return
        value = self.as_type(e, at.type)
        if value.type == ('Unit',):
            raise Unknown(f'{self.fn.name} reads a result that is by hand (portable/outer.c), and left out there')
        if at.array or value.array:
            if self.declared is not None:
                self.say(f'{self.types.c(at.type)} {at.text};')
            self.with_copies(f'memcpy(&{at.text}, &{value.text}, sizeof {at.text});')
            return
        text = value.text
        own = self.types.c(at.type)
        if at.member and at.type[0] in ('Int', 'Bool') and at.member != own:
            text = f'({at.member}){value.within(POSTFIX)}'
        if self.declared is not None and not self.before:
            self.say(f'{self.types.c(at.type)} {at.text} = {text};'.replace('* ', '*', 1) if at.type[0] in ('Ref', 'Ptr')
                     else f'{own} {at.text} = {text};')
            return
        if self.declared is not None:
            self.say(f'{own} {at.text};'.replace('* ', '*'))
        shorter = re.fullmatch(re.escape(at.value()) + r' ([-+*/&|]) ([\w.>\[\]-]+)', text)
        if shorter and at.type[0] == 'Int' and at.type[1] >= 32:
            self.with_copies(f'{at.value()} {shorter[1]}= {shorter[2]};')
        else:
            self.with_copies(f'{at.value()} = {text};')

    def aggregate(self, s, at):
        """`aggregate`: "a struct of these fields, an array of these elements, or an enum of this tag and then these fields". The
        fields are read before the store: through a value of its own where one could be what is stored to."""
        reads = Reads(self.fn, s.value)
        in_memory = derefs(s.place) or not isinstance(s.place.base, int) or self.fn.locals[s.place.base].in_memory
        if s.place.base in reads.locals or (in_memory and (reads.memory or reads.calls)):
            self.copies += 1
            name = f'copy{self.copies}'
            self.say('{')
            self.depth += 1
            self.say(f'{self.types.c(at.type)} {name};')
            self.fill(Spot(name, at.type), s.value.xs)
            self.say(f'{at.value()} = {name};' if not at.array else f'memcpy(&{at.text}, &{name}, sizeof {at.text});')
            self.depth -= 1
            self.say('}')
        else:
            self.fill(at, s.value.xs)

    def fill(self, at, xs):
        kind = at.type[0]
        if kind == 'Array':
            for n, x in enumerate(xs):
                self.store(Spot(f"{at.value() if at.array else at.dot('at')}[{n}]", at.type[1]), x)
        elif kind == 'Slice':
            self.say(f'{at.value()} = {self.value(mir.SliceOf(at.type[1], *xs)).text};')
        elif self.types.shapes[at.type[1]][0] == 'Variants':
            self.fill_variant(at, xs)
        else:
            parts = self.types.shapes[at.type[1]][1]
            if len(parts) != len(xs):
                raise Unknown(f'a struct of other fields than {at.type[1]}')
            for n, x in enumerate(xs):
                self.store(self.field(at, n), x)

    def fill_variant(self, at, xs):
        tag = xs[0].value
        name, fields = self.types.variant_names(at.type[1])[tag]
        if len(fields) != len(xs) - 1:
            raise Unknown(f'an enum of other fields than {at.type[1]}')
        if self.types.is_bare(at.type):
            self.say(f'{at.value()} = {self.types.c(at.type)}_{name};')
            return
        self.say(f"{at.dot('tag')} = {self.types.c(at.type)}_{name};")
        for n, x in enumerate(xs[1:], 1):
            self.store(self.variant(at, tag, n), x)

    def repeat(self, s, at):
        """`repeat`: "an array of that many elements, each the value of the operand, which is evaluated once"."""
        text = at.value() if at.array else at.dot('at')
        x = s.value.x
        if isinstance(x, mir.Int) and (x.value == 0 or x.width == 8):
            self.say(f'memset({text}, {x.value}, sizeof {text});')
            return
        if Reads(self.fn, x).memory or s.place.base in Reads(self.fn, x).locals:
            raise Unknown('an array filled from memory')
        self.copies += 1
        i = f'i{self.copies}'
        self.say(f'for (size_t {i} = 0; {i} < {s.value.n}u; {i}++) {{')
        self.depth += 1
        self.store(Spot(f'{text}[{i}]', at.type[1]), x)
        self.depth -= 1
        self.say('}')


def ends(s):
    if isinstance(s, (mir.Return, mir.Exit)):
        return True
    return isinstance(s, (mir.If, mir.Switch)) and all(b and ends(b[-1]) for b in mir.bodies(s))


def wrapped(line):
    """A line in lines of at most WIDEST characters, broken behind a comma or before an operator."""
    out = []
    indent = ' ' * (len(line) - len(line.lstrip()) + 4)
    while len(line) > WIDEST:
        at = best_break(line)
        if at is None:
            break
        out.append(line[:at].rstrip())
        line = indent + line[at:].lstrip()
    return out + [line]


def best_break(line):
    """The last break before the edge at the least depth of brackets, not in a string; behind a bracket if there is no other."""
    depth, best, behind, quoted = 0, None, None, False
    start = len(line) - len(line.lstrip())
    for n, c in enumerate(line[:WIDEST]):
        if c == '"' and line[n - 1] != '\\':
            quoted = not quoted
        if quoted:
            continue
        depth += (c in '([{') - (c in ')]}')
        breaks = (c == ' ' and (line[n - 1] == ',' or re.match(r' (\+|-|\*|&|\||<<|>>|&&|\|\||==) ', line[n:])))
        if breaks and n > start + 20 and (best is None or depth <= best[0] + (n - best[1]) // 40):
            best = (depth, n)
        if n > start + 20 and (re.match(r'\((?!\(|u?int\d+_t)', line[n:]) or (c == ' ' and line[n - 1] == line[n + 1] == '"')):
            behind = n + 1
    return best[1] if best else behind
