"""Simpler forms: what the language's own forms leave once the functions behind them are put where they are called. `?` becomes a branch
on the tag that it is about, an iterator over two slices a loop over both, `==` and `matches!` a comparison. Nothing is computed
twice, and no call or store changes its order with another."""
from . import mir
from .live import derefs, live, stored
from .mir import AddrOf, Aggregate, Assign, Block, Bool, Copy, Exit, If, Int, Local, Loop, Op1, Op2, Place, Return, Switch

FEW = 4    # statements that may stand twice
MORE = 8    # of a choice, of which less is left


def simpler(fn, types):
    """Changes a function until nothing here does, and tells whether anything did."""
    changed, fn.tables = False, fn.statics
    apart(fn)
    while any([tails(fn.body), continued(fn, fn.body), references(fn, types), constants(fn), copies(fn), joined(fn), chosen(fn, types),
               split(fn, types), idle(fn.body), truths(fn.body), returned(fn)]):
        changed = True
    return changed


# ---- what a function does with each local

class Uses:
    """Of each local: the statements that store to it as a whole, how often to a part of it, and the places that read it."""

    def __init__(self, body):
        self.stores, self.partly, self.reads, self.seen = {}, {}, {}, set()
        for s in mir.statements(body):
            if isinstance(s, Assign):
                p = s.place
                if not p.steps:
                    self.stores.setdefault(p.base, []).append(s)
                elif p.steps[0][0] == 'Deref':
                    self.reads.setdefault(p.base, []).append(p)
                else:
                    self.partly.setdefault(p.base, []).append(p)
            for v in values_of(s):
                for e in mir.values(v):
                    if isinstance(e, (Copy, AddrOf)):
                        self.reads.setdefault(e.place.base, []).append(e)

    def once(self, local):
        """The one statement that stores to a local, as a whole, or None."""
        found = self.stores.get(local, ())
        return found[0] if len(found) == 1 and local not in self.partly else None


def values_of(s):
    return [s.value] if isinstance(s, Assign) else mir.own_values(s)


def place_of(e):
    return e if isinstance(e, Place) else e.place


def is_free(fn, local):
    """Whether a local is no parameter, no result, none that the source names, and in no memory."""
    return local > fn.params and local not in fn.named and local not in fn.statics and not fn.locals[local].in_memory


def new_local(fn, t):
    fn.locals.append(Local(t, False))
    return len(fn.locals) - 1


def rewrite(body, place):
    """Each place in a body replaced by what `place` gives, those that are stored to too."""
    for s in mir.statements(body):
        if isinstance(s, Assign) and not s.place.steps:
            s.place = place(s.place)
        mir.replace_in(s, place)


def copied(body):
    """A body once more. Values are not changed where they stand, so that both may have them."""
    out = []
    for s in body:
        if isinstance(s, Assign):
            out.append(Assign(s.place, s.value))
        elif isinstance(s, If):
            out.append(If(s.test, copied(s.yes), copied(s.no)))
            out[-1].is_chosen = getattr(s, 'is_chosen', False)
        elif isinstance(s, Switch):
            out.append(Switch(s.value, [(k, copied(b)) for k, b in s.arms], None if s.default is None else copied(s.default)))
            out[-1].is_chosen = getattr(s, 'is_chosen', False)
        elif isinstance(s, (Block, Loop)):
            out.append(type(s)(copied(s.body)))
        else:
            out.append(Exit(s.level) if isinstance(s, Exit) else Return(s.value))
    return out


def lists(body):
    """Each list of statements of a body, the innermost first."""
    for s in body:
        for inner in mir.bodies(s):
            yield from lists(inner)
    yield body


def count(body):
    return sum(1 for _ in mir.statements(body))


def ends(body):
    """Whether nothing behind a body runs."""
    if not body:
        return False
    s = body[-1]
    if isinstance(s, (Return, Exit)):
        return True
    return isinstance(s, (If, Switch)) and all(ends(b) for b in mir.bodies(s)) and bool(mir.bodies(s))


# ---- a local that is used for several things becomes several

class Webs:
    """Which stores each read of a local may see (`frame`: a local holds what was stored last)."""

    def __init__(self, fn, wanted):
        self.fn, self.wanted, self.parent, self.at, self.stored = fn, wanted, {}, {}, {}
        self.walk(fn.body, {}, [])

    def root(self, x):
        while self.parent.get(x, x) != x:
            x = self.parent[x]
        return x

    def use(self, node, local, state):
        if local in self.wanted:
            found = sorted(state.get(local, {(local, None)}), key=str)
            for other in found[1:]:
                self.parent[self.root(other)] = self.root(found[0])
            if id(node) in self.at:
                self.parent[self.root(self.at[id(node)][1])] = self.root(found[0])
            self.at[id(node)] = (node, found[0])

    @staticmethod
    def join(states):
        states = [s for s in states if s is not None]
        if not states:
            return None
        out = {}
        for s in states:
            for local, found in s.items():
                out[local] = out.get(local, frozenset()) | found
        return out

    def walk(self, body, state, levels):
        """The state behind a body, None where nothing behind it runs. `levels`: the states at the exits of each block and loop."""
        for s in body:
            if state is None:
                return None
            for v in values_of(s):
                for e in mir.values(v):
                    if isinstance(e, (Copy, AddrOf)):
                        self.use(e, e.place.base, state)
            if isinstance(s, Assign):
                if s.place.steps:
                    self.use(s, s.place.base, state)
                elif s.place.base in self.wanted:
                    own = (s.place.base, id(s))
                    self.stored[own] = s
                    state = {**state, s.place.base: frozenset([own])}
            elif isinstance(s, (If, Switch)):
                after = [self.walk(b, state, levels) for b in mir.bodies(s)]
                state = self.join(after) if after else state
            elif isinstance(s, Block):
                levels.append([])
                inside = self.walk(s.body, state, levels)
                state = self.join([inside] + levels.pop())
            elif isinstance(s, Loop):
                top = None
                while top != state:
                    top = state
                    levels.append([])
                    inside = self.walk(s.body, top, levels)
                    state = self.join([top, inside] + levels.pop())
                state = None
            elif isinstance(s, Exit):
                levels[-1 - s.level].append(state)
                return None
            elif isinstance(s, Return):
                return None
        return state


def apart(fn):
    uses = Uses(fn.body)
    wanted = {local for local in uses.stores if is_free(fn, local) and len(uses.stores[local]) > 1}
    if not wanted:
        return
    webs = Webs(fn, wanted)
    named, first = {}, set()
    for own in webs.stored:
        root = webs.root(own)
        if root not in named:
            local = root[0]
            named[root] = local if local not in first else new_local(fn, fn.locals[local].type)
            first.add(local)
    for own, s in webs.stored.items():
        s.place = Place(named[webs.root(own)], ())
    for node, own in webs.at.values():
        to = named.get(webs.root(own), own[0])
        node.place = Place(to, node.place.steps)


# ---- blocks that are left

def exits(body, depth=0):
    """The exits of the block or loop around a body that is so many levels inside it."""
    for s in body:
        if isinstance(s, Exit) and s.level == depth:
            yield s
        for inner in mir.bodies(s):
            yield from exits(inner, depth + isinstance(s, (Block, Loop)))


def tails(body):
    """Takes exits away of a block or a loop that stand at its end, and what stands behind an end."""
    changed = False
    for own in lists(body):
        for at, s in enumerate(own[:-1]):
            if ends([s]):
                del own[at + 1:]
                changed = True
                break
        for s in own:
            if isinstance(s, (Block, Loop)):
                changed |= tail(s.body)
        at = 0
        while at < len(own):
            s = own[at]
            if isinstance(s, Block) and not (len(s.body) == 1 and isinstance(s.body[0], Loop)) and not any(exits(s.body)):
                lowered(s.body, 0)
                own[at:at + 1] = s.body
                changed = True
                continue
            at += 1
    return changed


def tail(body):
    if not body:
        return False
    s = body[-1]
    if isinstance(s, Exit) and s.level == 0:
        body.pop()
        return True
    return isinstance(s, (If, Switch)) and any([tail(b) for b in mir.bodies(s)])


def lowered(body, depth):
    for s in body:
        if isinstance(s, Exit) and s.level > depth:
            s.level -= 1
        for inner in mir.bodies(s):
            lowered(inner, depth + isinstance(s, (Block, Loop)))


def raised(body, by, depth=0):
    """A body that stands so many blocks or loops deeper than it did."""
    for s in body:
        if isinstance(s, Exit) and s.level >= depth:
            s.level += by
        for inner in mir.bodies(s):
            raised(inner, by, depth + isinstance(s, (Block, Loop)))
    return body


def continued(fn, body):
    """`block` of .., and then a few statements that end: they take the place of each exit of the block, which is then none."""
    changed = False
    for own in list(lists(body)):
        inside = is_block_of(body, own)
        for at, s in enumerate(own):
            if not isinstance(s, Block) or (len(s.body) == 1 and isinstance(s.body[0], Loop)):
                continue
            rest = own[at + 1:]
            if not ends(rest):
                if not inside:
                    continue
                rest = rest + [Exit(0)]
            if count(rest) > (MORE if is_choice(fn, rest[0]) else FEW) or any(isinstance(x, (Block, Loop)) for x in mir.statements(rest)):
                continue
            if not rest or not any(exits(s.body)):
                continue
            into(s.body, rest, 0)
            if not ends(s.body):
                s.body += raised(copied(rest), 1)
            del own[at + 1:]
            changed = True
            break
    return changed


def is_choice(fn, s):
    """Whether a statement branches on the tag of a temporary."""
    return isinstance(s, Switch) and isinstance(s.value, Copy) and is_free(fn, s.value.place.base) and len(s.value.place.steps) == 2


def is_block_of(body, own):
    return any(isinstance(s, Block) and s.body is own for s in mir.statements(body))


def into(body, rest, depth):
    for at, s in enumerate(body):
        if isinstance(s, Exit) and s.level == depth:
            body[at:] = raised(copied(rest), depth + 1)
            return
        for inner in mir.bodies(s):
            into(inner, rest, depth + isinstance(s, (Block, Loop)))


# ---- references that are known

def references(fn, types):
    """What is behind a reference that is stored to once, from the address of a place that stays where it is, is that place. What no
    pointer leads to any more is in memory no more."""
    uses = Uses(fn.body)
    changed = False
    for local in list(uses.stores):
        s = uses.once(local)
        if s is None or local <= fn.params or local in fn.named or fn.locals[local].in_memory or not isinstance(s.value, AddrOf):
            continue
        of = s.value.place
        if of.base in fn.statics or not stays(fn, uses, of) or fn.locals[local].type[0] != 'Ref' \
                or types.of_place(fn.locals[of.base].type, of.steps) != fn.locals[local].type[2]:
            continue
        found = uses.reads.get(local, [])
        through = [place_of(e).steps[:1] for e in found]
        if not found or any(steps != (('Deref', fn.locals[local].type[2]),) for steps in through):
            continue
        rewrite(fn.body, lambda p, local=local, of=of: Place(of.base, of.steps + p.steps[1:]) if p.base == local else p)
        remove(fn.body, s)
        uses, changed = Uses(fn.body), True
    for local, home in enumerate(fn.locals):
        if home.in_memory and local > fn.params and local in uses.stores and not any(
                isinstance(e, AddrOf) and not derefs(e.place) for e in uses.reads.get(local, [])) and not is_copy(fn, uses.once(local)):
            home.in_memory = False
            changed = True
    return changed


def is_copy(fn, s):
    """Whether a statement stores a copy of a parameter."""
    return s is not None and isinstance(s.value, Copy) and s.value.place.base in range(1, fn.params + 1) and not s.value.place.steps


def stays(fn, uses, place):
    """Whether a place is in one spot all the time: a part of a local, or of what a pointer leads to that does not change."""
    steps = [k for k, _ in place.steps]
    if 'Deref' not in steps:
        return True
    if 'Deref' in steps[1:] or fn.locals[place.base].in_memory or place.base in uses.partly:
        return False
    return len(uses.stores.get(place.base, ())) == (0 if place.base <= fn.params else 1)


def remove(body, s):
    for own in lists(body):
        for at, x in enumerate(own):
            if x is s:
                del own[at]
                return


# ---- numbers that are known

def constants(fn):
    """A local that is stored to once, a number or a truth, is that."""
    uses = Uses(fn.body)
    known = {}
    for local in uses.stores:
        s = uses.once(local)
        if s is not None and is_free(fn, local) and isinstance(s.value, (Int, Bool)) and not any(
                isinstance(e, Place) or isinstance(e, AddrOf) or e.place.steps for e in uses.reads.get(local, [])):
            known[local] = s
    for s in known.values():
        remove(fn.body, s)
    for s in mir.statements(fn.body) if known else []:
        mir.replace_in(s, lambda p: p, lambda e: known[e.place.base].value if isinstance(e, Copy) and e.place.base in known else None)
    return bool(known)


# ---- copies

def copies(fn):
    """A local that is stored to once, a copy of one that is stored to once too, is that one: it has no other value while it is read."""
    changed = False
    uses = Uses(fn.body)
    for a in list(uses.stores):
        s = uses.once(a)
        if s is None or not is_free(fn, a) or not isinstance(s.value, Copy) or s.value.place.steps:
            continue
        b = s.value.place.base
        is_steady = b not in uses.stores if 0 < b <= fn.params else uses.once(b) is not None
        if a == b or b in uses.partly or not is_steady or b in fn.statics or fn.locals[b].in_memory or fn.locals[b].type != fn.locals[a].type:
            continue
        remove(fn.body, s)
        rewrite(fn.body, lambda p, a=a, b=b: Place(b, p.steps) if p.base == a else p)
        uses, changed = Uses(fn.body), True
    return changed


def joined(fn):
    """`b = a`, where that alone reads a, and neither is read while the other is stored to: both are one."""
    changed = False
    while (found := one_to_join(fn)) is not None:
        s, a, b = found
        remove(fn.body, s)
        rewrite(fn.body, lambda p: Place(b, p.steps) if p.base == a else p)
        changed = True
    return changed


def one_to_join(fn):
    uses, stores = Uses(fn.body), {}
    live(fn, fn.body, set())
    for s in mir.statements(fn.body):
        if isinstance(s, Assign):
            stores.setdefault(s.place.base, []).append(s)
    for b in uses.stores:
        for s in uses.stores[b]:
            if b <= fn.params or b in fn.statics or fn.locals[b].in_memory or not isinstance(s.value, Copy) or s.value.place.steps:
                continue
            a = s.value.place.base
            if a == b or a not in stores or not is_free(fn, a) or fn.locals[a].type != fn.locals[b].type or len(uses.reads[a]) != 1:
                continue
            if not any(a in x.live_after for x in stores[b]) and not any(b in x.live_after for x in stores[a]):
                return s, a, b
    return None


# ---- a choice by what was chosen

def chosen(fn, types):
    """`switch` on a tag that each branch before it stores: each branch goes on with what the tag chooses. The same of an `if`."""
    changed = False
    uses = Uses(fn.body)
    for own in lists(fn.body):
        at = 0
        while at + 1 < len(own):
            first, then = own[at], own[at + 1]
            if isinstance(then, (If, Switch)) and isinstance(first, (If, Switch)) and choose(fn, types, uses, first, then):
                first.is_chosen = True
                del own[at + 1]
                uses, changed = Uses(fn.body), True
                continue
            inside = If(Bool(True), [first], [Return()])
            if isinstance(then, (If, Switch)) and isinstance(first, Assign) and choose(fn, types, uses, inside, then):
                own[at:at + 2] = inside.yes
                uses, changed = Uses(fn.body), True
                continue
            at += 1
    return changed


def straight(body):
    """Where one of two branches that go on with what was chosen ends, what the other does stands behind it."""
    for own in lists(body):
        at = 0
        while at < len(own):
            s = own[at]
            branches = mir.bodies(s)
            if getattr(s, 'is_chosen', False) and len(branches) == 2 and ends(branches[0]) != ends(branches[1]):
                goes_on = branches[ends(branches[0])]
                own[at + 1:at + 1] = goes_on
                goes_on[:] = []
            at += 1


def choose(fn, types, uses, first, then):
    e = then.value if isinstance(then, Switch) else then.test
    if not isinstance(e, Copy) or [k for k, _ in e.place.steps] != (['Variant', 'Field'] if isinstance(then, Switch) else []):
        return False
    local = e.place.base
    if not is_free(fn, local) or local in uses.partly or (isinstance(then, Switch) and e.place.steps[1][1] != 0):
        return False
    last = last_stores(first, local)
    if last is None or {id(s) for _, s in last} != {id(s) for s in uses.stores.get(local, ())}:
        return False
    inside = Uses([then])
    if len(inside.reads.get(local, ())) != len(uses.reads[local]):
        return False
    taken = [arm_of(then, s.value) for _, s in last]
    if any(arm is None for arm in taken) or any(
            sum(x is arm for x in taken) > 1 and count(arm) > FEW for arm in taken):
        return False
    for arm, (_, s) in zip(taken, last):
        for x in mir.statements(arm):
            for v in values_of(x) + ([Copy(x.place)] if isinstance(x, Assign) and x.place.steps else []):
                for y in mir.values(v):
                    if isinstance(y, (Copy, AddrOf)) and y.place.base == local and not is_field_of(y, s.value):
                        return False
    for arm, (body, s) in zip(taken, last):
        fields = s.value.xs[1:] if isinstance(s.value, Aggregate) else []
        news = [new_local(fn, x) for x in variant_of(fn, types, local, s.value)[:len(fields)]]
        body[-1:] = [Assign(Place(to, ()), x) for to, x in zip(news, fields)]
        behind = copied(arm)
        rewrite(behind, lambda p: Place(news[p.steps[1][1] - 1], p.steps[2:]) if p.base == local else p)
        body += behind
    return True


def variant_of(fn, types, local, value):
    """The types of the fields of a value of an enum."""
    return types.shapes[fn.locals[local].type[1]][1][value.xs[0].value] if isinstance(value, Aggregate) else ()


def is_field_of(e, value):
    """Whether a read is of a field of the variant that a value is."""
    steps = e.place.steps
    return isinstance(value, Aggregate) and [k for k, _ in steps[:2]] == ['Variant', 'Field'] and steps[0][1] == value.xs[0].value \
        and 0 < steps[1][1] < len(value.xs) and isinstance(e, Copy)


def last_stores(s, local):
    """The lists of a branching that end with a store of a known choice to a local, with these stores; None where another branch goes on."""
    out = []
    if isinstance(s, Switch) and not s.arms and s.default is None:
        return None
    for body in mir.bodies(s):
        x = body[-1] if body else None
        if stored(x) == local and (isinstance(x.value, Bool) or (
                isinstance(x.value, Aggregate) and x.value.xs and isinstance(x.value.xs[0], Int))):
            out.append((body, x))
        elif isinstance(x, (If, Switch)) and (inner := last_stores(x, local)) is not None:
            out += inner
        elif not ends(body):
            return None
    return out


def arm_of(s, value):
    if isinstance(s, If):
        return (s.yes if value.value else s.no) if isinstance(value, Bool) else None
    if not isinstance(value, Aggregate):
        return None
    for keys, body in s.arms:
        if value.xs[0].value in keys:
            return body
    return s.default


# ---- structs of which each field goes its own way

def split(fn, types):
    uses = Uses(fn.body)
    changed = False
    for local in list(uses.stores):
        t = fn.locals[local].type
        if not is_free(fn, local) or t[0] != 'Named' or types.shapes[t[1]][0] != 'Fields':
            continue
        if not all(isinstance(s.value, Aggregate) and not any(mentions(x, local) for x in s.value.xs) for s in uses.stores[local]):
            continue
        found = [place_of(e) for e in uses.reads.get(local, [])] + uses.partly.get(local, [])
        if any(p.steps[:1] == () or p.steps[0][0] != 'Field' for p in found):
            continue
        news = [new_local(fn, x) for x in types.shapes[t[1]][1]]
        for own in lists(fn.body):
            at = 0
            while at < len(own):
                if stored(own[at]) == local:
                    own[at:at + 1] = [Assign(Place(to, ()), x) for to, x in zip(news, own[at].value.xs)]
                    at += len(news)
                    continue
                at += 1
        for e in uses.reads.get(local, []):
            to = news[place_of(e).steps[0][1]]
            if isinstance(e, AddrOf) and not derefs(e.place):
                fn.locals[to].in_memory = True
        rewrite(fn.body, lambda p, local=local, news=news: Place(news[p.steps[0][1]], p.steps[1:]) if p.base == local else p)
        uses, changed = Uses(fn.body), True
    return changed


def mentions(e, local):
    return any(isinstance(x, (Copy, AddrOf)) and x.place.base == local for x in mir.values(e))


# ---- results

def returned(fn):
    """`r = a; return`, where that alone reads a, which is stored to in the same list: r is stored to there."""
    uses = Uses(fn.body)
    if 0 in uses.reads or 0 in uses.partly:
        return False
    for own in lists(fn.body):
        for at in range(len(own) - 1):
            s = own[at]
            if stored(s) != 0 or not isinstance(own[at + 1], Return) or not isinstance(s.value, Copy) or s.value.place.steps:
                continue
            a = s.value.place.base
            made = uses.once(a)
            if made is None or not is_free(fn, a) or len(uses.reads[a]) != 1 or made not in own[:at]:
                continue
            if any(isinstance(x, Return) or stored(x) == 0 for x in mir.statements(own[own.index(made) + 1:at])):
                continue
            made.place = Place(0, ())
            del own[at]
            return True
    return False


# ---- truths

def idle(body):
    """Takes `a = a` away."""
    changed = False
    for own in lists(body):
        for at in reversed(range(len(own))):
            s = own[at]
            if stored(s) is not None and isinstance(s.value, Copy) and not s.value.place.steps and s.value.place.base == stored(s):
                del own[at]
                changed = True
    return changed


def truths(body):
    """`if c {t = true} else {t = false}` is `t = c`, and the other way round `t = !c`; the same of a switch of two arms. A branch on
    what is known is the one that is taken."""
    changed = False
    for own in lists(body):
        for at in reversed(range(len(own))):
            if isinstance(own[at], If) and isinstance(own[at].test, Bool):
                own[at:at + 1] = own[at].yes if own[at].test.value else own[at].no
                changed = True
        for at, s in enumerate(own):
            test = as_test(s)
            if test is None:
                continue
            own[at] = Assign(test[0], test[1])
            changed = True
    return changed


def as_test(s):
    branches = mir.bodies(s)
    if len(branches) != 2 or any(len(b) != 1 or stored(b[0]) is None or not isinstance(b[0].value, Bool) for b in branches):
        return None
    (yes,), (no,) = branches
    if yes.place.base != no.place.base or yes.value.value == no.value.value:
        return None
    if isinstance(s, If):
        return yes.place, s.test if yes.value.value else Op1('Not', (), s.test)
    keys = [keys for keys, _ in s.arms] + [()] * (s.default is not None)
    of = next((n for n, k in enumerate(keys) if len(k) == 1), None)
    if of is None or not isinstance(s.value, Copy) or [k for k, _ in s.value.place.steps[-2:]] != ['Variant', 'Field']:
        return None
    is_true = branches[of][0].value.value
    return yes.place, Op2('Eq' if is_true else 'Ne', None, s.value, Int(8, keys[of][0]))
