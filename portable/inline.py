"""Plain forms: the kit's small functions and those that the language derives are put where they are called, so that what is left of them
in C is what they do; and what changes nothing is taken away. A function that this repository writes stays one."""
from . import mir
from .live import derefs, live, stored
from .mir import AddrOf, Assign, Block, CallOf, Copy, Exit, If, Local, Loop, Place, Return, Switch
from .simpler import FEW, copied, count, ends, simpler, straight

SMALL = 16    # statements of a function that is put in several places
LONGEST = 40    # of one that one function of the kit calls, and of an iterator's step


def inlined(functions, is_kit, is_derived, types):
    """Changes functions, each after those that it calls, and leaves out what is called no more."""
    callers = {}
    for fn in functions.values():
        for name in mir.callees(fn):
            callers.setdefault(name, []).append(fn.name)
    fit, walks, done = {}, {}, set()

    def visit(name):
        if name in done:
            return
        done.add(name)
        fn = functions[name]
        for callee in mir.callees(fn):
            visit(callee)
        put_in(fn, fn.body, functions, fit, walks)
        while simpler(fn, types):
            without_dead(fn, types, live)
            without_empty(fn.body)
        most = 0
        if name in callers and (is_kit(name) or is_derived(name)):
            is_step = fn.symbol.endswith('Iterator::next') or is_kit(callers[name][0])
            most = LONGEST if len(callers[name]) == 1 and is_step else SMALL
        body = whole(fn, most)
        if body is not None:
            fit[name] = body
        elif is_walk(fn) and is_kit(name) and len(callers.get(name, ())) == 1 and count(fn.body) <= LONGEST:
            walks[name] = fn.body
    for name in list(functions):
        visit(name)
    called = {callee for fn in functions.values() if fn.name not in fit for callee in mir.callees(fn)}
    for name in [*fit, *(name for name in walks if name not in called)]:
        del functions[name]
    for fn in functions.values():
        straight(fn.body)


def whole(fn, most):
    """The body of a function without its returns, if it has no loop and not too much of it is there twice then; else None."""
    if not fn.body or any(isinstance(s, Loop) for s in mir.statements(fn.body)):
        return None
    body = without_returns(copied(fn.body))
    return body if body is not None and count(body) <= most else None


def without_returns(body):
    """A body that ends where it returned: what stands behind a branch that returns goes into the one that does not."""
    out = []
    for at, s in enumerate(body):
        if isinstance(s, Return):
            return out
        out.append(s)
        if not any(isinstance(x, Return) for x in mir.statements([s])):
            continue
        rest = body[at + 1:]
        if not isinstance(s, (If, Switch)) or (sum(not ends(b) for b in mir.bodies(s)) > 1 and count(rest) > FEW):
            return None
        for b in mir.bodies(s):
            new = without_returns(b if ends(b) else b + copied(rest))
            if new is None:
                return None
            b[:] = new
        return out
    return out


def is_walk(fn):
    """Whether a function goes through an iterator, as `all` and `position` do."""
    return fn.name != fn.symbol and '::Iterator::' in fn.symbol and any(isinstance(s, Loop) for s in mir.statements(fn.body))


def put_in(fn, body, functions, fit, walks):
    at = 0
    while at < len(body):
        s = body[at]
        for inner in mir.bodies(s):
            put_in(fn, inner, functions, fit, walks)
        if isinstance(s, Assign) and isinstance(s.value, CallOf):
            name, rest = s.value.name, body[at + 1:]
            if name in fit:
                body[at:at + 1] = instead(fn, s, functions[name], fit[name])
            elif name in walks and ends(rest) and count(rest) <= FEW and not any(isinstance(x, (Block, Loop)) for x in mir.statements(rest)):
                body[at:at + 1] = instead(fn, s, functions[name], [Block(left(copied(walks[name]), 0))])
        at += 1


def left(body, depth):
    """A body that leaves a block around it where it returned."""
    out = []
    for s in body:
        for inner in mir.bodies(s):
            inner[:] = left(inner, depth + isinstance(s, (Block, Loop)))
        out.append(Exit(depth) if isinstance(s, Return) else s)
    return out


def instead(fn, s, callee, callee_body):
    """The statements that take the place of a call: `call`, "the operands are evaluated" and stored in the parameters, then the body
    runs, in a frame of its own. A parameter that is not stored to is what it is handed, where that is a local that no pointer leads to."""
    first = len(fn.locals)
    fn.locals += [Local(x.type, x.in_memory) for x in callee.locals]
    fn.statics.update({first + local: numbers for local, numbers in callee.statics.items()})
    fn.shapes.update(callee.shapes)
    written = {x.place.base for x in mir.statements(callee_body) if isinstance(x, Assign) and not derefs(x.place)}
    same = {i: x.place for i, x in enumerate(s.value.args, 1) if i not in written and isinstance(x, Copy)
            and not callee.locals[i].in_memory and not derefs(x.place) and not fn.locals[x.place.base].in_memory}

    def place(p):
        if p.base in same:
            return Place(same[p.base].base, same[p.base].steps + p.steps)
        return Place(p.base + first, p.steps)

    def moved(body):
        for x in body:
            if isinstance(x, Assign) and not x.place.steps:
                x.place = place(x.place)
            mir.replace_in(x, place)
            for inner in mir.bodies(x):
                moved(inner)
    body = copied(callee_body)
    moved(body)
    params = [Assign(Place(first + i, ()), x) for i, x in enumerate(s.value.args, 1) if i not in same]
    return params + body + [Assign(s.place, Copy(Place(first, ())))]


# ---- what changes nothing

def without_dead(fn, types, live):
    """Takes stores away to what is read no more, or has no bytes, and what they read with them."""
    def dead(s):
        if isinstance(s, Assign) and not isinstance(s.value, CallOf) and stores_nothing(fn, types, s):
            return True
        to = stored(s)
        return to is not None and to > fn.params and to not in s.live_after and not fn.locals[to].in_memory \
            and not any(isinstance(e, CallOf) for e in mir.values(s.value))

    def rid(body):
        count = len(body)
        body[:] = [s for s in body if not dead(s)]
        return count - len(body) + sum(rid(inner) for s in body for inner in mir.bodies(s))
    live(fn, fn.body, set())
    while rid(fn.body):
        live(fn, fn.body, set())


def stores_nothing(fn, types, s):
    """Whether a store is of a value of no bytes, or of the address of one."""
    if not isinstance(s, Assign) or s.place is None or not isinstance(s.place.base, int):
        return False
    of = [s.place] + ([s.value.place] if isinstance(s.value, (AddrOf, Copy)) and isinstance(s.value.place.base, int) else [])
    return any(types.of_place(fn.locals[p.base].type, p.steps) == ('Unit',) for p in of)


def without_empty(body):
    """Takes branches away of which none does anything: what they test is an operand, which is read and nothing else."""
    for s in body:
        for inner in mir.bodies(s):
            without_empty(inner)
    body[:] = [s for s in body if not (isinstance(s, (mir.If, mir.Switch)) and not any(mir.bodies(s)))]
