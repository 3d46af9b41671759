#!/usr/bin/env python3
"""Turns a function's Proof.antt of an older Rattle (tie.close (tie.spec ..)) into Invariants.antt and Answers.antt.

usage: tools/answers.py CRATE NAMES.JSON [FN ..]     at the top of the checkout

NAMES.JSON is what `rt check --generated DIR --old-names` writes in the crate's folder. An answer that only says `search rules` is left
out, since the check finds it; the others keep their terms, with paths by the names of today's goals. What is not understood is said.
"""
import json
import os
import re
import sys

HOLE = re.compile(r"^\(?λ [^.]*\.\s*search rules\)?$")
DASH = lambda s: s.replace("_", "-")
PLAIN = {"args", "requires", "ranges", "well_formed", "type_inv", "well-formed", "type-inv", "utf8"}


def blocks(text):
    """The file's top-level blocks: (head word, text)."""
    out, now = [], []
    for line in text.split("\n"):
        if line and not line[0].isspace() and now and not continues(now, line):
            out.append("\n".join(now).rstrip())
            now = []
        now.append(line)
    out.append("\n".join(now).rstrip())
    return [b for b in out if b.strip()]


def continues(now, line):
    if now and all(l.startswith("--") for l in now):
        return not line.startswith("use ")
    last = [l for l in now if l.strip() and not l.startswith("--")]
    if not last:
        return False
    if line.startswith("--") or line.startswith("use "):
        return False
    if line[0] in ")}]":
        return True
    if line.startswith("unfolding "):
        return True
    name = head(last[0])
    return name is not None and re.match(re.escape(name) + r"(?![\w'-])", line) is not None and not re.match(r"\S+\s*:", line)


def head(line):
    m = re.match(r"(?:(?:pub|abbrev|unfoldable)\s+)*(\S+)", line)
    return m[1] if m else None


def split_args(text):
    """Splits the arguments of tie.spec, balanced."""
    args, depth, now = [], 0, ""
    for ch in text:
        if ch in "([{":
            depth += 1
        if ch in ")]}":
            depth -= 1
            if depth < 0:
                break
        if ch.isspace() and depth == 0:
            if now:
                args.append(now)
            now = ""
        else:
            now += ch
    if now:
        args.append(now)
    return args


class Fn:
    def __init__(self, info, said):
        self.info, self.said = info, said
        self.imported = set()
        self.parent = {p[0]: p[1] for p in info["places"]}
        self.step = {p[0]: p[2] for p in info["places"]}
        self.named = {p[0]: n for p, n in zip(info["places"], info["places_by_name"])}
        self.arms = {p[0]: a for p, a in zip(info["places"], info["arms"])}
        self.facts = {p[0]: dict(p[4]) for p in info["places"]}
        self.clauses = {p[0]: x and x["fields"] for p, x in zip(info["places"], info["clauses"])}
        self.pre = info["pre"] and info["pre"]["fields"]
        self.typed = {p[0]: y for p, y in zip(info["places"], info["typed"])}
        self.callee = {p[0]: p[3] for p in info["places"]}

    def find(self, place, step):
        step = step[:-4] if step.endswith("_lem") else step
        step = step[:1].lower() + step[1:]
        for exact in (True, False):
            at = place
            while at is not None:
                old, new = self.step[at]
                if DASH(old) == DASH(step) or not exact and DASH(new) == DASH(step):
                    return at
                at = self.parent[at]
        return None

    def arm(self, place, step, comps):
        """The arm's field that a path of an older Rattle led to, and what is left of the path."""
        at = place
        while at is not None:
            best = None
            for field, old, way in (self.arms[at] or (0, 0, []))[2]:
                if DASH(old) == DASH(step) and comps[: len(way)] == way and not field.endswith("-own"):
                    if way and (best is None or len(way) > len(best[1])):
                        best = (field, way)
            if best:
                return [self.arms[at][0], best[0]] + comps[len(best[1]):]
            for field, old, way in (self.arms[at] or (0, 0, []))[2]:
                if DASH(old) == DASH(step) and not way and field.endswith("-own") and comps[:1] == ["given"]:
                    return [self.arms[at][0], field] + comps
            at = self.parent[at]
        return None

    def known(self, place, step):
        """The variable whose type a step of an older Rattle spoke of, and the nearest place that knows it."""
        at = place
        while at is not None:
            for var, s in self.typed[at]:
                if DASH(s) == DASH(step):
                    return var, at
            at = self.parent[at]
        return None, None

    def place(self, name):
        for p in self.parent:
            if DASH(p) == DASH(name) or DASH(self.named[p]) == DASH(name):
                return p
        return None

    def turn(self, body, var, place, need, lemmas={}):
        """Paths of `body` by today's names; `var` stands at `place`."""
        body = body.replace("«open»", "open")
        body = re.sub(r"λ (\w+)\. \1(?=\.)", lambda m: f"λ {m[1]}\1. {m[1]}\1", body)
        env = {var: place}
        out, at = [], 0
        # Aliases of places go.
        while True:
            m = None
            for m in re.finditer(r"let (\w+[\w'₀-₉]*) = (\w+)((?:\.before)+) in[ \n]+", body):
                if m[2] in env:
                    break
            else:
                m = None
            if m is None:
                break
            p = env[m[2]]
            for _ in range(m[3].count(".before")):
                p = self.parent.get(p) or "Start"
            env[m[1]] = p
            body = body[: m.start()] + body[m.end():]
        # So do aliases of a contract's clauses.
        if self.pre and len(self.pre) > 1:
            for m in list(re.finditer(r"let (\w+) = (\w+)((?:\.before)*)\.requires in[ \n]+", body)):
                if m[2] in env:
                    body = body.replace(m[0], "", 1)
                    body = re.sub(r"(?<![\w.'-])%s(?=\.[01])" % m[1], var + ".requires", body)
        names = "|".join(re.escape(v) for v in sorted(env, key=len, reverse=True))

        # A lemma of a place is given that place.
        def given(m):
            p = lemmas[m[1]]
            if p == place:
                return f"{m[1]} {var}"
            if need:
                return f"{m[1]} (goal.at.{need} {var}).{self.named[p]}"
            ups, q = "", place
            while q is not None and q != p:
                ups += ".before"
                q = self.parent[q]
            return f"{m[1]} §{ups}"

        if lemmas:
            who, var_of = "|".join(map(re.escape, lemmas)), f"(?:{names})"
            body = re.sub(r"(?<![\w.'-])(%s) \(%s((?:\.before)*)\)" % (who, var_of), given, body)
            body = re.sub(r"(?<![\w.'-])(%s) %s((?:\.before)*)(?![\w.'-])" % (who, var_of), given, body)
            body = body.replace("§", "\0")

        def one(m):
            p, comps = env[m[1]], m[2].split(".")[1:] if m[2] else []
            while comps and comps[0] == "before":
                p = self.parent.get(p) or "Start"
                comps = comps[1:]
            if not comps:
                if p == place and m[1] == var and not m[2]:
                    return var
                if need:
                    self.imported.add(self.named[p])
                    return f"(goal.at.{need} {var}).{self.named[p]}"
                ups, q = "", place
                while q is not None and q != p:
                    ups += ".before"
                    q = self.parent[q]
                return var + ups
            first = comps[0]
            if first in PLAIN:
                comps[0] = first.replace("-", "_")
                if first in ("args", "ranges") and len(comps) > 1:
                    comps[1] = comps[1].replace("-", "_")
                if first == "requires" and self.pre and len(self.pre) > 1:
                    named = by_clause(self.pre, comps[1:])
                    if named is None:
                        return "(" + ", ".join(f"{var}.requires.{f}" for f in self.pre) + ")"
                    comps[1:] = named
                return ".".join([var] + comps)
            q = self.find(place, first)
            var_known, there = self.known(place, first)
            if var_known and comps[1:2] == ["given"]:
                at = var
                if there != place and need:
                    self.imported.add(self.named[there])
                    at = f"(goal.at.{need} {var}).{self.named[there]}"
                q = place
                while there != place and not need and q is not None and q != there:
                    at, q = at + ".before", self.parent[q]
                return ".".join([at, "type_inv", var_known] + comps[2:])
            in_arm = self.arm(place, first, comps[1:])
            if not in_arm and comps[1:2] == ["rest"]:
                return ".".join([var, "in_default", "in_default-own"] + comps[1:])
            if not in_arm and comps[1:2] and re.match(r"keys\d+$", comps[1]) and q:
                at = place
                while at is not None and not (self.arms[at] and DASH(self.step[at][0]) == DASH(first)):
                    at = self.parent[at]
                if at:
                    return ".".join([var, self.arms[at][0], self.arms[at][0] + "-own"] + comps[1:])
            if in_arm:
                return ".".join([var] + in_arm)
            if q is None:
                self.said(f"no step {first} at {p} for {m[0]}")
                return m[0]
            comps[0] = self.step[q][1]
            if comps[1:2] == ["ensures"] and self.clauses[q]:
                named = by_clause(self.clauses[q], comps[2:])
                if named is None:
                    return "(" + ", ".join(f"{var}.{comps[0]}.ensures.{f}" for f in self.clauses[q]) + ")"
                comps[2:] = named
            if len(comps) > 1 and comps[1] in self.facts[q]:
                comps[1] = self.facts[q][comps[1]]
            if comps[1:2] == ["new"] and comps[2:3] and comps[2] in "01":
                rest, k = comps[2:], 0
                while rest[:1] == ["1"]:
                    rest, k = rest[1:], k + 1
                params = self.info["params"].get(self.callee[q]) or []
                if rest[:1] == ["0"] and k < len(params):
                    comps[2:] = [params[k]] + rest[1:]
                else:
                    self.said(f"look at {m[0]}: {'.'.join(comps)}")
            if comps[1:2] == ["new"] and len(comps) > 2:
                comps[2] = comps[2].replace("-", "_")
            if comps[1:2] == ["auto"] and comps[2:3] and comps[2].isdigit():
                self.said(f"look at {m[0]}: {'.'.join(comps)}")
                comps[2] = "image"
            if comps[0].endswith("-1") or "given" in comps[1:2]:
                self.said(f"look at {m[0]}: {'.'.join(comps)}")
            comps = [c.replace("type-inv", "type_inv") for c in comps]
            return ".".join([var] + comps)

        body = re.sub(r"(?<![\w.'-])(?!(?<=\{)\w+ =)(%s)((?:\.[\w'-]+)*)(?![\w'-])" % names, one, body).replace("\0", var).replace("\1", "")
        body = re.sub(r"(?<![\w'-])((?!%s\.)[\w'₀-₉]+)\.ranges(?![\w'-])" % re.escape(var), lambda m: m[0] if m[1] in env else m[1] + ".fits", body)
        body = re.sub(r"(?<!\.\w)\)\.ranges(?![\w'-])", ").fits", body)
        for old, new in self.info["args"]:
            if old.startswith("."):
                body = body.replace(var + old.replace(" ", ""), var + new.replace(" ", ""))
        return body


def by_variables(b, name, info, say):
    """An invariant or a measure, as a function of the record of the live variables."""
    for (names, vs), changed in zip(info["loops"], info["changed"]):
        if DASH(name).split("-", 1)[1] == DASH(names[0]):
            break
    else:
        say("no loop for " + name)
        return b
    new = name.split("-", 1)[0] + "-" + names[1]
    lines = b.split("\n")
    at = [j for j, l in enumerate(lines) if re.match(re.escape(name) + r"\s+[^:]", l)][0]
    note = [l for l in lines[:at] if l.startswith("--")]
    m = re.match(re.escape(name) + r"\s+([^=]*?)\s*=\s*(.*)$", "\n".join(lines[at:]), re.S)
    params, body = m[1].split(), m[2]
    wants = ["l.initial." + v if c else "l." + v for v, c in zip(vs, changed)] + ["l." + v for v, c in zip(vs, changed) if c]
    if len(params) != len(wants):
        say(f"{name} takes {params}, and the loop has {wants}")
        return b
    table = dict(zip(params, wants))
    body = re.sub(r"(?<![\w.'-])(%s)(?![\w'₀-])" % "|".join(re.escape(p) for p in sorted(params, key=len, reverse=True)), lambda x: table[x[1]], body)
    # A signed variable is its value.
    body = body.replace("(to_z w64 l.", "(l.").replace("to_z w64 l.", "l.")
    body = re.sub(r"\((l\.[\w.]+)\)", r"\1", body)
    return "\n".join(note + [f"abbrev pub {new} : goal.{new}", f"{new} l =" + (" " if "\n" not in body else "\n    ") + body])


def by_clause(fields, comps):
    """A path into a tuple of clauses, by the clauses' names."""
    n = len(fields)
    if n == 1:
        return [fields[0]] + comps
    k = 0
    while k < n - 1 and comps[:1] == ["1"]:
        k, comps = k + 1, comps[1:]
    if k == n - 1:
        return [fields[k]] + comps
    if comps[:1] == ["0"]:
        return [fields[k]] + comps[1:]
    return None


def as_record(term, fields):
    """The tuple that a term ends in, as a record of the clauses."""
    t = term.rstrip()
    if not t.endswith(")"):
        return None
    depth = 0
    for i in range(len(t) - 1, -1, -1):
        depth += t[i] in ")]}"
        depth -= t[i] in "([{"
        if depth == 0:
            break
    inner, parts, depth, now = t[i + 1:-1], [], 0, ""
    for ch in inner:
        depth += ch in "([{"
        depth -= ch in ")]}"
        if ch == "," and depth == 0:
            parts.append(now)
            now = ""
        else:
            now += ch
    if now.strip():
        parts.append(now)
    parts = [x.strip() for x in parts]
    n = len(fields)
    if len(parts) < 2:
        return None
    while len(parts) < n and parts[-1].startswith("(") and parts[-1].endswith(")"):
        more = as_record(parts[-1], ["", ""])
        if more is None:
            return None
        a, b = more
        parts = parts[:-1] + [a, b]
    if len(parts) > n:
        parts = parts[: n - 1] + ["(" + ", ".join(parts[n - 1:]) + ")"]
    if fields == ["", ""]:
        return parts
    if len(parts) != n:
        return None
    return t[:i] + "(record { " + "; ".join(f"{f} = {x}" for f, x in zip(fields, parts)) + " })" if t[:i].strip() and not t[:i].rstrip().endswith("in") else t[:i] + "record { " + "; ".join(f"{f} = {x}" for f, x in zip(fields, parts)) + " }"


def lam(text):
    """(binders, body) of a lambda in parentheses, or None."""
    t = text.strip()
    if t.startswith("(") and t.endswith(")"):
        t = t[1:-1].strip()
    m = re.match(r"λ ([^.]*)\.\s*(.*)$", t, re.S)
    return (m[1].split(), m[2]) if m else None


def aligned(args, needs, heads):
    """The answers without those of goals that are settled now: only answers that say nothing are left out."""
    def asks(a):
        if a in heads:
            m = re.search(r": tie\.Need-(\S+)", heads[a])
            return m and "requires" in m[1]
        got = lam(a)
        return bool(got and "κs" in got[0])

    best = {(0, 0): []}
    for i in range(len(args)):
        for j in range(len(needs) + 1):
            if (i, j) not in best:
                continue
            if HOLE.match(args[i]) or re.match(r"^\(?λ c\. (omega arith|search rules)\)?$", args[i]):
                best.setdefault((i + 1, j), best[i, j])
            if j < len(needs) and asks(args[i]) == ("requires" in needs[j]) and (not HOLE.match(args[i]) or True):
                best.setdefault((i + 1, j + 1), best[i, j] + [args[i]])
    return best.get((len(args), len(needs)))


def convert(path, fn_path, crate, info, say):
    text = open(path, encoding="utf-8").read()
    fn = Fn(info, say)
    bs = blocks(text)
    uses = [b for b in bs if b.startswith("use ")]
    heads = {}
    rest = []
    top = []
    for b in bs:
        if b.startswith("use "):
            continue
        lines = [l for l in b.split("\n") if not l.startswith("--")]
        if not lines:
            top.append(b)
            continue
        rest.append(b)
        heads[head(lines[0])] = b
    spec = [b for b in rest if "tie.close" in b]
    if len(spec) != 1:
        say("no tie.close")
        return None
    body = spec[0].split("tie.spec", 1)[1] if "tie.spec" in spec[0] else ""
    args = split_args(body)
    unfolding = re.search(r"^unfolding (.*)$", spec[0], re.M)
    unfolding = unfolding[0] + "\n" if unfolding else ""
    loops = info["loops"]
    given, args = args[: 2 * len(loops)], args[2 * len(loops):]
    written = []
    for i, a in enumerate(given):
        if a not in heads:
            name = ("invariant-" if i % 2 == 0 else "decreases-") + loops[i // 2][0][0]
            got = lam(a)
            if got:
                written.append(f"abbrev {name} : goal\n{name} {' '.join(got[0])} = {got[1]}")
                rest.append(written[-1])
                heads[name] = written[-1]
            else:
                say(f"given {i} is {a}")
    needs = info["needs"]
    if len(args) > len(needs):
        args = aligned(args, [n[0] for n in needs], heads) or args
    if len(args) != len(needs):
        say(f"{len(args)} answers for {len(needs)} needs: {[n[0] for n in needs]} loops {json.dumps(loops)[:200]} settled {info['settled']}")
    used, answers, needs_of = set(), [], {}
    placed, imported = {}, set()
    for name, b in heads.items():
        m = re.search(r"^(?:abbrev )?%s : \((\w+) : tie\.([\w'-]+)[^)]*\) →" % re.escape(name), b, re.M) or re.search(r"^(?:abbrev )?%s : ()tie\.([\w'-]+) →" % re.escape(name), b, re.M)
        if m and not m[2].startswith("Need-"):
            p = fn.place(m[2])
            if p is None:
                say(f"no place {m[2]}")
            else:
                placed[name] = p
                imported.add(fn.named[p])
    by_old = {DASH(o): i for i, (o, n) in enumerate(needs)}
    for i, a in enumerate(args):
        if a in heads:
            b = heads[a]
            used.add(a)
            m = re.search(r": tie\.Need-(\S+)", b)
            old = m[1] if m else None
            k = i
            if old:
                for o in (old, re.sub(r"^(overflow|nonzero)-", "", old), old.replace("offset-bounds", "offset").replace("slice-bounds", "part").replace("bounds", "index")):
                    if DASH(o) in by_old:
                        k = by_old[DASH(o)]
                        break
                else:
                    say(f"need {old} is not asked")
                    if len(args) != len(needs):
                        continue
            lines = b.split("\n")
            note = [l for l in lines if l.startswith("--")]
            un = [l for l in lines if l.startswith("unfolding ")]
            eq = [j for j, l in enumerate(lines) if re.match(re.escape(a) + r"\s+[^:]", l)]
            if len(eq) != 1:
                say(f"{a} has {len(eq)} equations")
                continue
            m = re.match(re.escape(a) + r"\s+([^=]*?)\s*=\s*(.*)$", "\n".join(lines[eq[0]:]), re.S)
            binders, term = m[1].split(), m[2]
        else:
            got = lam(a)
            if not got:
                say(f"answer {i} is {a}")
                continue
            if HOLE.match(a):
                if unfolding and i < len(needs) and len(args) == len(needs) and needs[i][1].startswith("returns"):
                    answers.append((i, [], needs[i][1], [unfolding.rstrip()], ["c"], "search rules"))
                continue
            note, un = [], [unfolding.rstrip()] if unfolding else []
            binders, term = got
            k = i
            if len(args) != len(needs):
                say(f"answer {i} has no place: {a}")
                continue
        if k >= len(needs):
            say(f"answer {i} is past the needs: {a}")
            continue
        new = needs[k][1]
        if new.startswith("shape_of"):
            continue
        place = info["asked_at"][k][0]
        var = binders[0]
        more = [x for x in binders[1:] if x not in ("κs", "_")]
        if a in heads:
            needs_of[a] = new
        if more and more != ["e"]:
            say(f"{new} has more binders: {more}")
        term = fn.turn(term, var, place, new, placed)
        term = re.sub(r"(?<![\w'-])to_z-of_z (?=\()", "to_z-of_z {w = w64} ", term)
        fields = info["asked"].get(needs[k][0]) or info["asked"].get(new)
        if fields and len(fields) > 1 and "search rules" != term.strip():
            got = as_record(term, fields)
            if got is None and len(fields) == 2 and not re.match(r"(let|rw|simp|omega|search|grind|record|λ)\b", term.strip()):
                got = "record { %s = (%s).0; %s = (%s).1 }" % (fields[0], term.strip(), fields[1], term.strip())
            if got is None:
                say(f"{new} wants {fields}")
            else:
                term = got
        answers.append((k, note, new, un, [var] + more, term))
    # What is left: invariants, measures, lemmas.
    inv, lemmas = [], []
    for b in rest:
        name = head([l for l in b.split("\n") if not l.startswith("--")][0])
        if b in spec or name in used:
            continue
        if re.match(r"(invariant|decreases)\b", name):
            inv.append(by_variables(b, name, info, say))
            continue
        m = re.search(r"\((\w+) : tie\.([\w'-]+)([^)]*)\)", b) or re.search(r": ()tie\.([\w'-]+)() →", b)
        if m:
            p = fn.place(m[2])
            if p is None:
                say(f"no place {m[2]}")
            else:
                b = b[: m.start()] + (f"({m[1]} : {fn.named[p]})" if m[1] else f": {fn.named[p]} →") + b[m.end():]
                for v in (set(re.findall(r"^%s (\w+)" % re.escape(name), b, re.M)) | {m[1]}) - {""}:
                    b = fn.turn(b, v, p, None, placed)
        lemmas.append(b)
    # An answer that names another stands below it.
    answers.sort(key=lambda x: x[0])
    olds = {a: needs_of[a] for a in needs_of}
    def renamed(term):
        for old, new in olds.items():
            term = re.sub(r"(?<![\w.'-])%s(?= \(?c\b)" % re.escape(old), new, term)
        return term
    answers = [(k, note, new, un, bs, renamed(term)) for k, note, new, un, bs, term in answers]
    done, order = set(), []
    while answers:
        names_left = {a[2] for a in answers}
        for a in answers:
            cites = {n for n in names_left if n != a[2] and re.search(r"(?<![\w.'-])%s (?=\(?c\b)" % re.escape(n), a[5])}
            if not cites:
                break
        answers.remove(a)
        order.append(a)
    answers = order
    return uses, top, inv, lemmas, answers, loops, imported | fn.imported


def use_lines(uses, body, dotted):
    """The import lines that `body` still needs."""
    out = []
    for u in uses:
        if re.search(r"\.(Statement|Tie)\b", u):
            continue
        m = re.match(r"use (\S+)\.\{(.*)\}$", u)
        if not m:
            out.append(u)
            continue
        kept = []
        for it in m[2].split(", "):
            name = it.split(" as ")[-1]
            core = name.replace("◌", "")
            token = re.escape(core)
            if re.search(r"(?<![\w'-])%s(?![\w'-])" % token if re.match(r"[\w]", core) else token, body):
                kept.append(it)
        if kept:
            out.append("use %s.{%s}" % (m[1], ", ".join(kept)))
    return out


def main():
    crate, names = sys.argv[1], json.load(open(sys.argv[2], encoding="utf-8"))
    only = sys.argv[3:]
    root = f"crates/{crate}/proofs"
    for folder, dirs, fs in sorted(os.walk(root)):
        if "Proof.antt" not in fs:
            continue
        path = os.path.join(folder, "Proof.antt")
        dotted = os.path.relpath(folder, root).replace("/", ".")
        if only and dotted.split(".")[-1] not in only and dotted not in only:
            continue
        key = f"Rattle-{crate}-proofs.{dotted}.Lts"
        say = lambda s, d=dotted: print(f"{d}: {s}")
        if key not in names:
            say("no names")
            continue
        got = convert(path, dotted, crate, names[key], say)
        if got is None:
            continue
        uses, top, inv, lemmas, answers, loops, imported = got
        body = "\n\n".join(lemmas) + "\n"
        for k, note, new, un, binders, term in answers:
            body += "\n" + "".join(n + "\n" for n in note) + f"pub {new} : goal.{new}\n" + "".join(u + "\n" for u in un) + f"{new} {' '.join(binders)} ="
            body += (" " + term.strip() if "\n" not in term.strip() else "\n    " + term.strip()) + "\n"
        if inv:
            say("loop: " + json.dumps(loops)[:300])
            given = "\n\n".join(inv) + "\n"
            lines = use_lines(uses, given, dotted) + [f"use Rattle.{crate}.proofs.{dotted}.Given as goal"]
            with open(os.path.join(folder, "Invariants.antt"), "w", encoding="utf-8") as f:
                f.write("\n".join(top + lines) + "\n\n" + given)
        if answers or lemmas:
            lines = use_lines(uses, body, dotted) + [f"use Rattle.{crate}.proofs.{dotted}.Goals as goal"]
            if imported:
                lines.append("use Rattle.%s.proofs.%s.Goals.{%s}" % (crate, dotted, ", ".join(sorted(imported))))
            if "{w = w64}" in body and not any(re.search(r"\bw64\b", l) for l in lines):
                lines.insert(0, f"use mir.Syntax.{{w64}}")
            with open(os.path.join(folder, "Answers.antt"), "w", encoding="utf-8") as f:
                f.write("\n".join(([] if inv else top) + lines) + "\n\n" + body.strip("\n") + "\n")
        os.makedirs(f"/tmp/old-proofs/{crate}/{dotted}", exist_ok=True)
        os.replace(path, f"/tmp/old-proofs/{crate}/{dotted}/Proof.antt")


main()
