#!/usr/bin/env python3
"""Count the places of the design pass (docs/DESIGN-PASS.md) in crates/*/src/*.rt.

    tools/design_count.py [--point N] [--totals]

prints a line for each place, `file:line  word  name`, and a total for each point and word. The
rules go by text alone. They find candidates: a reader judges each. Comments are cut away first.

Point 1, own enums, flags and numbers
  option   an enum of two variants, one with a value and one without, and no `Refusal`
  result   an enum with a variant that holds a `Refusal`; at most one other variant
  result3  the same with more variants
  flag     a struct with a `bool` and another field, or with an enum of word result beside an array
  sentinel a constant `NO_..`, or a function that returns one, or that has `return 16|255|256;`
  refusal  a `const` of `u8` in crate refusal: a number for a refusal
  number   a function with a match whose arms are whole numbers and whose subject is a kind, a level,
           a dash, a precision, a sort or a number of bytes
  kind     a function with a parameter `kind: u8`
  through  a line that hands a refusal on, `X::Refused(r) => Y::Refused(r)`: a `?`
Point 2, twins
  fn       two or more functions of 20 tokens and more with equal bodies and parameters, once every
           name, type and literal is replaced by the order in which it first occurs
  same     two or more functions of one name and shape, of any length
  name     two or more functions of one crate whose names are equal once these words are taken away:
           bridge, resistance; segment, term, pair, character, point; figures, bytes, text; curve;
           plain, stepped, geometric, single, whole, missing; basic, front, own, back
  enum     three or more enums with equal variants, once types are taken away
  answer   a struct that begins with `number: u8, place: u64`
Point 3, loops
  up, down a `while` whose body has `+= 1` or `+= 2`; `-= 1` or `-= 2`
  while    another `while`
  for      a `for` over a range whose variable is an index in the body
Point 4, equality, order, copying, conversion and printing by hand
  equal    a function named equal, same.., is_same, all_same
  order    a function named greater, less, apart, shorter_of, next_seven, is_outside
  test     a function to `bool` with a match whose arms are `true` and `false`
  convert  a function of one parameter with a match, an `if` or an `as`, that takes a number and gives an
           own type (no row, mark or answer), or takes an own type and gives a number, or takes a number
           and gives one of another width
  print    a function with a parameter `out: &mut impl Write`
  unfold   a line `let x = s.x;`: a field copied to a name before it is used
Point 5, facts and parameters
  fact     a conjunct of a `requires` that stands, by the same text, in three or more functions
  opens    the premise `Opens kind image.now sheet c` of an `ensures`, and other premises alike
  group    three or more parameters, by name and type, that three or more functions share, or two that
           ten or more share (the largest such set for its functions)
Point 6, buffers, arrays, searches
  length   a struct with an array and a number of elements (count, length, field_count)
  lists    a function with three or more parameters that are slices
  array    a `let mut x = [..; N];`
  front    a call of front, front_figures or front_mut: a buffer cut by its length
  search   a `while low < high`
  names    a function with two or more calls of `equal(x, b"..")`
  rows     a match with eight or more arms that are whole numbers
Point 7, switches
  switch   a parameter of type bool that the body tests with `if`
  steps    a match of three or more arms, each of which is a call, or a variant of a call
  pointer  a type `fn(..)`
"""
import collections
import glob
import os
import re
import sys

ROOT = os.path.dirname(os.path.dirname(os.path.abspath(__file__)))
NUMBERS = {"u8", "u16", "u32", "u64", "usize", "i64", "f32", "f64"}


def plain(text):
    """The text without comments, each replaced by spaces."""
    out, i, n = [], 0, len(text)
    while i < n:
        if text.startswith("//", i):
            while i < n and text[i] != "\n":
                out.append(" ")
                i += 1
        elif text.startswith("'\"'", i):
            out.append("'_'")
            i += 3
        elif text[i] == '"':
            j = i + 1
            while j < n and text[j] != '"':
                j += 2 if text[j] == "\\" else 1
            out.append(text[i:j + 1])
            i = j + 1
        else:
            out.append(text[i])
            i += 1
    return "".join(out)


def close(text, i):
    """The offset after the bracket that closes the one at i."""
    pairs, depth, n = {"(": ")", "{": "}", "[": "]"}, 0, len(text)
    left, right = text[i], pairs[text[i]]
    while i < n:
        if text[i] == '"':
            i += 1
            while text[i] != '"':
                i += 2 if text[i] == "\\" else 1
        elif text[i] == left:
            depth += 1
        elif text[i] == right:
            depth -= 1
            if depth == 0:
                return i + 1
        i += 1
    return n


def split(text, mark):
    """The parts of a text at a mark outside brackets."""
    parts, depth, part = [], 0, ""
    for c in text:
        depth += c in "({[<" and not (c == "<" and mark == "×")
        depth -= c in ")}]" or (c == ">" and mark != "×" and not part.endswith("-"))
        if c == mark and depth == 0:
            parts.append(part)
            part = ""
        else:
            part += c
    return [p.strip() for p in parts + [part] if p.strip()]


def one_line(text):
    return re.sub(r"\s+", " ", text).strip()


class Fn:
    pass


def functions(path, text):
    for m in re.finditer(r"\bfn (\w+)\s*(?=[<(])", text):
        f = Fn()
        f.path, f.name, f.line = path, m[1], text.count("\n", 0, m.start()) + 1
        start, depth = m.end(), 0
        while text[start] != "(" or depth:
            depth += (text[start] == "<") - (text[start] == ">" and text[start - 1] != "-")
            start += 1
        end = close(text, start)
        f.params = [one_line(p) for p in split(text[start + 1:end - 1], ",")]
        f.requires, f.ensures, f.result = [], [], ""
        r = re.compile(r"\s*->\s*([^\{]*?)\s*(?=requires|ensures|\{)").match(text, end)
        if r:
            f.result, end = one_line(r[1]), r.end()
            f.result = f.result.split(" where ")[0]
        while True:
            c = re.compile(r"\s*(requires|ensures)\s*(\w+)?\s*\{").match(text, end)
            if not c:
                break
            after = close(text, c.end() - 1)
            getattr(f, c[1]).append(one_line(text[c.end():after - 1]))
            end = after
        b = re.compile(r"\s*\{").match(text, end)
        if not b:
            continue
        f.body_at = b.end()
        f.body = text[b.end():close(text, b.end() - 1) - 1]
        f.line_of = lambda k, f=f, t=text: t.count("\n", 0, f.body_at + k) + 1
        yield f


def types(text, word):
    for m in re.finditer(r"\b%s (\w+)\s*(<[^>]*>)?\s*\{" % word, text):
        inside = text[m.end():close(text, m.end() - 1) - 1]
        members = [one_line(re.sub(r"#\[[^\]]*\]|\bpub ", "", p)) for p in split(inside, ",")]
        yield m[1], text.count("\n", 0, m.start()) + 1, members


def arms(body):
    """The arms of each match: offset and a list of (pattern, right side)."""
    for m in re.finditer(r"\bmatch\b", body):
        i = m.end()
        while i < len(body) and body[i] != "{":
            i = close(body, i) if body[i] in "([" else i + 1
        if i >= len(body):
            continue
        subject, inside = one_line(body[m.end():i]), body[i + 1:close(body, i) - 1]
        found, k = [], 0
        while True:
            a = inside.find("=>", k)
            if a < 0:
                break
            pattern, j = one_line(inside[k:a]).lstrip(", "), a + 2
            while j < len(inside) and inside[j] in " \n":
                j += 1
            start = j
            if j < len(inside) and inside[j] == "{":
                j = close(inside, j)
            else:
                while j < len(inside) and inside[j] != ",":
                    j = close(inside, j) if inside[j] in "({[" else j + 1
            found.append((pattern, one_line(inside[start:j])))
            k = j
            if k < len(inside) and inside[k] == ",":
                k += 1
        yield m.start(), subject, found


def shape(f):
    """The tokens of a function, names by order of first occurrence."""
    keep = {"let", "mut", "if", "else", "while", "for", "in", "match", "return", "as", "self"}
    names, out = {}, []
    text = "(" + ", ".join(f.params) + ")->" + f.result + "{" + f.body + "}"
    for t in re.findall(r"[A-Za-z_]\w*|\d[\w.]*|b?'[^']'|b?\"[^\"]*\"|\S", text):
        if t in keep or not (t[0].isalnum() or t[0] in "_'\"" or len(t) > 1):
            out.append(t)
        else:
            out.append("%d" % names.setdefault(t, len(names)))
    return out


def main():
    wanted = None
    if "--point" in sys.argv:
        wanted = int(sys.argv[sys.argv.index("--point") + 1])
    places = collections.defaultdict(list)

    def add(point, path, line, word, name):
        places[point].append((path, line, word, name))

    every, enums = [], []
    for full in sorted(glob.glob(os.path.join(ROOT, "crates/*/src/**/*.rt"), recursive=True)):
        path = os.path.relpath(full, os.path.join(ROOT, "crates")).replace("/src/", "/")
        text = plain(open(full, encoding="utf-8").read())
        crate = path.split("/")[0]
        fns = list(functions(path, text))
        every += fns
        results = set()
        for name, line, members in types(text, "enum"):
            enums.append((path, line, name, members))
            valued = [v for v in members if "(" in v]
            if any("Refusal" in v for v in members):
                word = "result" if len(members) <= 2 else "result3"
                results.add(name)
                add(1, path, line, word, name)
            elif len(members) == 2 and len(valued) == 1:
                add(1, path, line, "option", name)
        for name, line, members in types(text, "struct"):
            has_array = any(re.search(r": \[", v) for v in members)
            kinds = [v.split(": ", 1)[1] for v in members if ": " in v]
            if "bool" in kinds and len(kinds) > 1:
                add(1, path, line, "flag", name)
            elif has_array and any(k in results for k in kinds):
                add(1, path, line, "flag", name)
            if [one_line(v) for v in members[:2]] == ["number: u8", "place: u64"] and crate == "dartelm":
                add(2, path, line, "answer", name)
            if has_array and any(re.match(r"(count|length|field_count): ", v) for v in members):
                add(6, path, line, "length", name)
        for m in re.finditer(r"\bconst (\w+): ([^=;]+)=", text):
            line = text.count("\n", 0, m.start()) + 1
            if m[1].startswith("NO_"):
                add(1, path, line, "sentinel", m[1])
            if crate == "refusal" and m[2].strip() == "u8":
                add(1, path, line, "refusal", m[1])
        for m in re.finditer(r"\bRefused\(r\) (?:=>|= .* \{)\s*\{?\s*(?:return )?(?:\w+::)?(\w+)::Refused\(r\)", text):
            add(1, path, text.count("\n", 0, m.start()) + 1, "through", m[1])
        for m in re.finditer(r"\blet (\w+) = \w+\.(\w+);", text):
            if m[1] == m[2]:
                add(4, path, text.count("\n", 0, m.start()) + 1, "unfold", m[1])
        for f in fns:
            at = (path, f.line)
            param_types = [p.split(": ", 1)[1] if ": " in p else p for p in f.params]
            if "kind: u8" in f.params:
                add(1, *at, "kind", f.name)
            if re.search(r"\breturn (16|255|256|NO_\w+);", f.body) or re.search(r"=> (255|NO_\w+)\b", f.body):
                add(1, *at, "sentinel", f.name)
            for offset, subject, found in arms(f.body):
                digits = [p for p, _ in found if re.fullmatch(r"[\d| .=]+", p)]
                if digits and re.fullmatch(r"(kind|given|number|precision|bytes|tags\[i\]|dash|level)", subject):
                    add(1, *at, "number", f.name)
                if len(digits) >= 8:
                    add(6, path, f.line_of(offset), "rows", f.name)
                call = r"(?:[A-Z]\w*(?:::\w+)?\()?[a-z_][\w:]*(\(.*\))\)?"
                steps = [a for _, a in found if re.fullmatch(call, one_line(a.strip("{} ")))]
                if len(steps) >= 3 and len(steps) >= len(found) - 2:
                    add(7, path, f.line_of(offset), "steps", f.name)
                if f.result == "bool" and found and all(a in ("true", "false") for _, a in found) \
                        and (*at, "test", f.name) not in places[4]:
                    add(4, *at, "test", f.name)
            if re.fullmatch(r"equal|same\w*|is_same|all_same", f.name):
                add(4, *at, "equal", f.name)
            if re.fullmatch(r"greater|less|apart|shorter_of|next_seven|is_outside", f.name):
                add(4, *at, "order", f.name)
            if len(param_types) == 1:
                given, back = param_types[0], f.result
                own = re.compile(r"[A-Z]\w*$")
                answer = back in ("Row", "Mark", "Refusal") or back in results or back in ("Encoded", "Judged")
                does = re.search(r"\b(match|if)\b|\bas \w", f.body)
                if does and not answer and ((given in NUMBERS and own.match(back)) or (own.match(given) and back in NUMBERS)
                                            or (given in NUMBERS and back in NUMBERS and given != back)):
                    add(4, *at, "convert", f.name)
            if "out: &mut impl Write" in f.params:
                add(4, *at, "print", f.name)
            for m in re.finditer(r"\bwhile\b([^{]*)\{", f.body):
                inside = f.body[m.end():close(f.body, m.end() - 1)]
                line = f.line_of(m.start())
                if re.search(r"\blow < high\b", m[1]):
                    add(6, path, line, "search", f.name)
                word = "up" if re.search(r"\+= [12]\b", inside) else "down" if re.search(r"-= [12]\b", inside) else "while"
                add(3, path, line, word, f.name)
            for m in re.finditer(r"\bfor (\w+) in [^{]*\.\.[^{]*\{", f.body):
                inside = f.body[m.end():close(f.body, m.end() - 1)]
                if m[1] != "_" and re.search(r"\b%s\b" % m[1], inside):
                    add(3, path, f.line_of(m.start()), "for", f.name)
            if sum(bool(re.match(r"&(mut )?\[", t)) for t in param_types) >= 3:
                add(6, *at, "lists", f.name)
            for m in re.finditer(r"\blet mut \w+ = \[[^\]]*;", f.body):
                add(6, path, f.line_of(m.start()), "array", f.name)
            for m in re.finditer(r"\bfront(_figures|_mut)?\(", f.body):
                add(6, path, f.line_of(m.start()), "front", f.name)
            if len(re.findall(r"\bequal\(\w+, b\"", f.body)) >= 2:
                add(6, *at, "names", f.name)
            for p in f.params:
                if p.endswith(": bool") and re.search(r"\bif !?%s\b" % p.split(":")[0], f.body):
                    add(7, *at, "switch", f.name)
                if re.search(r"\bfn\s*\(", p):
                    add(7, *at, "pointer", f.name)

    groups = collections.defaultdict(list)
    for f in every:
        s = shape(f)
        if len(s) >= 20:
            groups[" ".join(s)].append(f)
    sets = [g for g in groups.values() if len(g) > 1]
    for g in sets:
        for f in g:
            add(2, f.path, f.line, "fn", "%s = %s" % (f.name, ", ".join(o.name for o in g if o is not f)))
    known = {f.path + f.name for g in sets for f in g}
    short = collections.defaultdict(list)
    for f in every:
        short[f.name, " ".join(shape(f))].append(f)
    for g in short.values():
        if len(g) > 1:
            for f in g:
                if f.path + f.name not in known:
                    add(2, f.path, f.line, "same", "%s in %s" % (f.name, ", ".join(o.path for o in g if o is not f)))
                    known.add(f.path + f.name)
    words = [("bridge", "resistance"), ("segments?", "terms?", "pairs?", "characters?", "points?"), ("figures", "bytes", "text"),
             ("curve",), ("plain", "stepped", "geometric", "single", "whole", "missing"), ("basic", "front", "own", "back")]
    named = collections.defaultdict(list)
    for f in every:
        for number, group in enumerate(words):
            less = re.sub(r"(?<![a-z])(%s)(?![a-z])" % "|".join(group), "*" if len(group) > 1 else "", f.name).strip("_").replace("__", "_")
            if less != f.name or len(group) == 1:
                named[f.path.split("/")[0], number, less].append(f)
    for (crate, number, less), g in named.items():
        if len({f.name for f in g}) > 1 and len(less.strip("*_")) > 0:
            for f in g:
                if f.path + f.name not in known:
                    add(2, f.path, f.line, "name", "%s ~ %s" % (f.name, ", ".join(sorted({o.name for o in g if o.name != f.name}))))
                    known.add(f.path + f.name)
    alike = collections.defaultdict(list)
    for path, line, name, members in enums:
        key = ", ".join(sorted("Refused(_)" if v.startswith("Refused(") else re.sub(r"\(.*\)", "(_)", v) for v in members))
        alike[key].append((path, line, name))
    for key, found in alike.items():
        if len(found) >= 3:
            for path, line, name in found:
                add(2, path, line, "enum", "%s  {%s}" % (name, key))

    facts = collections.defaultdict(list)
    for f in every:
        mine = set()
        for clause in f.requires:
            for part in split(re.sub(r"^let .* in\s+", "", clause), "×"):
                while part.startswith("(") and close(part, 0) == len(part):
                    part = part[1:-1].strip()
                for p in split(part, "×"):
                    mine.add(p.replace(".old", ".now"))
        for p in mine:
            facts["fact", p].append(f)
        for clause in f.ensures:
            m = re.search(r"Opens kind image.now sheet c", clause)
            if m:
                facts["opens", "(kind : ℕ) (c : Contents) → Opens kind image.now sheet c → .."].append(f)
            m = re.search(r"\(level : Level\) →|\(layout : Layout\) →", clause)
            if m:
                facts["opens", m[0]].append(f)
    for (word, p), found in sorted(facts.items(), key=lambda x: -len(x[1])):
        if len(found) >= 3:
            add(5, found[0].path, found[0].line, word, "%d: %s  [%s]" % (len(found), p, ", ".join(f.name for f in found)))
    sets_of = [(frozenset(p for p in f.params if p not in ("self",) and "impl " not in p), f) for f in every]
    closed = set()
    for a, _ in sets_of:
        for b, _ in sets_of:
            if a is not b and len(a & b) >= 2:
                closed.add(a & b)
    for c in sorted(closed, key=lambda c: sorted(c)):
        found = [f for s, f in sets_of if c <= s]
        meet = frozenset.intersection(*[s for s, _ in sets_of if c <= s])
        if len(found) >= (3 if len(c) >= 3 else 10) and meet == c:
            order = [p for p in found[0].params if p in c]
            add(5, found[0].path, found[0].line, "group", "%d: %s" % (len(found), ", ".join(order)))

    for point in range(1, 8):
        if wanted and point != wanted:
            continue
        found = places[point]
        if "--totals" not in sys.argv:
            for path, line, word, name in sorted(found, key=lambda x: (x[2], x[0], x[1])) if point != 5 else found:
                print("%d  %s:%d  %s  %s" % (point, path, line, word, name))
        words = collections.Counter(w for _, _, w, _ in found)
        extra = "; %d sets of twins" % len(sets) if point == 2 else ""
        print("point %d: %d (%s%s)" % (point, len(found), ", ".join("%s %d" % x for x in sorted(words.items())), extra))


if __name__ == "__main__":
    main()
