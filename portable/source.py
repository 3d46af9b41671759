"""Names, comments and the order of functions from the sources, for a reader of the C: nothing that runs depends on them."""
import os
import re
from dataclasses import dataclass, field

KEYWORDS = set('''auto break case char const continue default do double else enum extern float for goto if inline int long
register restrict return short signed sizeof static struct switch typedef union unsigned void volatile while bool true false
main class delete explicit export friend mutable namespace new operator private protected public template this throw try
typename using virtual and or not xor catch asm memcpy memset result'''.split())


def plain(name):
    """A name of the source as C's, with _ behind it where C or C++ has it as a word of its own."""
    return name + '_' if name in KEYWORDS or re.fullmatch(r'v\d+|tag', name) else name


def closing(text, at):
    """The place behind the bracket that closes the one before `at`."""
    depth = 1
    while depth:
        depth += (text[at] in '([{') - (text[at] in ')]}')
        at += 1
    return at


def behind_generics(text, at):
    """The place behind the type parameters that begin there, if any do."""
    depth = 0
    while text[at:at + 1] == '<' or depth:
        depth += (text[at] == '<') - (text[at] == '>' and text[at - 1] != '-')
        at += 1
    while text[at:at + 1].isspace():
        at += 1
    return at


def listed(text):
    """NAME: TYPE, .. at the top level of a text; ghost ones left out."""
    out, depth, item = [], 0, ''
    for c in text + ',':
        depth += (c in '([{<') - (c in ')]}>')
        if c == ',' and depth == 0:
            if item.strip():
                out.append(item.strip())
            item = ''
        else:
            item += c
    return [x for x in (re.sub(r'^pub\s*(\(\s*\w+\s*\))?\s*', '', x) for x in out) if not x.startswith('ghost ')]


def name_of(item):
    return re.sub(r'^(&\s*)?(mut\s+)?', '', item.split(':')[0].strip()).strip()


@dataclass
class Named:
    file: str
    order: tuple
    comment: list = field(default_factory=list)
    params: list = field(default_factory=list)
    bindings: list = field(default_factory=list)
    text: str = ''    # of a function: its head and its body, without its contract


TOKEN = re.compile(r"[A-Za-z_]\w*|\d\w*|::|=>|==|<=|>=|!=|->|\.\.=?|\S")
OPEN, CLOSE = '([{', ')]}'


class Bindings:
    """What a body binds, in the order of the source: (name, by what, when it is stored to); by what is 'pattern' where a pattern of an
    enum does. What a `let` binds stands before what its value binds, and is stored to behind it. `?` binds the value and then the
    error, and a `for` what it needs, which have no name."""

    def __init__(self, body):
        self.words, self.found, self.rank = TOKEN.findall(body), [], 0
        self.scan(0, len(self.words))

    def until(self, at, words):
        """The place of the first of these words from there on that is in no bracket."""
        depth = 0
        while at < len(self.words):
            word = self.words[at]
            if depth == 0 and word in words:
                return at
            depth += (word in OPEN) - (word in CLOSE)
            if depth < 0:
                return at
            at += 1
        return at

    def scan(self, at, end):
        while at < end:
            word, behind = self.words[at], self.words[at + 1] if at + 1 < end else ''
            if word == 'let':
                by_if = at > 0 and self.words[at - 1] in ('if', 'while')
                equals = self.until(at + 1, ('=', ';'))
                own = self.pattern(at + 1, self.until(at + 1, ('=', ':', ';')))
                last = min(end, self.until(equals, ('{',) if by_if else (';',)))
                self.scan(equals, last)
                self.stored(own)
                at = last
            elif word == 'for' and behind != '<':
                of = self.until(at + 1, ('in',))
                last = min(end, self.until(of, ('{',)))
                unnamed = [[None, x, None] for x in self.unnamed(self.words[of + 1:last])]
                self.found += unnamed
                own = self.pattern(at + 1, of)
                self.scan(of, last)
                self.stored(unnamed + own)
                at = last
            elif word == 'match':
                first = self.until(at + 1, ('{',))
                self.scan(at + 1, first)
                at = self.arms(first + 1)
            elif word == 'matches' and behind == '!':
                comma = self.until(at + 3, (',',))
                self.scan(at + 3, comma)
                at = self.until(comma + 1, (')', 'if'))
                self.stored(self.pattern(comma + 1, at))
            elif word == '?':
                self.found += [[None, 'pattern', None], [None, 'pattern', None]]
                self.stored(self.found[-2:])
                at += 1
            else:
                at += 1

    @staticmethod
    def unnamed(words):
        """What a `for` keeps that has no name: of a slice its index, of a range nothing, of an array itself and the index, of another
        iterator itself, twice, and its item."""
        depth, called = 0, ''
        for n, word in enumerate(words):
            depth += (word in OPEN) - (word in CLOSE)
            if word.startswith('..') and words[n - 1] not in OPEN and '[' not in words[:n]:
                return []
            if depth == 0 and word == '.':
                called = words[n + 1]
        if called == 'enumerate' and words.count('.') <= 2:
            return []
        if words[:1] == ['[']:
            return ['array', 'index']
        return ['index'] if called in ('', 'iter', 'iter_mut', 'as_slice', 'as_mut_slice') or words[-1:] != [')'] else ['iterator', 'iterator', 'item']

    def arms(self, at):
        """The arms of a `match`, and the place of the bracket that closes it."""
        while at < len(self.words) and self.words[at] != '}':
            arrow = self.until(at, ('=>',))
            guard = min(arrow, self.until(at, ('if',)))
            self.stored(self.pattern(at, guard))
            self.scan(guard, arrow)
            at = arrow + 1
            if at < len(self.words) and self.words[at] == '{':
                last = self.until(at + 1, ('}',))
                self.scan(at + 1, last)
                at = last + 1
            else:
                last = self.until(at, (',',))
                self.scan(at, last)
                at = last
            at += at < len(self.words) and self.words[at] == ','
        return at

    def pattern(self, at, end):
        """The names of a pattern. What is inside a variant's brackets is a field of the variant."""
        own, inside, name = [], [], ''
        for n in range(at, end):
            word, behind, before = self.words[n], self.words[n + 1] if n + 1 < end else '', self.words[n - 1]
            if word in OPEN:
                inside.append(bool(inside and inside[-1]) or re.search(r'(^|::)[A-Z]\w*::[A-Z]\w*$|^(Some|Ok|Err)$', name) is not None)
            elif word in CLOSE:
                inside.pop()
            elif re.match(r'[A-Za-z_]', word):
                name = name + word if before == '::' else word
                if re.match(r'[a-z]|_\w', word) and word not in ('mut', 'ref', 'true', 'false') and before != '::' \
                        and behind not in ('::', '(', '{', ':', '!') and word not in [x[0] for x in own]:
                    own.append([word, 'pattern' if inside and inside[-1] else 'name', None])
                continue
            name = name + word if word == '::' else ''
        self.found += own
        return own

    def stored(self, own):
        for x in own:
            x[2], self.rank = self.rank, self.rank + 1


def bindings_of(body):
    return [tuple(x) for x in Bindings(body).found]


class Sources:
    """What the sources of a folder of crates say: functions, structs, enums and tables of constants."""

    def __init__(self):
        self.functions, self.fields, self.variants, self.tables, self.types = {}, {}, {}, {}, {}
        self.kit = set()    # the crates of the kit

    def crate(self, level, crate, folder, shown):
        if shown.startswith('the kit'):
            self.kit.add(crate)
        for base, _, files in os.walk(folder):
            for file in sorted(files):
                path = os.path.relpath(os.path.join(base, file), folder)
                if path.endswith('.rt'):
                    inside = [x for x in path.removesuffix('.rt').split('/') if x not in ('lib', 'main', 'mod')]
                    with open(os.path.join(folder, path), encoding='utf-8') as f:
                        self.file((level, crate, path), '::'.join([crate] + inside), f'{shown}/{path}', f.read())

    def file(self, order, module, shown, text):
        comments, whole = comments_above(text), text
        text = re.sub(r'"(?:[^"\\]|\\[^"]|\\")*"|\'(?:[^\'\\\n]|\\.)\'|//.*', lambda m: re.sub(r'[^\n]', ' ', m[0]), text)
        impls = [(block(m[1], m[2]), m.end(), closing(text, m.end())) for m in re.finditer(r'\b(impl|trait)\b([^{;()]*)\{', text)]
        for m in re.finditer(r'\b(struct|enum|fn|const)\s+(\w+)\s*', text):
            kind, own = m.groups()
            head = behind_generics(text, m.end())
            start = text[head:head + 1]
            if start not in ('{', '(', ':'):
                continue
            inside = [name for name, a, b in impls if a <= m.start() < b]
            full = '::'.join([module] + inside + [own])
            at = (*order, m.start())
            if kind == 'const':
                self.table(text, head + 1, own)
                continue
            end = closing(text, head + 1)
            within = text[head + 1:end - 1]
            if kind == 'fn':
                body = self.body(text, end)
                self.functions[full] = Named(shown, at, comments.get(text.count('\n', 0, m.start()), []),
                                             [name_of(x) for x in listed(within)], bound(text[body[0]:body[1]]),
                                             uncommented(whole[m.start():body[2]] + whole[body[0] - 1:body[1]]))
                continue
            self.types[full] = Named(shown, at, comments.get(text.count('\n', 0, m.start()), []))
            if kind == 'struct' and start == '{':
                self.fields[full] = [plain(name_of(x)) for x in listed(within)]
            elif kind == 'enum':
                self.variants[full] = [variant(x) for x in listed(within)]

    @staticmethod
    def body(text, end):
        """Where the body begins and ends that follows a function's parameters and its contract, and where its result's type ends."""
        head = re.compile(r'[^{;]*\{').match(text, end)
        result = None
        while head and (clause := re.search(r'\b(requires|ensures|decreases)\b', head[0])):
            result = result or head.start() + clause.start()
            head = re.compile(r'[^{;]*\{').match(text, closing(text, head.end()))
        if not head:
            return end, end, end
        return head.end(), closing(text, head.end()), result or head.end() - 1

    def table(self, text, at, own):
        m = re.compile(r'\s*\[[^]]*\]\s*=\s*\[([^]]*)\]').match(text, at)
        numbers = [x.strip().replace('_', '') for x in m[1].split(',') if x.strip()] if m else []
        if numbers and all(x.isdigit() for x in numbers):
            self.tables[tuple(int(x) for x in numbers)] = own


def block(kind, head):
    """The name that the functions of an `impl` or a `trait` stand under: of an impl of a trait the type's and then the trait's."""
    while (shorter := re.sub(r'<[^<>]*>', ' ', head.replace('->', '  '))) != head:
        head = shorter
    head = re.sub(r'\[\s*(\w+)\s*\]\s*$', r'slice+\1', re.split(r'\bwhere\b', head)[0])
    words = [re.findall(r'[\w+]+', part) for part in re.split(r'\bfor\b', head.split(':')[0] if kind == 'trait' else head)]
    return ''.join(part[0 if kind == 'trait' else -1] for part in reversed(words) if part)


def bound(body):
    return bindings_of(re.sub(r'\b(?:invariant|decreases)\s*\{[^{}]*\}', '', body))


def uncommented(text):
    """A text of Rattle in one line, without its comments."""
    return ' '.join(re.sub(r'("(?:[^"\\]|\\.)*")|//.*', lambda m: m[1] or ' ', text).split())


def variant(item):
    name, _, rest = re.sub(r'\s*([({])', r' \1', item, count=1).partition(' ')
    rest = rest.strip()
    inside = listed(rest[1:-1]) if rest else []
    return plain(name), [plain(name_of(x)) if rest.startswith('{') else f'f{i + 1}' if len(inside) > 1 else 'value'
                         for i, x in enumerate(inside)]


def comments_above(text):
    """The line comments that stand right above a line, by the line's number from 0; attributes are passed over."""
    out, held = {}, []
    for n, line in enumerate(text.split('\n')):
        line = line.strip()
        if line.startswith('//'):
            held.append(line[2:].strip())
            continue
        if not line.startswith('#['):
            out[n] = held
            held = []
    return out
