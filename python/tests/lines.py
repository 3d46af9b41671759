"""Console lines (docs/CONSOLE.md) answered through the package, so that its answers can be compared with stored ones."""
import struct

import dartelm

LEVELS = {"owner": dartelm.Level.OWNER, "calibration": dartelm.Level.CALIBRATION_ROOM, "maker": dartelm.Level.MAKER}
DASHES = {"large": dartelm.Dash.LARGE, "small": dartelm.Dash.SMALL}
LENGTHS = {0: 40, 1: 128, 2: 512}


class Unsaid(Exception):
    """A line that the package has no words for: a kind that is no byte, a length or a segment count of its own, half a
    pair."""


def answer(line):
    command, *words = line.split(" ")
    if command not in ("distance", "text", "code") and int(words[0]) > 255:
        raise Unsaid
    try:
        return ANSWERS[command](*words)
    except dartelm.Refusal as refusal:
        return f"no {refusal.number} {refusal.place}"


def data(word):
    return b"" if word == "-" else bytes.fromhex(word)


def shown(some):
    return some.hex() or "-"


def single(word):
    return struct.unpack(">f", bytes.fromhex(word))[0]


def value(word):
    return {"w": lambda: int(word[1:]), "s": lambda: single(word[1:]), "m": lambda: None}[word[0]]()


def shown_value(found):
    if found is None:
        return "m"
    return "s" + struct.pack(">f", found).hex() if isinstance(found, float) else f"w{found}"


def pairs(word, second=int):
    words = [] if word == "-" else word.split(",")
    if len(words) % 2:
        raise Unsaid
    return [(int(first), second(other)) for first, other in zip(words[::2], words[1::2])]


def check(kind, image):
    found = dartelm.check(data(image), kind=int(kind))
    domain = "-" if found.domain is None else int(found.domain)
    sizes = f"{found.bits} {found.points} {int(found.end_bit)} {found.characters}"
    return f"ok {sizes} {int(found.template_id)} {domain} {found.segments} {found.terms}"


def build(kind, length, level, template, *words):
    count = {"33": 21, "32": 19}[template]
    values, (end_bit, text, *rest) = words[:count], words[count:]
    if LENGTHS.get(int(kind), 0) != int(length):
        raise Unsaid
    fields = dartelm.Fields([value(word) for word in values], end_bit == "1", LEVELS[level], dartelm.Template(int(template)))
    if rest[0] != "curve":
        return "ok " + dartelm.build(int(kind), fields, data(text), pairs(rest[1]), dartelm.Domain(int(rest[0]))).hex()
    segments = [dartelm.SegmentAnswer(*pair) for pair in pairs(rest[2])]
    terms = [dartelm.TermAnswer(*pair) for pair in pairs(rest[3], single)]
    if int(rest[1]) != len(segments):
        raise Unsaid
    return "ok " + dartelm.build_curve(int(kind), fields, dartelm.Curve(segments, terms), data(text)).hex()


def index(kind, image, buffer):
    """The bytes beyond an index are not the package's: here they are the lent ones."""
    found, lent = dartelm.index(data(image), kind=int(kind)), data(buffer)
    if len(lent) < len(found):
        raise Unsaid
    return "ok " + (found + lent[len(found) :]).hex()


def propose(kind, image, field, wanted, level):
    found = dartelm.propose(data(image), int(field), value(wanted), LEVELS[level], kind=int(kind))
    return f"{found.present_code} {found.new_code} {shown_value(found.value)}"


def reading(kind, image, given, dash):
    found = dartelm.reading(data(image), int(given), DASHES[dash], kind=int(kind))
    return f"{found.fraction} {struct.pack('>d', found.figure).hex()}"


def compare(kind, image, slow, fast):
    found = dartelm.compare(data(image), pairs(slow), pairs(fast), kind=int(kind))
    return "agree" if found.agrees else f"tick {found.tick}"


def conform(kind, image, points):
    found = dartelm.conformity(data(image), pairs(points), kind=int(kind))
    return f"{found.slope} {found.bound}" if found.is_straight else "none"


def next_row(kind, present, wanted):
    found = dartelm.next_row(data(present), data(wanted), kind=int(kind))
    return "done" if found.is_done else f"{found.offset} {found.bytes.hex()}"


def of_pair(found, first, second):
    return f"{getattr(found, first)} {getattr(found, second)}"


def term(kind, image, at):
    found = dartelm.term(data(image), int(at), kind=int(kind))
    return f"{found.exponent} {struct.pack('>f', found.coefficient).hex()}"


ANSWERS = {
    "check": check,
    "build": build,
    "index": index,
    "propose": propose,
    "reading": reading,
    "compare": compare,
    "conform": conform,
    "next": next_row,
    "term": term,
    "page": lambda kind, image, page: shown(dartelm.page(data(image), int(page), kind=int(kind))),
    "field": lambda kind, image, field: shown_value(dartelm.field(data(image), int(field), kind=int(kind))),
    "fetch": lambda kind, image, at, field: shown_value(
        dartelm.fetch(data(image), data(at), int(field), kind=int(kind))
    ),
    "pair": lambda kind, image, at: of_pair(dartelm.pair(data(image), int(at), kind=int(kind)), "point", "deviation"),
    "segment": lambda kind, image, at: of_pair(dartelm.segment(data(image), int(at), kind=int(kind)), "start", "terms"),
    "char": lambda kind, image, at: str(ord(dartelm.character(data(image), int(at), kind=int(kind)))),
    "change": lambda kind, image, field, wanted, level: "ok "
    + dartelm.change(data(image), int(field), value(wanted), LEVELS[level], kind=int(kind)).hex(),
    "commit": lambda kind, image, field, present, new, level: "ok "
    + dartelm.commit(data(image), int(field), int(present), int(new), LEVELS[level], kind=int(kind)).hex(),
    "distance": lambda points: of_pair(dartelm.distance(pairs(points)), "slope", "bound"),
    "text": lambda field, code: shown(dartelm.text(int(field), int(code)).encode("ascii")),
    "code": lambda field, text: str(dartelm.code(int(field), data(text))),
}
