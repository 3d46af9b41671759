"""A chip's bytes written out in text: as xxd, od and hexdump have them, as plain digits, or as an Intel HEX file."""
import re

LEAST = 8
OFFSET = re.compile(r"\s*([0-9a-fA-F]{3,8})(:?)(?:\s+(.*))?")
GROUPS = re.compile(r"(?:[0-9a-fA-F]{2}){1,4}(?:\s{1,2}(?:[0-9a-fA-F]{2}){1,4}(?![^\s]))*")


def bytes_of(data):
    """The bytes that a dump tells; None where it is none."""
    try:
        lines = [line.rstrip() for line in data.decode("ascii").splitlines() if line.strip()]
    except UnicodeDecodeError:
        return None
    for found in (intel(lines), *offsets(lines), listed(lines), plain(lines)):
        if found and len(found) >= LEAST:
            return found
    return None


def intel(lines):
    found, ended = b"", False
    for line in lines:
        if ended or not re.fullmatch(r":(?:[0-9a-fA-F]{2}){5,}", line):
            return None
        record = bytes.fromhex(line[1:])
        if len(record) != record[0] + 5 or sum(record) % 256:
            return None
        if record[3] == 0:
            found += record[4:-1]
        ended = record[3] == 1
    return found


def offsets(lines):
    """By offsets in hexadecimal and in octal: seven digits before bytes are od's, before words hexdump's."""
    seven = bool(lines) and re.match(r"[0-9a-f]{7}(?:\s|$)", lines[0])
    words = seven and re.search(r"\s[0-9a-f]{4}(?:\s|$)", lines[0])
    for base in (8, 16) if seven and not words else (16, 8):
        yield offset(lines, base, bool(words))


def offset(lines, base, words):
    """Lines with an offset before their bytes, or before words of two, the low one first. Each has to be the number of bytes
    before it; * stands for lines like the last."""
    found, last, first = b"", b"", None
    for number, line in enumerate(lines):
        if line == "*":
            continue
        part = OFFSET.fullmatch(line)
        if not part or not part.group(2) and len(lines) < 2 or base == 8 and re.search("[^0-7]", part.group(1)):
            return None
        at = int(part.group(1), base)
        first = at if first is None else first
        if number and lines[number - 1] == "*" and last:
            found += last * ((at - first - len(found)) // len(last))
        if at - first != len(found):
            return None
        groups = GROUPS.match(part.group(3) or "")
        last = bytes.fromhex(groups.group()) if groups else b""
        if words:
            last = b"".join(last[n : n + 2][::-1] for n in range(0, len(last), 2))
        found += last
    return found


def listed(lines):
    """The bytes between braces, as `xxd -i` has them in C, with an array's name before and its length behind."""
    found = re.fullmatch(r"[^{}]*\{([^{}]*)\}[^{}]*", " ".join(lines))
    items = [item.strip() for item in found.group(1).split(",")] if found else []
    items = items[:-1] if items and not items[-1] else items
    if not items or not all(re.fullmatch("0[xX][0-9a-fA-F]{1,2}", item) for item in items):
        return None
    return bytes(int(item, 16) for item in items)


def plain(lines):
    digits = re.sub(r"0x|[\s,;:{}]", "", " ".join(lines))
    return bytes.fromhex(digits) if re.fullmatch("(?:[0-9a-fA-F]{2})+", digits) else None


def text_of(data):
    """Text that a person could have written; None where bytes are no such thing."""
    try:
        text = data.decode("utf-8-sig")
    except UnicodeDecodeError:
        return None
    return text if text and all(letter.isprintable() or letter in "\t\r\n" for letter in text) else None
