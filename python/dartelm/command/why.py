"""why: each page's verdict, what the whole pages still say, the likely cause, and what to do."""
import re
import struct
import sys

from .. import calls
from . import dumps, files, objects, refusals
from .fields import FIELDS, Around
from .files import read_bytes
from .image import BYTES, KINDS, Image, build, from_stream, plain_sheet, read_sheet, refusal_of, write_image, wrote
from .show import summary
from .trouble import ACCEPTED, REFUSED, Refusal, refused, tried

PAGE = 32
REGISTER = 8
GOOD, WRONG, BLANK = "adds up", "does not add up", "blank (every byte FF)"
CUT = "is not there whole"
WHOLE = "to do: read the chip again, whole: 40 bytes (register first) are kind 0, 128 kind 1, 512 kind 2"
BUILD = ": 'dartelm export' that of a sender like it, edit its lines and 'dartelm make' the image"
# The first bit behind the first template's number: a sheet that is refused before it has no template that is known.
BEHIND_TEMPLATE = 74


def run(given):
    if given.output is not None:
        files.must_be_new(given.output, given.force)
    data = read_bytes(given.file)
    lines, found = told(given.file, data)
    if given.json:
        objects.tell(objects.why(given.file, lines, bool(found and not found.inside), refusal_of(Image(data))))
    else:
        print("\n".join(lines))
    if not given.output:
        return ACCEPTED if found and not found.inside else REFUSED
    if not found:
        raise refused(f"nothing is written: there is no accepted image in {given.file}")
    sheet = write_image(given.output, found.image, given.force)
    said = f"{wrote(given.output)}, accepted, {summary(sheet)}"
    print(said, file=sys.stderr if given.json else sys.stdout)
    return ACCEPTED


class Found:
    """An accepted image: the file's bytes, or what stands inside them."""

    def __init__(self, image, inside):
        self.image = image
        self.inside = inside


def told(path, data):
    """What there is to say of a file's bytes, and the accepted image that they are or hold; None where there is none."""
    image = Image(data)
    refusal = refusal_of(image)
    if refusal is None:
        accepted = f"{path}: accepted, {summary(read_sheet(image))}"
        return [accepted, *page_lines(image, verdicts(image)), "nothing is wrong with it"], Found(image, False)
    head = f"{path}: {refusals.headline(refusal)}"
    dump, other = dumps.bytes_of(data), other_kind(data)
    if dump and len(dump) in KINDS:
        lines, found = dump_told(path, Image(dump))
        return [head, *lines], found
    if other:
        size = len(other.data)
        likely = f"likely: another kind's image: the first {size} bytes are an accepted one of kind {other.kind}"
        return [head, likely, to_write(path, other)], Found(other, True)
    whole = from_stream(dump or data)
    if whole:
        return stream_told(path, head, whole)
    if dump:
        short = f"likely: a dump in hexadecimal text, of {len(dump)} bytes, which no chip has; {wanted(len(dump))}"
        return [head, short, WHOLE], None
    if dumps.text_of(data) is not None:
        return [head, *text_lines(path, dumps.text_of(data))], None
    return [head, *(chip_lines(image, refusal) if len(data) in KINDS else length_lines(data))], None


def dump_told(path, image):
    """The bytes of a dump, judged as an image."""
    refusal = refusal_of(image)
    likely = f"likely: a dump in hexadecimal text, of {len(image.data)} bytes, which is kind {image.kind}; as an image it is "
    if refusal is None:
        return [likely + "accepted", to_write(path, image)], Found(image, True)
    return [likely + refusals.headline(refusal), *chip_lines(image, refusal)], None


def stream_told(path, head, image):
    """A sheet without check bytes, as a file .ted has it, judged with them."""
    refusal = refusal_of(image)
    count = len(image.data) - BYTES[image.kind] // PAGE
    likely = f"likely: {count} bytes are a chip's stream, without the check bytes: a dump of the sheet alone (.ted); with them it is "
    if refusal is None:
        return [head, likely + f"an accepted image of kind {image.kind}", to_write(path, image)], Found(image, True)
    return [head, likely + refusals.headline(refusal), WHOLE], None


def chip_lines(image, refusal):
    """A refused chip: its pages, where the refusal stands, what whole pages say, the cause."""
    found = verdicts(image)
    yield from page_lines(image, found)
    yield from place_lines(image, found, refusal)
    yield from still_lines(image, found)
    yield from cause_lines(image, found, refusal)


def to_write(path, image):
    return f"to do: 'dartelm why {path} -o NEW.kind{image.kind}' writes it as an image"


def text_lines(path, text):
    if re.search(r"^\s*template\s*=", text, re.MULTILINE):
        yield "likely: a sheet as 'dartelm export' writes it, and no chip's bytes"
        yield f"to do: 'dartelm make {path} -o NEW' makes an image from it"
    elif "deviation" in text.lower():
        yield "likely: a certificate, and no chip's bytes"
        yield f"to do: 'dartelm certificate IMAGE {path}' holds an image against it"
    else:
        yield "likely: a text, and no chip's bytes"
        yield WHOLE


def page_lines(image, found):
    for page, verdict in enumerate(found):
        yield f"  page {page}: {verdict}" + (", every byte 0" if verdict == GOOD and not any(page_bytes(image, page)) else "")


def page_bytes(image, page):
    """A page as it stands in the image, with the register that kind 0 has before it."""
    if image.kind == 0:
        return image.data
    return image.data[PAGE * page : PAGE * (page + 1)]


def verdicts(image):
    """What the check's page test says of each page: an image of nothing but that page is asked for."""
    if image.kind == 0:
        return [verdict(refusal_of(image))]
    count = BYTES[image.kind] // PAGE
    return [verdict(refusal_of(Image(page_bytes(image, page) * count, image.kind))) for page in range(count)]


def verdict(refusal):
    if refusal is None or refusal.number not in (2, 17):
        return GOOD
    return WRONG if refusal.number == 2 else BLANK


def mended(image, found):
    """The image with noughts for the pages that are not whole: their bytes add up, and say nothing."""
    if image.kind == 0:
        return image
    pages = (page_bytes(image, page) if verdict == GOOD else bytes(PAGE) for page, verdict in enumerate(found))
    return Image(b"".join(pages), image.kind)


class Places:
    """Where the fields of a template stand, by the index of a sheet that is built for it."""

    def __init__(self, template, precision):
        sheet = plain_sheet(template, precision)
        self.index = build(sheet).ask(calls.index)
        self.pairs = dict(enumerate(struct.iter_unpack("<HH", self.index), 1))

    def end(self):
        return sum(self.pairs[len(self.pairs)])

    def field_at(self, bit):
        return next((number for number, (offset, _) in self.pairs.items() if offset == bit), None)


def pages_of(image, offset, length):
    """The pages that bits of the stream stand in. Of kind 0 there is one, with the register."""
    if image.kind == 0:
        return {0}
    return set(range(offset // 8 // (PAGE - 1), (offset + length - 1) // 8 // (PAGE - 1) + 1))


def layout(image, found):
    """The template and the places of its fields, as far as whole pages tell; else None. A fetch tells the templates apart by
    the index that it asks for, a check whether the first block is one of them."""
    whole_image = mended(image, found)
    fetched = tried(whole_image.ask, calls.fetch, bytes(76), 1)
    template = 33 if isinstance(fetched, Refusal) and fetched.number == 18 else 32
    refusal = refusal_of(whole_image)
    if refusal and refusal.place < BEHIND_TEMPLATE:
        return None
    precision = tried(whole_image.ask, calls.fetch, Places(template, 0).index, 9)
    if isinstance(precision, Refusal):
        return None
    return template, Places(template, precision), precision


def still_lines(image, found):
    """The fields that stand in whole pages. The check refuses the chip all the same: they are for finding out whose it is."""
    if found[0] != GOOD or not any(image.data):
        return
    known = layout(image, found)
    template, places, precision = known or (33, Places(33, 0), 0)
    fields = FIELDS[template] if known else FIELDS[template][:5]
    standing = [field for field in fields if all(found[page] == GOOD for page in pages_of(image, *places.pairs[field.number]))]
    by = Around(template, None, precision)
    lines = []
    for field in standing:
        answer = tried(mended(image, found).ask, calls.fetch, places.index, field.number)
        if isinstance(answer, Refusal):
            lines.append(f"    {field.name}: bits that it cannot have ({answer.number} at bit {answer.place})")
            continue
        if field.number == 6:
            by.measurand = answer
        if field.number not in (7, 8) or by.measurand is not None:
            lines.append(f"    {field.name}: {field.shown(answer, by)}")
    if lines:
        yield "  whole pages still say (not to be measured by):"
        yield from lines


def place_lines(image, found, refusal):
    """A bit of the stream as page, byte and field."""
    if refusal.number not in (3, 4, 5, 6, 7, 22, 24):
        return
    byte = refusal.place // 8
    if image.kind == 0:
        stands = f"register byte {byte}" if byte < REGISTER else f"page 0, byte {byte - REGISTER + 1}"
    else:
        stands = f"page {byte // (PAGE - 1)}, byte {byte % (PAGE - 1) + 1}"
    known = layout(image, found)
    number = (known[1] if known else Places(33, 0)).field_at(refusal.place)
    name = ""
    if number and (known or number <= 5):
        name = f": {FIELDS[known[0] if known else 33][number - 1].name}"
    elif known and refusal.place >= known[1].end():
        name = ", behind the fields: in the calibration points, the curve or the ending"
    yield f"  bit {refusal.place} is bit {refusal.place % 8} of {stands}{name}"


def cause_lines(image, found, refusal):
    """The likely cause and what to do, then what docs/REFUSALS.md says of the number."""
    if refusal.number == 17:
        yield "likely: a new chip, to which nothing has been written (or a reader that had no contact: read it again)"
    elif not any(image.data):
        yield "likely: every byte is 0: the reader had no contact, or the chip was wiped"
        yield "to do: read the chip again; if it stays, it holds no sheet: 'dartelm make' one"
    elif not bad(found):
        yield "likely: a whole chip whose sheet was written wrongly, or for another device: the pages add up"
    elif GOOD not in found:
        yield "likely: no page adds up: a bad contact, a dump that does not begin at the first byte, or no such chip"
    elif len(bad(found)) == 1:
        yield f"likely: one page is damaged, or changed by a writer that did not mend its check byte: page {bad(found)[0]}"
    else:
        yield f"likely: some pages are damaged or were never written: pages {', '.join(map(str, bad(found)))}"
    said = refusals.advice(refusal)
    if said and any(image.data):
        yield f"to do: {said}" + (BUILD if refusal.number == 17 else "")
    if refusals.shortened(refusals.meaning(refusal)) != refusals.meaning(refusal):
        yield f"{refusal.number} is: {refusals.meaning(refusal)}"


def bad(found):
    return [page for page, verdict in enumerate(found) if verdict != GOOD]


def other_kind(data):
    """An image of another kind that stands at the beginning and is accepted; None where there is none."""
    for kind, size in BYTES.items():
        image = Image(data[:size], kind)
        if size < len(data) and refusal_of(image) is None:
            return image
    return None


def length_lines(data):
    """Bytes of a length that no chip has: cut short, too long, without check bytes."""
    size = len(data)
    if size == 0:
        yield "likely: nothing was read: the file is empty"
    elif size == PAGE:
        yield "likely: one page: a chip of kind 0 without its register of 8 bytes, or a part of a larger chip"
    elif size < BYTES[2]:
        yield from cut_lines(data)
        yield f"likely: cut short, or with bytes too many: {wanted(size)}"
    else:
        yield f"likely: no chip's image: {wanted(size)}"
    yield WHOLE


def cut_lines(data):
    """The pages that are there of a larger chip, with noughts for the others."""
    if len(data) <= BYTES[0]:
        return
    size = min(chip for chip in KINDS if chip > len(data))
    image = Image(data + bytes(size - len(data)), KINDS[size])
    found = [verdict if PAGE * (page + 1) <= len(data) else CUT for page, verdict in enumerate(verdicts(image))]
    yield f"  taken as the beginning of kind {image.kind}:"
    yield from page_lines(image, found)
    yield from still_lines(image, found)


def wanted(size):
    above = next((chip for chip in sorted(KINDS) if chip > size), None)
    return (
        f"{size} bytes are {above - size} fewer than {above}" if above else f"{size} bytes are more than the largest chip's 512"
    )
