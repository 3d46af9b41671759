"""A chip's image, and the whole sheet that stands in it, as the proved calls read it."""
from .. import calls
from ..answers import Curve, Fields, SegmentAnswer, TermAnswer
from .files import read_bytes, write_new
from .refusals import headline
from .trouble import Refusal, refused, tried, unread

BYTES = {0: 40, 1: 128, 2: 512}
STREAM_BITS = {0: 312, 1: 992, 2: 3968}
STREAM_BYTES = {39: 0, 124: 1, 496: 2}
KINDS = {size: kind for kind, size in BYTES.items()}
LAST_FIELD = {33: 21, 32: 19}


class Image:
    """The kind that the length tells. One that no chip has is handed on as it is, to be refused."""

    def __init__(self, data, kind=None):
        self.data = bytes(data)
        self.kind = KINDS.get(len(self.data), 2) if kind is None else kind

    def ask(self, call, *words):
        """The answer of one of the package's calls on this image."""
        return call(self.data, *words, kind=self.kind)


def from_stream(stream):
    """The image of a chip's stream: check bytes are put in, by which a page's bytes add up to 0 modulo 256; the register of
    kind 0 counts with its page. None where no chip has a stream so long."""
    kind = STREAM_BYTES.get(len(stream))
    if kind is None:
        return None
    register = stream[:8] if kind == 0 else b""
    data = register
    for start in range(len(register), len(stream), 31):
        page = stream[start : start + 31]
        data += bytes([-sum(register + page) % 256]) + page
    return Image(data, kind)


def read_image(path):
    return Image(read_bytes(path))


class Sheet:
    """What a chip tells: values as the package has them, by their field's number."""

    def __init__(self):
        self.kind = 1
        self.template = 33
        self.values = {}
        self.text = None
        self.domain = None
        self.points = []
        self.segments = []
        self.terms = []
        self.bits = None

    def curve(self):
        return bool(self.segments)

    def fields(self):
        values = tuple(self.values[field] for field in range(1, LAST_FIELD[self.template] + 1))
        return Fields(values, self.text is not None, template_id=self.template)

    def bare(self):
        """The same sender without text and correction."""
        sheet = Sheet()
        sheet.kind, sheet.template, sheet.values = self.kind, self.template, dict(self.values)
        return sheet

    def bare_with_text(self):
        sheet = self.bare()
        sheet.text = self.text
        return sheet

    def with_plain_terms(self):
        """The same segments with terms that none is refused for."""
        sheet = self.bare_with_text()
        sheet.segments = self.segments
        sheet.terms = [(exponent, 1.0) for _, count in self.segments for exponent in range(count)]
        return sheet


FULL_PRECISION = {33: 2, 32: 3}


def plain_sheet(template, precision):
    """A sheet with a value in every field, the least in most, from 0 to 1 of whatever is measured."""
    sheet = Sheet()
    sheet.template = template
    ends = [0.0, 1.0] if precision == FULL_PRECISION[template] else [0, 1000]
    values = [17, 0, 1, 0, 0, 0, 0.0, 1.0, precision, *ends, 0]
    values += [10, 100, 1, 1, 1] if template == 33 else [100, 10000, 10000]
    values += [0] * 4
    sheet.values = dict(enumerate(values, 1))
    return sheet


def build(sheet, kind=None):
    kind = sheet.kind if kind is None else kind
    text = sheet.text or b""
    if not sheet.curve():
        return Image(calls.build(kind, sheet.fields(), text, sheet.points, sheet.domain or 0), kind)
    curve = Curve([SegmentAnswer(*one) for one in sheet.segments], [TermAnswer(*one) for one in sheet.terms])
    return Image(calls.build_curve(kind, sheet.fields(), curve, text), kind)


def read_sheet(image):
    """The sheet in an image that a check accepts; else the check's refusal."""
    found = image.ask(calls.sheet)
    sheet = Sheet()
    sheet.kind, sheet.bits, sheet.template = image.kind, found.bits, int(found.fields.template_id)
    sheet.domain = None if found.domain is None else int(found.domain)
    sheet.values = dict(enumerate(found.fields.values, 1))
    sheet.points = [(one.point, one.deviation) for one in each(image, calls.pair, found.points)]
    sheet.segments = [(one.start, one.terms) for one in each(image, calls.segment, found.segments)]
    sheet.terms = [(one.exponent, one.coefficient) for one in each(image, calls.term, found.terms)]
    if found.fields.end_bit:
        sheet.text = "".join(each(image, calls.character, found.characters)).encode("ascii")
    return sheet


def each(image, call, count):
    return [image.ask(call, index) for index in range(count)]


def open_image(path):
    """An image and its sheet; where it is refused the command ends."""
    image = read_image(path)
    refusal = refusal_of(image)
    if refusal:
        raise refused(f"{path}: {headline(refusal)}; 'dartelm why {path}' tells more")
    return image, read_sheet(image)


def refusal_of(image):
    """None where a check accepts the image."""
    found = tried(image.ask, calls.check)
    return found if isinstance(found, Refusal) else None


def wrote(path):
    return "standard output: written" if path == "-" else f"{path}: written and read again"


def write_image(path, image, force):
    """Writes an image's file and reads it again: what stands in it is what was written, and accepted; standard
    output is not read again. The sheet in it."""
    write_new(path, image.data, force)
    there = image if path == "-" else read_image(path)
    if there.data != image.data or refusal_of(there):
        raise unread(f"{path}: what stands in the file is not what was written")
    return read_sheet(there)
