"""save: a chip's bytes as they are, into a file."""
from . import files, refusals
from .image import Image, refusal_of
from .trouble import ACCEPTED, REFUSED


def run(given):
    files.must_be_new(given.output, given.force)
    data = files.read_bytes(given.file)
    files.write_new(given.output, data, given.force)
    refusal = refusal_of(Image(data))
    where = "standard output" if given.output == "-" else given.output
    print(f"{where}: written, {len(data)} bytes; {refusals.headline(refusal) if refusal else 'accepted'}")
    return REFUSED if refusal else ACCEPTED
