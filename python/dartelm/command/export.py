"""export: the sheet of an image as lines that make takes."""
import sys

from . import files, sheets
from .image import build, open_image
from .trouble import ACCEPTED

REST = "bits behind the sheet's end are not all 0: made again, the image differs there and nowhere else that is judged"


def run(given):
    if given.output is not None:
        files.must_be_new(given.output, given.force)
    text, same = exported(*open_image(given.file))
    if given.output:
        files.write_new(given.output, text.encode("utf-8"), given.force)
    else:
        sys.stdout.write(text)
    if not same:
        print(f"dartelm: look at: {REST}", file=sys.stderr)
    return ACCEPTED


def exported(image, sheet):
    """The lines, and whether they make the same bytes again."""
    lines = list(sheets.written(sheet))
    text = "\n".join(lines) + "\n"
    again = build(sheets.parsed("export", text).sheet)
    same = again.data == image.data
    return ("" if same else f"# {REST}\n") + text, same
