"""report: one page in HTML that needs nothing else, for a screen, a printer or a file."""
import hashlib
import html
import re

from . import certificate, fields, files, looks, readings, refusals, show, tables, version, why
from .image import Image, read_sheet, refusal_of
from .panels import NARROW, WIDE, Panel
from .readings import WHOLE_SPAN
from .trouble import ACCEPTED, REFUSED
from .units import float_text, in_unit, many, plain, signed

SAMPLES = 241
STYLE = """
:root { color-scheme: light dark; --ink: #000; --paper: #fff; --faint: #bbb; --soft: #333; --band: #e4e4e4; }
@media screen and (prefers-color-scheme: dark) {
  :root { --ink: #eee; --paper: #111; --faint: #555; --soft: #bbb; --band: #333; }
}
body { font: 15px/1.4 "DejaVu Sans", Verdana, Arial, sans-serif; color: var(--ink); background: var(--paper); }
body { max-width: 62em; margin: 1.5em auto; padding: 0 1em; }
h1 { font-size: 1.45em; margin: 0 0 .2em; overflow-wrap: anywhere; }
h2 { font-size: 1.1em; margin: 1.4em 0 .4em; border-bottom: 2px solid var(--ink); }
p { margin: .3em 0; overflow-wrap: anywhere; }
.verdict { border: 2px solid var(--ink); padding: .4em .7em; margin: .8em 0; font-weight: bold; }
.look { border-left: 6px double var(--ink); padding-left: .6em; }
.one { white-space: nowrap; }
.job { display: flex; flex-wrap: wrap; gap: .3em 2em; margin-top: 1.6em; break-inside: avoid; }
.job p { flex: 1 1 14em; border-bottom: 1px solid var(--ink); min-height: 3em; }
table { border-collapse: collapse; width: 100%; margin-top: .6em; }
td, th { text-align: right; vertical-align: top; padding: .12em 0 .12em .6em; border-bottom: 1px solid var(--faint); }
td, th { white-space: nowrap; }
.far { font-weight: bold; }
.fields { columns: 2; column-gap: 2em; }
.fields p { break-inside: avoid; display: flex; justify-content: space-between; gap: 1em; }
.fields p { border-bottom: 1px solid var(--faint); margin: 0; padding: .12em 0; }
.fields b { font-weight: normal; color: var(--soft); }
.fields span { text-align: right; overflow-wrap: anywhere; }
.points { columns: 2; column-gap: 2em; }
.points p { break-inside: avoid; margin: 0; border-bottom: 1px solid var(--faint); font-variant-numeric: tabular-nums; }
.in1 { padding-left: 1.2em; }
.in2 { padding-left: 2.4em; }
svg { width: 100%; height: auto; }
svg.wide { display: block; }
svg.narrow { display: none; }
svg text { font: 13px "DejaVu Sans", Verdana, Arial, sans-serif; fill: var(--ink); }
svg .grid { stroke: var(--faint); stroke-width: 1; }
svg .zero { stroke: var(--ink); stroke-width: 1; stroke-dasharray: 2 3; }
svg .frame { fill: none; stroke: var(--ink); stroke-width: 1; }
svg .line { fill: none; stroke: var(--ink); stroke-width: 1.8; }
svg .dot { fill: var(--paper); stroke: var(--ink); stroke-width: 1.6; }
svg .band { fill: var(--band); stroke: var(--ink); stroke-width: 1; stroke-dasharray: 7 4; }
figure { margin: .4em 0 0; break-inside: avoid; }
figcaption { font-size: .9em; margin-top: -.4em; }
footer { break-inside: avoid; margin-top: 1.6em; border-top: 1px solid var(--ink); font-size: .85em; overflow-wrap: anywhere; }
@media screen and (max-width: 40em) {
  .fields, .points { columns: 1; } body { margin-top: .5em; } figcaption { margin-top: .2em; }
  svg.wide { display: none; } svg.narrow { display: block; }
  table, tbody { display: block; } tr.heads { display: none; }
  tr { display: grid; grid-template-columns: 1fr 1fr; column-gap: 1em; padding: .3em 0; border-bottom: 1px solid var(--faint); }
  td { display: flex; justify-content: space-between; gap: .5em; border: 0; padding: 0; font-size: .9em; }
  td:nth-child(n + 3) { grid-column: 1 / -1; }
  td::before { content: attr(data-name); color: var(--soft); font-weight: normal; }
}
@page { size: A4; margin: 10mm; }
@media print {
  body { margin: 0; padding: 0; max-width: none; font-size: 10px; line-height: 1.25; }
  h2 { break-after: avoid; margin-top: .9em; }
  .points { columns: 3; } .fields { columns: 2; } svg { max-height: 36mm; } svg text { font-size: 14px; }
  footer { margin-top: .8em; } .job { margin-top: .8em; } .job p { min-height: 2.4em; }
}
"""


def run(given):
    files.must_be_new(given.output, given.force)
    data = files.read_bytes(given.file)
    image = Image(data)
    refusal = refusal_of(image)
    against = None
    if refusal:
        lines = why.told(given.file, data)[0]
        title, body = refused_title(lines), refused_body(lines, refusal)
    else:
        sheet = read_sheet(image)
        against = compared(image, sheet, given)
        title = "Maker {}, model {}, serial {}".format(*(looks.shown(sheet, field) for field in (1, 2, 5)))
        body = sheet_body(given, image, sheet, against)
    page = document(title, [*body, *for_the_job(given), footer(given, data)]).encode("utf-8")
    files.write_new(given.output, page, given.force)
    where = "standard output" if given.output == "-" else given.output
    print(f"{where}: written" + (f"; {refusals.headline(refusal)}" if refusal else ""))
    if against:
        for line in (*against.told, against.verdict()):
            print(line)
    return REFUSED if refusal or against and not against.agrees() else ACCEPTED


def document(title, body):
    return (
        f'<!DOCTYPE html>\n<html lang="en">\n<head>\n<meta charset="utf-8">\n'
        f'<meta name="viewport" content="width=device-width, initial-scale=1">\n<title>{html.escape(title)}</title>\n'
        f"<style>{STYLE}</style>\n</head>\n<body>\n<h1>{text(title)}</h1>\n" + "\n".join(body) + "\n</body>\n</html>\n"
    )


def text(words):
    """For a page; a figure and its unit, and a date, stay on one line."""
    joined = re.sub(r"(?<=[0-9]) (?=[%\w\u00b0])", "\u00a0", html.escape(words))
    return re.sub(r"\b[0-9]{4}-[0-9]{2}-[0-9]{2}\b", r'<span class="one">\g<0></span>', joined)


def for_the_job(given):
    """Room for whom it is, which job, and a signature."""
    lines = (("Customer", given.customer), ("Job", given.job), ("Date and signature", None))
    yield '<div class="job">' + "".join(f"<p>{name}: {text(said or '')}</p>" for name, said in lines) + "</div>"


def footer(given, data):
    hashed = [("the chip's image", given.file, data)]
    if given.certificate:
        hashed.append(("the certificate", given.certificate, files.read_bytes(given.certificate)))
    hashes = "".join(
        f"<p>SHA-256 of {what}, {text(name)} ({len(found)}\u00a0bytes): {hashlib.sha256(found).hexdigest()}</p>"
        for what, name, found in hashed
    )
    return (
        f"<footer><p>{text(version.line())}. Written {text(given.today)}.</p>{hashes}<p>Figures are those of the proved programs, "
        "and differences of them; this page, its units and its drawing are not proved.</p></footer>"
    )


def refused_title(lines):
    """With the serial number, where whole pages still have it."""
    serial = next((line.partition(": ")[2] for line in lines if line.strip().startswith("serial number: ")), None)
    return "A chip that is refused" + (f", serial {serial}" if serial else "")


def refused_body(lines, refusal):
    yield f'<p class="verdict">{text(refusals.headline(refusal).replace("refused", "REFUSED", 1))}</p>'
    for line in lines[1:]:
        depth = (len(line) - len(line.lstrip())) // 2
        yield f'<p class="in{depth}">{text(line.strip())}</p>'


def compared(image, sheet, given):
    """The chip beside the certificate; None where there is none."""
    if not given.certificate:
        return None
    return certificate.against(image, sheet, given.certificate, tables.asked_in(given), given.within)


def sheet_body(given, image, sheet, against):
    by = fields.around(sheet)
    if against:
        yield f'<p class="verdict">Certificate: {text(against.verdict())}</p>'
    yield f'<p class="verdict">ACCEPTED: {text(show.summary(sheet))}</p>'
    for line in looks.look_lines(sheet, given.today):
        yield f'<p class="look">{text(line[:1].upper() + line[1:])}</p>'
    yield "<h2>Sheet</h2>"
    yield '<div class="fields">' + "".join(
        f"<p><b>{text((number + ' ' + name).strip())}</b><span>{text(value)}</span></p>"
        for number, name, value in show.rows(sheet, by)
    ) + "</div>"
    dashes = "; ".join(show.dash_lines(sheet, image))
    yield f"<p>{text(dashes[:1].upper() + dashes[1:])}</p>"
    yield "<h2>Correction over the span</h2>"
    yield from correction_figure(sheet, image, by)
    if against:
        yield "<h2>Chip minus certificate</h2>"
        yield from certificate_figure(sheet, by, against)
    if sheet.points:
        points = many(len(sheet.points), "calibration point")
        yield f"<h2>{points}, {'physical' if sheet.domain else 'electrical'} domain</h2>"
        yield '<div class="points">' + "".join(
            f"<p>{index}: {text(place)}{', ' + text(figure) if figure else ''}: {text(deviation)}</p>"
            for index, (place, figure, deviation, _) in enumerate(show.point_table(sheet, by))
        ) + "</div>"
    if sheet.curve():
        first, *segments = show.segment_lines(sheet)
        yield f"<h2>{text(first[:1].upper() + first[1:])}</h2>"
        yield "".join(f"<p>{text(segment.strip())}</p>" for segment in segments)


def feet(sheet, by):
    """Quarters of the span with the physical figure at each, where there is one."""
    ruler = readings.physical_ruler(sheet)
    places = (0, 0.25, 0.5, 0.75, 1)
    if ruler is None or sheet.template == 32 and sheet.domain == 0:
        return [(place, "") for place in places]
    prefix = readings.sheet_prefix(sheet, by.unit())
    figures = ruler.figures(int(place * WHOLE_SPAN) for place in places)
    return [(place, readings.figure_text(figure, by.unit(), prefix)) for place, figure in zip(places, figures)]


def correction_figure(sheet, image, by):
    refusal = readings.why_no_reading(sheet, image)
    dots = [(point / WHOLE_SPAN, deviation) for point, deviation in sheet.points]
    below = feet(sheet, by)
    if refusal:
        no_reading = f"A reading is {readings.no_reading_text(sheet, refusal)}."
        if not dots:
            yield f"<p>{text(no_reading)}</p>"
            return
        caption = f"Deviation at each stored point, in per cent of the span. {no_reading}"
        yield figure(drawn("Deviation at each stored point", [], dots, percent_label, below), caption)
        return
    taken = readings.take(sheet, image, readings.evenly(readings.ends_of(sheet), SAMPLES))
    if sheet.curve():
        yield from curve_figure(sheet, by, taken, below)
        return
    line = [(one.position / WHOLE_SPAN, one.correction) for one in taken]
    dots = dots if sheet.domain == 0 else []
    caption = f"Line: fraction shown minus position, in per cent of the span, by {SAMPLES} readings of the large dash."
    if not sheet.points:
        caption += " There are no calibration points."
    else:
        caption += " Circles: the stored points." if dots else " The stored points are against the physical figure, below."
    yield figure(drawn("Correction over the span", line, dots, percent_label, below), caption)


def curve_figure(sheet, by, taken, below):
    line = readings.curve_corrections(taken)
    unit, prefix = by.unit(), readings.sheet_prefix(sheet, by.unit())
    drawing = drawn("Correction over the span", line, [], lambda y: in_unit(float_text(y, 4), unit, prefix, True), below)
    about = f"Line: figure shown minus the figure without the curve, in {unit.named(prefix)}, by {SAMPLES} readings."
    yield figure(drawing, about)


def certificate_figure(sheet, by, against):
    line = against.over(SAMPLES)
    dots = [(one.place / WHOLE_SPAN, float(one.difference)) for one in against.at]
    band = against.distance() and Band(against)
    below = feet(sheet, by)
    yield figure(drawn("Chip minus certificate", line, dots, percent_label, below, band), certificate_caption(band))
    for told in (*against.heading(), *against.told, *([against.meaning()] if against.agrees() else [])):
        yield f"<p>{text(told[:1].upper() + told[1:])}</p>"
    heads = "".join(f"<th>{html.escape(name)}</th>" for name in certificate.HEADS)
    yield f'<table><tr class="heads">{heads}</tr>'
    for cells in against.rows():
        far = ' class="far"' if cells[-1].endswith("!") else ""
        named = zip(certificate.HEADS, cells)
        yield f"<tr{far}>" + "".join(f'<td data-name="{name}">{html.escape(cell)}</td>' for name, cell in named) + "</tr>"
    yield "</table>"


class Band:
    """How far a chip that is built from the certificate's points can be from it, either way, in billionths and in words."""

    def __init__(self, against):
        self.distance = against.distance()
        self.words = against.told_bound.text()


def certificate_caption(band):
    caption = f"Line: the chip minus the certificate, in per cent of the span, by {SAMPLES} readings. "
    caption += "Circles: the certificate's points."
    if band:
        caption += f" Grey band between broken lines: what a chip built from these points could be off by, {band.words}, either way."
    return caption


def percent_label(billionths):
    return signed(plain(float_text(billionths / 1e7, 4))) + " %"


def drawn(title, line, dots, label, below, band=None):
    """The picture in a wide form and in a narrow one, of which a screen shows one; its words tell what it shows."""
    heights = [y for _, y in line + dots] + ([band.distance, -band.distance] if band else [])
    found = []
    for form in (WIDE, NARROW):
        panel = Panel(described(title, line or dots, label, band), heights, label, form)
        if band:
            panel.band(band.distance)
        panel.axes(below)
        if line:
            panel.line(line)
        panel.dots(dots)
        found.append(panel.svg())
    return "".join(found)


def described(title, places, label, band):
    """A picture in words: both ends, the greatest and the least, and whether it stays in its band."""
    def at(place):
        return f"{label(place[1])} at {plain(float_text(place[0] * 100, 4))} % of the span"

    said = f"{title}: from {at(places[0])} to {at(places[-1])}"
    said += f"; greatest {at(max(places, key=lambda place: place[1]))}, least {at(min(places, key=lambda place: place[1]))}"
    if band:
        outside = any(abs(y) > band.distance for _, y in places)
        said += f"; the proved band is {band.words}, either way, and the line {'leaves it' if outside else 'stays in it'}"
    return said


def figure(svg, caption):
    return f"<figure>{svg}<figcaption>{text(caption)}</figcaption></figure>"
