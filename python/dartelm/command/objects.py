"""Answers for programs: one JSON value on standard output. docs/JSON.md has the names."""
import json
import math
import re

from .. import calls
from . import fields, looks, readings, refusals, singles
from .fields import DATE, FIELDS
from .image import BYTES
from .trouble import Refusal
from .units import plain


def tell(value):
    print(json.dumps(value, indent=2, ensure_ascii=False))


def refusal(one):
    """None where there is none."""
    return None if one is None else {"number": one.number, "place": one.place, "text": refusals.headline(one)}


def field(form, value, by):
    """A figure is a decimal in its unit without a prefix, as text, so that no digit is lost."""
    found = {"number": form.number, "name": form.name, "text": form.shown(value, by), "value": None, "unit": None}
    if value is fields.MISSING:
        return found
    if isinstance(form.form, fields.Figure):
        found["value"], found["unit"] = plain(form.form.decimal(value)), form.form.unit_by(by).name
    elif isinstance(form.form, (fields.Number, fields.Choice)):
        found["value"] = str(value)
    else:
        found["value"] = form.form.shown(value, by)
    return found


def sheet(path, image, one, today):
    """The sheet of an accepted image."""
    by = fields.around(one)
    taken = {dash: readings.why_no_reading(one, image, dash) is None for dash in ("large", "small")}
    at, segments = 0, []
    for start, count in one.segments:
        terms = [{"exponent": exponent, "coefficient": single(figure)} for exponent, figure in one.terms[at : at + count]]
        segments.append({"start_billionths": start, "terms": terms})
        at += count
    return {
        "file": path,
        "accepted": True,
        "refusal": None,
        "kind": one.kind,
        "bytes": BYTES[one.kind],
        "bits": one.bits,
        "template": one.template,
        "fields": [field(form, one.values[form.number], by) for form in FIELDS[one.template]],
        "closing_text": None if one.text is None else one.text.decode("ascii"),
        "calibration_date": date(one),
        "calibration_due": looks.due_date(one),
        "domain": (None, "electrical", "physical")[0 if one.domain is None or not one.points else one.domain + 1],
        "points": [{"point_billionths": point, "deviation_billionths": deviation} for point, deviation in one.points],
        "segments": segments,
        "dashes": [dash for dash, is_taken in taken.items() if is_taken],
        "look_at": list(looks.looks(one, today)),
    }


def date(one):
    value = one.values[DATE[one.template]]
    return None if value is fields.MISSING else calls.text(looks.DATES, value)


def single(figure):
    return plain(singles.digits(figure))


def refused(path, one):
    return {"file": path, "accepted": False, "refusal": refusal(one)}


def number(figure):
    """A float; None where it is not finite."""
    return figure if math.isfinite(figure) else None


def reading(given, one, unit):
    """A reading, or its refusal."""
    found = {"input_nV_per_V": given, "refusal": None, "fraction_billionths": None, "figure": None, "unit": unit.name}
    found["correction_billionths"], found["correction"] = None, None
    if isinstance(one, Refusal):
        found["refusal"] = refusal(one)
        return found
    found["fraction_billionths"], found["figure"] = one.fraction, number(one.figure)
    found["correction_billionths"], found["correction"] = one.correction, number(one.figure - one.straight)
    return found


def why(path, lines, accepted, one):
    """What `why` says, by the beginnings of its lines."""
    pages = [re.fullmatch(r"  page (\d+): (.*)", line) for line in lines]
    still = [line[4:].split(": ", 1) for line in lines if re.match(r"    \S.*: ", line)]
    return {
        "file": path,
        "accepted": accepted,
        "refusal": refusal(one),
        "pages": [{"page": int(found.group(1)), "verdict": found.group(2)} for found in pages if found],
        "whole_pages_say": dict(still),
        "likely": [line[len("likely: ") :] for line in lines if line.startswith("likely: ")],
        "to_do": [line[len("to do: ") :] for line in lines if line.startswith("to do: ")],
    }


def certificate(path, name, beside):
    """A chip beside its certificate."""
    return {
        "file": path,
        "certificate": name,
        "taken": beside.told,
        "verdict": beside.verdict().partition(":")[0],
        "text": beside.verdict(),
        "distance_billionths": beside.distance(),
        "bound_billionths": beside.bound(),
        "unit": beside.unit.name,
        "points": [
            {
                "point": one.name,
                "at_billionths": one.place,
                "input_nV_per_V": one.input,
                "certificate_billionths": float(one.wanted),
                "chip_billionths": one.fraction,
                "difference_billionths": float(one.difference),
                "within": beside.within(one),
            }
            for one in beside.all()
        ],
    }


def chip(one):
    """A chip of a tray."""
    found = {"file": one.path, "accepted": one.sheet is not None, "error": one.trouble, "bits": one.bits, "refused": one.number}
    found.update({name: one.names.get(name) for name in ("manufacturer", "model", "version", "serial", "location", "date", "due")})
    found["points"] = len(one.sheet.points) if one.sheet else None
    found["look_at"] = one.looks
    found["certificate"] = one.certificate or None
    found["verdict"] = one.verdict or None
    return found

