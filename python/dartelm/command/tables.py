"""A certificate's table: its columns, its rows and its decimal mark. What can be read in two ways is refused."""
import csv
import io
import re

from . import files, measurands
from .trouble import Trouble, misused
from .units import PERCENT, many, split

BRACKETS = re.compile(r"[(\[]([^()\[\]]*)[)\]]\s*$")
BEHIND = re.compile(r"\w[\s,]+(?:in\s+)?((?:%|\S+)(?: rms)?(?: of .*)?)$")
OF_SPAN = re.compile(r"(?:%|per cent|percent) (?:of )?(?:the )?(?:full )?span")
SPAN = "% of span"
DEVIATION = {"deviation", "deviations", "correction", "corrections"}
ERROR = {"error", "errors"}
# A column headed so is of deviations, and has not the sender's.
ABOUT = {"standard", "std", "uncertainty", "limit", "limits", "tolerance", "permissible", "permitted", "allowed", "allowable"}
RELATIVE = {"relative", "rel", "reading", "rdg", "indication", "indicated"}
MEASURED = {word for name, _ in measurands.CASES for word in re.findall("[a-z]+", name.lower())}
POINT = {"point", "points", "figure", "load", "applied"} | MEASURED
COLUMNS = "columns like 'point (%)' and 'deviation (%)', or with the sender's unit in the brackets"
# A number may stand behind marks and behind a word that says it is not exact.
NUMBER = re.compile(r"\W*(?:(?:ca|circa|approx|about)\W*)?[0-9]", re.IGNORECASE)
WHOLE = re.compile(r"[+-]?[0-9]+")
BEHIND_A_COMMA = re.compile(r"[0-9]+\s*(?:%|[^\W\d_]\S{0,7})?")
THOUSANDS = re.compile(r"[+\-\u2212]?[1-9][0-9]{0,2}[.,][0-9]{3}(?![0-9])")


class Asked:
    """The columns that are asked for by their heads; None where the heads decide. An error has the other sign."""

    def __init__(self, point=None, deviation=None, error=None):
        if deviation is not None and error is not None:
            raise misused("--deviation and --error are the same column: give one of them")
        self.point = point
        self.deviation = error if deviation is None else deviation
        self.turned = error is not None


def asked_in(given):
    return Asked(given.point, given.deviation, given.error)


class Table:
    """The cells of both columns, each with its unit, and what was taken and passed over."""

    def __init__(self, path, heads, point, deviation, turned):
        self.path = path
        self.heads = heads
        self.point = point
        self.deviation = deviation
        self.turned = turned
        self.rows = []
        self.footers = []

    def told(self):
        turned = ", an error, with its sign turned" if self.turned else ""
        point, deviation = (self.heads[at] for at in (self.point, self.deviation))
        yield f"taken: point from '{point}', deviation from '{deviation}'{turned}, {many(len(self.rows), 'row')}"
        for line, cells in self.footers:
            yield f"passed over: line {line}: {', '.join(cell for cell in cells if cell)}"

    def wrong(self, line, text):
        return misused(f"{self.path}:{line}: {text}")


def read_table(path, asked):
    """The table of a file. The heads are the first line that has both columns."""
    text = files.read_text(path)
    problem = None
    for mark in (";", "\t", ","):
        try:
            rows = list(numbered_rows(path, text, mark))
        except Trouble as trouble:
            problem = problem or trouble
            continue
        for at, (line, row) in enumerate(rows):
            columns = columns_of(path, line, row, asked)
            if columns:
                table = Table(path, row, *columns, asked.turned)
                above(table, rows[:at])
                below(table, rows[at + 1 :], mark)
                return table
    raise problem or misused(f"{path}: there are no {missing(asked)}")


def missing(asked):
    named = [f"'{name}'" for name in (asked.point, asked.deviation) if name is not None]
    return "columns " + " and ".join(named) + " in one line" if named else COLUMNS


def numbered_rows(path, text, mark):
    reader = csv.reader(io.StringIO(text, newline=""), delimiter=mark, skipinitialspace=True, strict=True)
    try:
        for row in reader:
            cells = [cell.strip() for cell in row]
            if any(cells):
                yield reader.line_num, cells
    except csv.Error as error:
        raise misused(f"{path}:{reader.line_num}: {error}") from None


def columns_of(path, line, row, asked):
    """The places of the point and of the deviation; None where the row has not both. Two that fit are refused."""
    if row[0].startswith("#"):
        return None
    errors = [at for at, head in enumerate(row) if ERROR & words_of(head)]
    deviations = [at for at, head in enumerate(row) if DEVIATION & words_of(head) or at in errors]
    points = [at for at, head in enumerate(row) if POINT & words_of(head) and at not in deviations]
    if asked.deviation is not None:
        deviations, errors = headed(row, asked.deviation), []
    if asked.point is not None:
        points = headed(row, asked.point)
    points = [at for at in points if asked.deviation is None or at not in deviations]
    if not points or not deviations:
        return None
    for found, what, option in ((points, "point", "--point"), (deviations, "deviation", "--deviation")):
        if len(found) > 1:
            names = " and ".join(f"'{row[at]}'" for at in found)
            raise misused(f"{path}:{line}: {names} may each be the {what}; {option} COLUMN says which")
    if asked.deviation is None and ABOUT & words_of(row[deviations[0]]):
        raise misused(f"{path}:{line}: '{row[deviations[0]]}' may not be the sender's deviation; --deviation COLUMN takes it as that")
    if errors:
        raise misused(
            f"{path}:{line}: '{row[errors[0]]}' is an error, which has the other sign than a deviation; "
            "--error COLUMN takes it with the sign turned, --deviation COLUMN as it is"
        )
    return points[0], deviations[0]


def headed(row, name):
    """The columns whose head is a name; else those that begin so."""
    wanted = plain(name)
    same = [at for at, head in enumerate(row) if plain(head) == wanted]
    return same or [at for at, head in enumerate(row) if wanted and plain(head).startswith(wanted)]


def plain(head):
    return " ".join(head.lower().split())


def words_of(cell):
    return set(re.findall("[a-z]+", cell.lower()))


def unit_in(head):
    """The unit in a column's head: between brackets, or behind the name where it is one."""
    found = BRACKETS.search(head)
    if found is None:
        found = BEHIND.search(head)
        if found and not is_unit(found.group(1).strip()):
            return ""
    word = found.group(1).strip() if found else ""
    return SPAN if OF_SPAN.fullmatch(word) else word


def is_unit(word):
    return bool(OF_SPAN.fullmatch(word)) or word in PERCENT.spellings or measurands.is_unit(word)


def cell_at(row, at):
    return row[at] if at < len(row) else ""


def has_number(cell):
    return bool(NUMBER.match(cell))


def is_figure(cell):
    """A number, with a unit or without."""
    found = split(cell)
    return found is not None and bool(re.fullmatch(r"(?:%|[^\W\d_].{0,11})?", found[1]))


def above(table, rows):
    """A line above the heads that has a number in both columns is a row that would be lost."""
    for line, row in rows:
        if not row[0].startswith("#") and all(is_figure(cell_at(row, at)) for at in (table.point, table.deviation)):
            raise table.wrong(line, "a row above the heads of the columns")


def below(table, rows, mark):
    """The rows below the heads, up to a footer: a line that has no number in either column."""
    units = [unit_of(table, at) for at in (table.point, table.deviation)]
    taken = []
    for line, row in rows:
        numbers = [has_number(cell_at(row, at)) for at in (table.point, table.deviation)]
        if row[0].startswith("#"):
            if all(numbers):
                raise table.wrong(line, "a comment that looks like a row; leave out the line or the #")
        elif not any(numbers):
            table.footers.append((line, row))
        elif table.footers:
            raise table.wrong(line, f"a row behind line {table.footers[-1][0]}, which is none; leave out what stands between")
        else:
            one_row(table, line, row, mark)
            taken.append((line, row))
    digits_that_are_lost(table, taken, mark)
    decimal = decimal_mark(table, taken, mark, units)
    for line, row in taken:
        cells = (with_unit(row[at], unit, decimal) for at, unit in zip((table.point, table.deviation), units))
        table.rows.append((line, *cells))
    if not table.rows:
        raise misused(f"{table.path}: it has no points below its columns")


def unit_of(table, at):
    head = table.heads[at]
    unit = unit_in(head)
    if at == table.deviation and unit in PERCENT.spellings and RELATIVE & words_of(head):
        raise misused(f"{table.path}: '{head}' may be per cent of the reading; head the column '(% of span)' if it is of the span")
    return unit


def one_row(table, line, row, mark):
    """Every cell has its head, and none is the digits behind a decimal comma."""
    comma = "; was a decimal comma meant? Then ; has to stand between the columns, or \" around the figure" if mark == "," else ""
    if any("\n" in cell or "\r" in cell for cell in row):
        raise table.wrong(line, "a cell of more than one line; is a \" missing?")
    if len(row) != len(table.heads):
        more = comma if len(row) > len(table.heads) else ""
        raise table.wrong(line, f"{many(len(row), 'cell')} under {len(table.heads)} heads{more}")
    for at, cell in enumerate(row):
        chosen = at in (table.point, table.deviation)
        pattern = r"[+-]?0[0-9].*" if chosen else r"0[0-9]+(?![.:/\-0-9]).*"
        if (chosen or mark == ",") and re.fullmatch(pattern, cell):
            raise table.wrong(line, f"'{cell}' is no figure{comma or '; write it without the first 0'}")
    for at, what in ((table.point, "point"), (table.deviation, "deviation")):
        if not row[at]:
            raise table.wrong(line, f"there is no {what}")


def digits_that_are_lost(table, taken, mark):
    """Behind the later column a whole number may be the digits of a decimal comma, unless the rows show that it is a column of
    its own: all of them have one there, and one has it behind a decimal point."""
    last = max(table.point, table.deviation)
    if mark != "," or last + 1 >= len(table.heads):
        return
    doubtful = [
        (line, row) for line, row in taken if WHOLE.fullmatch(row[last]) and BEHIND_A_COMMA.fullmatch(row[last + 1])
    ]
    own = all(BEHIND_A_COMMA.fullmatch(row[last + 1]) for _, row in taken) and any("." in row[last] for _, row in taken)
    if doubtful and not own:
        line, row = doubtful[0]
        raise table.wrong(line, f"'{row[last]},{row[last + 1]}' may be one figure with a decimal comma; put \" around the cells")


def decimal_mark(table, taken, mark, units):
    """The mark that figures have: a point, or a comma where it does not separate columns. Both in one table are refused, and
    so is one that may separate thousands in every figure that has it."""
    cells = [(line, row[at]) for line, row in taken for at in (table.point, table.deviation)]
    commas = [(line, cell) for line, cell in cells if "," in cell]
    points = [(line, cell) for line, cell in cells if "." in cell]
    if commas and mark == ",":
        line, cell = commas[0]
        raise table.wrong(line, f"'{cell}' has a comma; write it with a decimal point, and without marks between thousands")
    if commas and points:
        line, cell = max(commas[0], points[0])
        other = min(commas[0], points[0])[1]
        raise table.wrong(line, f"'{other}' and '{cell}': one has a point and one a comma; write all figures with one of them")
    marked = commas or points
    if marked and not in_percent(units, marked) and all(THOUSANDS.match(cell) for _, cell in marked):
        line, cell = marked[0]
        raise table.wrong(line, f"'{cell}' may be thousands; write it without a mark, or with other than three digits behind it")
    return "," if commas else "."


def in_percent(units, cells):
    """Whether all figures are in per cent, of which none has thousands."""
    return all(unit in (SPAN, *PERCENT.spellings) for unit in units) or all(cell.endswith("%") for _, cell in cells)


def with_unit(cell, unit, decimal):
    """A cell with the unit of its column's head, if it has none."""
    text = cell.replace("\u2212", "-").replace(decimal, ".")
    return text if re.search(r"[^\d.eE+\-\s]", text) or not unit else f"{text} {unit}"
