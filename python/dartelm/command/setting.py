"""set: a copy of an image with some fields changed, through proposal and commit; all of them or none."""
from .. import calls
from . import fields, files, refusals, rules
from .fields import field_named
from .image import Image, open_image, write_image, wrote
from .looks import look_lines
from .storing import Row, exact_or_nothing, table
from .trouble import ACCEPTED, REFUSED, Refusal, misused, refused, tried, unread

LEVELS = ("owner", "calibration", "maker")
REBUILD = "; 'dartelm export' the sheet, edit it and 'dartelm make' the image anew"
WHOLE_SHEET = (["text"], ["closing", "text"], ["point"], ["points"], ["domain"], ["segment"], ["term"], ["kind"], ["template"])


def run(given):
    if given.output is not None:
        files.must_be_new(given.output, given.force)
    image, sheet = open_image(given.file)
    asked = [assignment(sheet.template, word) for word in given.changes]
    once(asked)
    changes = Changes(image, sheet, given.level)
    changes.measure_by(asked)
    for field, text, value in [(field, text, field.parsed(text, changes.by)) for field, text in asked]:
        changes.make(field, text, value, given.dry_run)
    for line in table(changes.rows):
        print(line)
    if given.dry_run:
        for said in changes.refused:
            print(said)
        if given.exact and not changes.refused:
            exact_or_nothing(changes.rows)
        print("nothing is written (--dry-run)")
        return REFUSED if changes.refused else ACCEPTED
    if given.exact:
        exact_or_nothing(changes.rows)
    written(given, changes)
    return ACCEPTED


def written(given, changes):
    """Writes the image, reads it again, and says what is worth a look and was not before."""
    again = write_image(given.output, changes.image, given.force)
    if any(again.values[number] != value for number, value in changes.stored.items()):
        raise unread(f"{given.output}: what stands in the file is not what was written")
    were = look_lines(changes.sheet, given.today)
    for line in look_lines(again, given.today):
        if line not in were:
            print(line)
    if 6 in changes.stored and not {7, 8} <= set(changes.stored):
        print("look at: the physical values that were not set keep their numbers, in the new unit")
    print(f"{wrote(given.output)}, accepted")


class Changes:
    """An image with the changes made so far, and a row for each."""

    def __init__(self, image, sheet, level):
        self.image, self.sheet, self.level = image, sheet, level
        self.before, self.by = fields.around(sheet), fields.around(sheet)
        self.rows, self.refused, self.stored = [], [], {}

    def measure_by(self, asked):
        """Physical values are in the unit of the measurand that is set with them."""
        for field, text in asked:
            if field.number == 6 and field.parsed(text, self.by) is not fields.MISSING:
                self.by.measurand = field.parsed(text, self.by)

    def make(self, field, text, value, dry):
        """A refusal ends the command; of a dry run it is a row."""
        now, given = field.shown(self.sheet.values[field.number], self.before), field.given(text, self.by)
        try:
            self.image, kept = changed(self.image, field, value, self.level)
        except Refusal as refusal:
            said = self.reason(field, value, text, refusal)
            if not dry:
                raise refused(f"nothing is written: {said}") from None
            self.refused.append(said)
            self.rows.append(Row(field.name, now, given, "refused", refused=said))
            return
        self.stored[field.number] = kept
        difference = field.difference(text, kept, self.by)
        self.rows.append(Row(field.name, now, given, field.shown(kept, self.by), difference))

    def reason(self, field, value, text, refusal):
        if refusal.number in (9, 10):
            return rules.numbered(refusal, rules.field_rule(self.by, field, value, text))
        said = f"{field.name} = {text.strip()}: {refusals.headline(refusal, refusals.about(value))}"
        if refusal.number == 12:
            return said + REBUILD
        for higher in LEVELS[LEVELS.index(self.level) + 1 :]:
            if refusal.number == 20 and refusal_number(self.image, field, value, higher) != 20:
                return said + f"; --level {higher} may"
        return said


def assignment(template, word):
    name, equals, text = word.partition("=")
    if not equals:
        raise misused(f"'{word}' is no NAME=VALUE; with blanks it stands between marks, as 'period=365 days'")
    if fields.words_of(name) in WHOLE_SHEET:
        raise misused(f"'{name}' is not changed alone" + REBUILD)
    return field_named(template, name), text


def once(asked):
    numbers = [field.number for field, _ in asked]
    for field, _ in asked:
        if numbers.count(field.number) > 1:
            raise misused(f"'{field.name}' is given twice")


def changed(image, field, value, level):
    """The image with one field changed, and the value that it reads back."""
    level = LEVELS.index(level)
    found = image.ask(calls.propose, field.number, value, level)
    committed = image.ask(calls.commit, field.number, found.present_code, found.new_code, level)
    return Image(committed, image.kind), found.value


def refusal_number(image, field, value, level):
    """Of a proposal; 0 where it is accepted."""
    found = tried(image.ask, calls.propose, field.number, value, LEVELS.index(level))
    return found.number if isinstance(found, Refusal) else 0
