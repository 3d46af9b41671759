/* Shows a data sheet: sheet FILE
 *
 * FILE holds a chip's image; its length says which kind of chip. Prints every field with its unit, the calibration points or the
 * curve, and the closing text, or the refusal's number and place. The image is checked once for all fields.
 *
 *     cc -Iinclude examples/sheet.c portable/c/dartelm.c -o target/sheet
 */
#include <inttypes.h>
#include <stdio.h>

#include "dartelm.h"

/* A field's name, and the units of its whole number and of its Single. */
typedef struct shown {
    const char *name;
    const char *unit;
    const char *single_unit;
} shown;

/* Fields 1 to 9, of both templates. */
static const shown first[] = {
    {"manufacturer ID", "", ""},
    {"model number", "", ""},
    {"version letter", "", ""},
    {"version number", "", ""},
    {"serial number", "", ""},
    {"physical measurand", "", ""},
    {"minimum physical value", "", ""},
    {"maximum physical value", "", ""},
    {"electrical value precision", "", ""},
};

/* From field 10 on. */
static const shown bridge[] = {
    {"minimum electrical value", " nV/V", " V/V"},
    {"maximum electrical value", " nV/V", " V/V"},
    {"bridge type", "", ""},
    {"bridge element impedance", " x 0.1 ohm", ""},
    {"response time", " x 10 ns", ""},
    {"excitation level, nominal", " x 0.1 V", ""},
    {"excitation level, minimum", " x 0.1 V", ""},
    {"excitation level, maximum", " x 0.1 V", ""},
    {"calibration date", "", ""},
    {"calibration initials", "", ""},
    {"calibration period", " days", ""},
    {"measurement location ID", "", ""},
};
static const shown resistance[] = {
    {"minimum electrical value", " ohm", " ohm"},
    {"maximum electrical value", " ohm", " ohm"},
    {"mapping method", "", ""},
    {"response time", " x 10 ns", ""},
    {"excitation current, nominal", " x 0.1 nA", ""},
    {"excitation current, maximum", " x 0.1 nA", ""},
    {"calibration date", "", ""},
    {"calibration initials", "", ""},
    {"calibration period", " days", ""},
    {"measurement location ID", "", ""},
};

static shown shown_of(uint8_t template_id, unsigned field)
{
    if (field <= DARTELM_FIELD_PRECISION) {
        return first[field - 1];
    }
    return template_id == DARTELM_TEMPLATE_RESISTANCE ? resistance[field - 10] : bridge[field - 10];
}

/* The field as which dartelm_text knows the text of one. Only 3, 18 and 19 have one: for another the call is refused. */
static uint64_t text_field(uint8_t template_id, unsigned field)
{
    if (template_id != DARTELM_TEMPLATE_RESISTANCE) {
        return field;
    }
    switch (field) {
    case DARTELM_FIELD_VERSION_LETTER:
        return DARTELM_FIELD_VERSION_LETTER;
    case DARTELM_RESISTANCE_CAL_DATE:
        return DARTELM_FIELD_CAL_DATE;
    case DARTELM_RESISTANCE_CAL_INITIALS:
        return DARTELM_FIELD_CAL_INITIALS;
    default:
        return 0;
    }
}

static void show(uint8_t template_id, unsigned field, dartelm_value value)
{
    shown as = shown_of(template_id, field);
    printf("%2u %s: ", field, as.name);
    if (value.is_missing) {
        printf("missing\n");
    } else if (value.is_single) {
        printf("%.9g%s\n", value.single, as.single_unit);
    } else {
        printf("%" PRId64 "%s", value.whole, as.unit);
        /* Where the call is refused, the length is 0. */
        dartelm_text_answer text = dartelm_text(text_field(template_id, field), (uint64_t)value.whole);
        if (text.length > 0) {
            printf(" (%s)", text.characters);
        }
        printf("\n");
    }
}

int main(int argc, char **argv)
{
    if (argc != 2) {
        fprintf(stderr, "usage: %s FILE\n", argv[0]);
        return 2;
    }
    if (dartelm_version() != DARTELM_VERSION) {
        fprintf(stderr, "the archive is not this header's\n");
        return 2;
    }
    FILE *file = fopen(argv[1], "rb");
    if (file == NULL) {
        perror(argv[1]);
        return 2;
    }
    uint8_t image[DARTELM_LONGEST_IMAGE + 1];
    size_t length = fread(image, 1, sizeof image, file);
    fclose(file);

    uint8_t kind = dartelm_kind_of(length);
    dartelm_sheet_answer sheet = dartelm_sheet(kind, image, length);
    if (sheet.number != DARTELM_ACCEPTED) {
        printf("refused %u at %" PRIu64 "\n", sheet.number, sheet.place);
        return 1;
    }
    uint8_t template_id = sheet.fields.is_resistance ? DARTELM_TEMPLATE_RESISTANCE : DARTELM_TEMPLATE_BRIDGE;
    printf("kind %u, template %u, %" PRIu64 " bits\n", kind, template_id, sheet.bits);
    for (unsigned field = 1; field <= sheet.field_count; field++) {
        show(template_id, field, sheet.fields.values[field - 1]);
    }
    if (sheet.domain != DARTELM_NO_DOMAIN) {
        printf("domain %u\n", sheet.domain);
    }
    for (uint64_t i = 0; i < sheet.points; i++) {
        dartelm_pair_answer pair = dartelm_pair(kind, image, length, i);
        printf("point %" PRIu64 ": %" PRId64 ", deviation %" PRId64 "\n", i, pair.point, pair.deviation);
    }
    for (uint64_t i = 0; i < sheet.segments; i++) {
        dartelm_segment_answer segment = dartelm_segment(kind, image, length, i);
        printf("segment %" PRIu64 ": from %" PRId64 ", terms %" PRIu64 "\n", i, segment.start, segment.terms);
    }
    for (uint64_t i = 0; i < sheet.terms; i++) {
        dartelm_term_answer term = dartelm_term(kind, image, length, i);
        printf("term %" PRIu64 ": power %" PRId64 ", coefficient %.9g\n", i, term.exponent, term.coefficient);
    }
    printf("text: ");
    for (uint64_t i = 0; i < sheet.characters; i++) {
        putchar(dartelm_character(kind, image, length, i).character);
    }
    putchar('\n');
    return 0;
}
