/* Changes one field of a data sheet: change FILE FIELD VALUE LEVEL NEW
 *
 * FILE holds a chip's image, and NEW is written with the changed one. VALUE is the text of a date or of letters where the field
 * has one, "missing", a Single with a point in it (0.5), or a whole number in the field's unit. LEVEL says who writes: owner,
 * calibration or maker. Prints what the field then reads, or the refusal's number and place; on a refusal nothing is written.
 *
 *     cc -Iinclude examples/change.c portable/c/dartelm.c -o target/change
 */
#include <errno.h>
#include <inttypes.h>
#include <stdio.h>
#include <stdlib.h>
#include <string.h>

#include "dartelm.h"

/* The field as which dartelm_code knows the text of one. Only 3, 18 and 19 have one: for another the call is refused. */
static uint64_t text_field(uint8_t template_id, uint64_t field)
{
    if (template_id != DARTELM_TEMPLATE_RESISTANCE) {
        return field;
    }
    switch (field) {
    case DARTELM_FIELD_VERSION_LETTER:
        return DARTELM_FIELD_VERSION_LETTER;
    case DARTELM_RESISTANCE_CAL_DATE:
        return DARTELM_FIELD_CAL_DATE;
    case DARTELM_RESISTANCE_CAL_INITIALS:
        return DARTELM_FIELD_CAL_INITIALS;
    default:
        return 0;
    }
}

/* The value that a word means for a field; 0 if it means none. */
static int value_of(const char *word, uint8_t template_id, uint64_t field, dartelm_value *value)
{
    char *end;
    memset(value, 0, sizeof *value);
    if (strcmp(word, "missing") == 0) {
        value->is_missing = 1;
        return 1;
    }
    dartelm_code_answer code = dartelm_code(text_field(template_id, field), word, strlen(word));
    if (code.number == DARTELM_ACCEPTED) {
        value->whole = (int64_t)code.code;
        return 1;
    }
    errno = 0;
    if (strchr(word, '.') != NULL) {
        value->single = strtof(word, &end);
        value->is_single = 1;
    } else {
        value->whole = strtoll(word, &end, 10);
    }
    return errno == 0 && end != word && *end == '\0';
}

/* The level that a word names; 0 if it names none. */
static int level_of(const char *word, uint8_t *level)
{
    static const char *const names[] = {"owner", "calibration", "maker"}; /* by DARTELM_LEVEL_ */
    for (uint8_t each = DARTELM_LEVEL_OWNER; each <= DARTELM_LEVEL_MAKER; each++) {
        if (strcmp(word, names[each]) == 0) {
            *level = each;
            return 1;
        }
    }
    return 0;
}

static int refused(uint8_t number, uint64_t place)
{
    printf("refused %u at %" PRIu64 "\n", number, place);
    return 1;
}

int main(int argc, char **argv)
{
    if (argc != 6) {
        fprintf(stderr, "usage: %s FILE FIELD VALUE LEVEL NEW\n", argv[0]);
        return 2;
    }
    FILE *file = fopen(argv[1], "rb");
    if (file == NULL) {
        perror(argv[1]);
        return 2;
    }
    uint8_t image[DARTELM_LONGEST_IMAGE + 1];
    size_t length = fread(image, 1, sizeof image, file);
    fclose(file);
    uint8_t kind = dartelm_kind_of(length);
    uint8_t template_id = dartelm_check(kind, image, length).template_id;

    char *end;
    errno = 0;
    uint64_t field = strtoull(argv[2], &end, 10);
    dartelm_value value;
    if (errno != 0 || end == argv[2] || *end != '\0' || !value_of(argv[3], template_id, field, &value)) {
        fprintf(stderr, "%s or %s is no number\n", argv[2], argv[3]);
        return 2;
    }
    uint8_t level;
    if (!level_of(argv[4], &level)) {
        fprintf(stderr, "%s is no level\n", argv[4]);
        return 2;
    }
    dartelm_write_answer changed = dartelm_change(kind, image, length, level, field, value);
    if (changed.number != DARTELM_ACCEPTED) {
        return refused(changed.number, changed.place);
    }
    dartelm_field_answer now = dartelm_field(kind, image, length, field);
    if (now.number != DARTELM_ACCEPTED) {
        return refused(now.number, now.place);
    }
    if (now.value.is_missing) {
        printf("missing\n");
    } else if (now.value.is_single) {
        printf("%.9g\n", now.value.single);
    } else {
        printf("%" PRId64 "\n", now.value.whole);
    }

    file = fopen(argv[5], "wb");
    if (file == NULL || fwrite(image, 1, length, file) != length || fclose(file) != 0) {
        perror(argv[5]);
        return 2;
    }
    return 0;
}
