/* Builds a data sheet: build NEW
 *
 * Makes the image of a load cell's chip of kind 1, checks it, and writes it to NEW. The sheet is that of samples/load-cell.kind1.
 *
 *     cc -Iinclude examples/build.c portable/c/dartelm.c -o target/build
 */
#include <inttypes.h>
#include <stdio.h>
#include <string.h>

#include "dartelm.h"

static dartelm_value whole(int64_t figure)
{
    dartelm_value value = {figure, 0, 0, 0};
    return value;
}

static dartelm_value single(float figure)
{
    dartelm_value value = {0, figure, 1, 0};
    return value;
}

/* The code of a text that is known to be good. */
static dartelm_value text(uint64_t field, const char *characters)
{
    return whole((int64_t)dartelm_code(field, characters, strlen(characters)).code);
}

/* The place of a field's value. */
static dartelm_value *at(dartelm_fields *fields, int field)
{
    return &fields->values[field - 1];
}

int main(int argc, char **argv)
{
    if (argc != 2) {
        fprintf(stderr, "usage: %s NEW\n", argv[0]);
        return 2;
    }

    dartelm_fields fields;
    *at(&fields, DARTELM_FIELD_MANUFACTURER_ID) = whole(1451);
    *at(&fields, DARTELM_FIELD_MODEL_NUMBER) = whole(77);
    *at(&fields, DARTELM_FIELD_VERSION_LETTER) = text(DARTELM_FIELD_VERSION_LETTER, "C");
    *at(&fields, DARTELM_FIELD_VERSION_NUMBER) = whole(4);
    *at(&fields, DARTELM_FIELD_SERIAL_NUMBER) = whole(555);
    *at(&fields, DARTELM_FIELD_MEASURAND) = whole(4); /* N */
    *at(&fields, DARTELM_FIELD_MIN_PHYS_VAL) = single(0);
    *at(&fields, DARTELM_FIELD_MAX_PHYS_VAL) = single(5000);
    *at(&fields, DARTELM_FIELD_PRECISION) = whole(1);
    *at(&fields, DARTELM_FIELD_MIN_ELEC_VAL) = whole(0);
    *at(&fields, DARTELM_FIELD_MAX_ELEC_VAL) = whole(2000000); /* 2 mV/V */
    *at(&fields, DARTELM_FIELD_BRIDGE_TYPE) = whole(2);        /* full */
    *at(&fields, DARTELM_FIELD_IMPEDANCE) = whole(3500);       /* 350 ohm */
    *at(&fields, DARTELM_FIELD_RESPONSE_TIME) = whole(100);    /* 1 us */
    *at(&fields, DARTELM_FIELD_EXCITATION_NOMINAL) = whole(100);
    *at(&fields, DARTELM_FIELD_EXCITATION_MIN) = whole(50);
    *at(&fields, DARTELM_FIELD_EXCITATION_MAX) = whole(120);
    *at(&fields, DARTELM_FIELD_CAL_DATE) = text(DARTELM_FIELD_CAL_DATE, "2025-11-03");
    *at(&fields, DARTELM_FIELD_CAL_INITIALS) = text(DARTELM_FIELD_CAL_INITIALS, "J.K");
    *at(&fields, DARTELM_FIELD_CAL_PERIOD) = whole(365);
    *at(&fields, DARTELM_FIELD_LOCATION_ID) = whole(12);
    fields.end_bit = 1;
    fields.level = DARTELM_LEVEL_MAKER;
    fields.is_resistance = 0;

    /* Calibration point and deviation by turns, in billionths of the span, against the electrical figure. */
    static const int64_t points[] = {
        0,         0,      200000000, 150000, 400000000,  420000,
        600000000, 380000, 800000000, 90000,  1000000000, -210000,
    };
    static const char closing[] = "rolling road 2, left drum";

    uint8_t image[128];
    dartelm_write_answer built =
        dartelm_build(1, image, sizeof image, fields, closing, strlen(closing), DARTELM_DOMAIN_ELECTRICAL, points,
                      sizeof points / sizeof points[0]);
    if (built.number != DARTELM_ACCEPTED) {
        printf("refused %u at %" PRIu64 "\n", built.number, built.place);
        return 1;
    }
    dartelm_check_answer sheet = dartelm_check(1, image, sizeof image);
    printf("%" PRIu64 " bits, %" PRIu64 " points, %" PRIu64 " characters\n", sheet.bits, sheet.points, sheet.characters);

    FILE *file = fopen(argv[1], "wb");
    if (file == NULL || fwrite(image, 1, sizeof image, file) != sizeof image || fclose(file) != 0) {
        perror(argv[1]);
        return 2;
    }
    return 0;
}
