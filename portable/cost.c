/* cost FILE CALL TIMES: makes a call on an image so many times, for portable/cost to count its instructions. */
#include "dartelm.h"
#include <stdio.h>
#include <stdlib.h>
#include <string.h>

static uint8_t image[DARTELM_LONGEST_IMAGE], copy[DARTELM_LONGEST_IMAGE];
static int64_t points[254];

int main(int count, char **words)
{
    FILE *file = count == 4 ? fopen(words[1], "rb") : NULL;
    size_t length = file ? fread(image, 1, sizeof image, file) : 0, list = 0;
    uint8_t kind = dartelm_kind_of(length);
    dartelm_sheet_answer sheet = dartelm_sheet(kind, image, length);
    dartelm_value seven = {7, 0, 0, 0};
    uint64_t sum = 0;
    if (!file || sheet.number != 0) {
        return 2;
    }
    for (uint64_t i = 0; i < sheet.points; i++) {
        dartelm_pair_answer pair = dartelm_pair(kind, image, length, i);
        points[list++] = pair.point;
        points[list++] = pair.deviation;
    }
    for (long n = atol(words[3]); n > 0; n--) {
        if (!strcmp(words[2], "check")) {
            sum += dartelm_check(kind, image, length).bits;
        } else if (!strcmp(words[2], "reading")) {
            sum += (uint64_t)dartelm_reading(kind, image, length, 1000000 + n % 7, DARTELM_DASH_LARGE).fraction;
        } else if (!strcmp(words[2], "change")) {
            memcpy(copy, image, length);
            sum += dartelm_change(kind, copy, length, DARTELM_LEVEL_MAKER, DARTELM_FIELD_LOCATION_ID, seven).number;
        } else {
            sum += dartelm_build(kind, copy, length, sheet.fields, "", 0, 0, points, list).number;
        }
    }
    fclose(file);
    return sum == UINT64_MAX;
}
