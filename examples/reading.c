/* Takes a reading of a data sheet: reading KIND FILE INPUT DASH
 *
 * FILE holds a chip's image, INPUT is in nV/V, and DASH is large or small. Prints the fraction in billionths of the span and the
 * physical figure, or the refusal's number and place.
 *
 *     cc -Iinclude examples/reading.c portable/c/dartelm.c -o target/reading
 */
#include <errno.h>
#include <inttypes.h>
#include <stdio.h>
#include <stdlib.h>
#include <string.h>

#include "dartelm.h"

int main(int argc, char **argv)
{
    if (argc != 5) {
        fprintf(stderr, "usage: %s KIND FILE INPUT DASH\n", argv[0]);
        return 2;
    }

    /* A kind is a byte: 256 must not be taken as 0. */
    char *end;
    errno = 0;
    long kind = strtol(argv[1], &end, 10);
    if (errno != 0 || end == argv[1] || *end != '\0' || kind < 0 || kind > UINT8_MAX) {
        fprintf(stderr, "%s is no kind\n", argv[1]);
        return 2;
    }
    errno = 0;
    long long input = strtoll(argv[3], &end, 10);
    if (errno != 0 || end == argv[3] || *end != '\0') {
        fprintf(stderr, "%s is no input\n", argv[3]);
        return 2;
    }
    uint8_t dash = strcmp(argv[4], "small") == 0 ? DARTELM_DASH_SMALL : DARTELM_DASH_LARGE;
    if (dash == DARTELM_DASH_LARGE && strcmp(argv[4], "large") != 0) {
        fprintf(stderr, "%s is no dash\n", argv[4]);
        return 2;
    }

    FILE *file = fopen(argv[2], "rb");
    if (file == NULL) {
        perror(argv[2]);
        return 2;
    }
    uint8_t image[DARTELM_LONGEST_IMAGE + 1]; /* A longer file is refused by its length too. */
    size_t length = fread(image, 1, sizeof image, file);
    fclose(file);

    dartelm_reading_answer reading = dartelm_reading((uint8_t)kind, image, length, input, dash);
    if (reading.number != DARTELM_ACCEPTED) {
        printf("refused %u at %" PRIu64 "\n", reading.number, reading.place);
        return 1;
    }
    printf("fraction %" PRId64 "\nfigure %.17g\n", reading.fraction, reading.figure);
    return 0;
}
