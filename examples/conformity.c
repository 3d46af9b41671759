/* Tells how far readings of a chip can be from a certificate: conformity FILE [POINT DEVIATION]..
 *
 * FILE holds a chip's image, whoever wrote it; its length says which kind of chip. The points are those of the certificate, in
 * billionths of the span. Prints the distance that no reading exceeds, at any input, and that a chip built from these points
 * could have; that there is no straight table to compare; or the refusal's number and place.
 *
 *     bin/archive
 *     cc -Iinclude examples/conformity.c target/staticlib/libdartelm.a -o target/conformity
 */
#include <errno.h>
#include <inttypes.h>
#include <stdio.h>
#include <stdlib.h>

#include "dartelm.h"

/* One more than a sheet takes, so that a list which is too long is refused by its length. */
enum { LONGEST_LIST = 255 };

/* A 2000th has four decimal places at most. */
static void print_distance(const char *whose, uint64_t bound)
{
    printf("%s: at most %" PRIu64 ".%04" PRIu64 " billionths of the span\n", whose, bound / 2000, bound % 2000 * 5);
}

int main(int argc, char **argv)
{
    uint8_t image[DARTELM_LONGEST_IMAGE + 1];
    FILE *file = argc < 2 ? NULL : fopen(argv[1], "rb");
    if (file == NULL) {
        fprintf(stderr, "usage: conformity FILE [POINT DEVIATION]..\n");
        return 2;
    }
    size_t image_length = fread(image, 1, sizeof image, file);
    fclose(file);
    int64_t points[LONGEST_LIST];
    size_t length = 0;
    for (int i = 2; i < argc && length < LONGEST_LIST; i++) {
        char *end;
        errno = 0;
        points[length] = strtoll(argv[i], &end, 10);
        if (errno != 0 || end == argv[i] || *end != '\0') {
            fprintf(stderr, "%s is no figure\n", argv[i]);
            return 2;
        }
        length++;
    }
    dartelm_conformity_answer found =
        dartelm_conformity(dartelm_kind_of(image_length), image, image_length, points, length);
    if (found.number != DARTELM_ACCEPTED) {
        printf("refused %u at %" PRIu64 "\n", found.number, found.place);
        return 1;
    }
    if (!found.is_straight) {
        printf("no straight table to compare\n");
        return 1;
    }
    print_distance("this chip", found.bound);
    print_distance("a chip built from these points", dartelm_distance(points, length).bound);
    return 0;
}
