/* Tells how far readings can stray from a certificate: distance [POINT DEVIATION]..
 *
 * The points are those of the certificate, in billionths of the span, as a build would be handed them. Prints the steepest slope
 * and the distance, or the refusal's number and place. Nothing need have been built.
 *
 *     cc -Iinclude examples/distance.c portable/c/dartelm.c -o target/distance
 */
#include <errno.h>
#include <inttypes.h>
#include <stdio.h>
#include <stdlib.h>

#include "dartelm.h"

/* One more than a sheet takes, so that a list which is too long is refused by its length. */
enum { LONGEST_LIST = 255 };

int main(int argc, char **argv)
{
    int64_t points[LONGEST_LIST];
    size_t length = 0;
    for (int i = 1; i < argc && length < LONGEST_LIST; i++) {
        char *end;
        errno = 0;
        points[length] = strtoll(argv[i], &end, 10);
        if (errno != 0 || end == argv[i] || *end != '\0') {
            fprintf(stderr, "%s is no figure\n", argv[i]);
            return 2;
        }
        length++;
    }
    dartelm_distance_answer distance = dartelm_distance(points, length);
    if (distance.number != DARTELM_ACCEPTED) {
        printf("refused %u at %" PRIu64 "\n", distance.number, distance.place);
        return 1;
    }
    /* A 2000th has four decimal places at most. */
    printf("slope %" PRIu64 " thousandths\nat most %" PRIu64 ".%04" PRIu64 " billionths of the span\n", distance.slope,
           distance.bound / 2000, distance.bound % 2000 * 5);
    return 0;
}
