/* Holds two recordings of a run against each other and against a data sheet: compare FILE SLOW FAST
 *
 * FILE holds a chip's image; its length says which kind of chip. SLOW and FAST are texts, a refresh a line: the input in nV/V and
 * the fraction that the dash showed; one of ten refreshes a second, one of sixty. Prints that they agree, or the first fast tick
 * that fails, or the refusal's number and place.
 *
 *     cc -Iinclude examples/compare.c portable/c/dartelm.c -o target/compare-recordings
 */
#include <inttypes.h>
#include <stdio.h>

#include "dartelm.h"

/* Room for 20 seconds at sixty a second. */
enum { LONGEST_RECORDING = 2 * 20 * 60 };

/* The numbers of a text; more than there is room for, or anything else in it, end the program's work. */
static int record(const char *path, int64_t *recording, size_t *length)
{
    FILE *file = fopen(path, "r");
    if (file == NULL) {
        perror(path);
        return 0;
    }
    size_t n = 0;
    while (n < LONGEST_RECORDING && fscanf(file, "%" SCNd64, &recording[n]) == 1) {
        n++;
    }
    char more;
    int whole = fscanf(file, " %c", &more) == EOF;
    fclose(file);
    if (!whole) {
        fprintf(stderr, "%s is no recording, or too long a one\n", path);
    }
    *length = n;
    return whole;
}

int main(int argc, char **argv)
{
    if (argc != 4) {
        fprintf(stderr, "usage: %s FILE SLOW FAST\n", argv[0]);
        return 2;
    }
    FILE *file = fopen(argv[1], "rb");
    if (file == NULL) {
        perror(argv[1]);
        return 2;
    }
    uint8_t image[DARTELM_LONGEST_IMAGE + 1];
    size_t length = fread(image, 1, sizeof image, file);
    fclose(file);

    static int64_t slow[LONGEST_RECORDING];
    static int64_t fast[LONGEST_RECORDING];
    size_t slow_length;
    size_t fast_length;
    if (!record(argv[2], slow, &slow_length) || !record(argv[3], fast, &fast_length)) {
        return 2;
    }
    dartelm_compared_answer compared =
        dartelm_compare(dartelm_kind_of(length), image, length, slow, slow_length, fast, fast_length);
    if (compared.number != DARTELM_ACCEPTED) {
        printf("refused %u at %" PRIu64 "\n", compared.number, compared.place);
        return 1;
    }
    if (compared.agrees) {
        printf("%zu fast ticks agree\n", fast_length / 2);
        return 0;
    }
    printf("tick %" PRIu64 " fails: input %" PRId64 ", shown %" PRId64 "\n", compared.tick, fast[2 * compared.tick],
           fast[2 * compared.tick + 1]);
    return 1;
}
