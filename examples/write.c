/* Writes an image to a chip, row by row, so that it may be pulled at any moment: write KIND CHIP IMAGE [WRITES]
 *
 * The chip is a file with its bytes. Prints each row as it is written, and done once the chip holds the image. With WRITES it stops
 * after so many, as if the chip were pulled, with status 9; called again it goes on from what is there.
 *
 *     bin/archive
 *     cc -Iinclude examples/write.c target/staticlib/libdartelm.a -o target/write
 */
#include <inttypes.h>
#include <stdio.h>
#include <stdlib.h>

#include "dartelm.h"

/* The file's bytes, one more than an image has at most. */
static size_t read_file(const char *name, uint8_t *bytes)
{
    FILE *file = fopen(name, "rb");
    if (file == NULL) {
        perror(name);
        exit(2);
    }
    size_t length = fread(bytes, 1, DARTELM_LONGEST_IMAGE + 1, file);
    fclose(file);
    return length;
}

static void write_row(const char *chip, dartelm_row_answer row)
{
    FILE *file = fopen(chip, "r+b");
    if (file == NULL || fseek(file, (long)row.offset, SEEK_SET) != 0
        || fwrite(row.bytes, 1, DARTELM_ROW_LENGTH, file) != DARTELM_ROW_LENGTH || fclose(file) != 0) {
        perror(chip);
        exit(2);
    }
    printf("%3" PRIu64 ":", row.offset);
    for (int i = 0; i < DARTELM_ROW_LENGTH; i++) {
        printf(" %02x", row.bytes[i]);
    }
    printf("\n");
}

int main(int argc, char **argv)
{
    if (argc < 4 || argc > 5) {
        fprintf(stderr, "write KIND CHIP IMAGE [WRITES]\n");
        return 2;
    }
    uint8_t kind = (uint8_t)strtoul(argv[1], NULL, 10);
    int most = argc == 5 ? atoi(argv[4]) : DARTELM_MOST_WRITES;
    uint8_t present[DARTELM_LONGEST_IMAGE + 1], wanted[DARTELM_LONGEST_IMAGE + 1];
    size_t wanted_length = read_file(argv[3], wanted);
    for (int writes = 0; writes <= DARTELM_MOST_WRITES; writes++) {
        size_t present_length = read_file(argv[2], present);
        dartelm_row_answer row = dartelm_next_row(kind, present, present_length, wanted, wanted_length);
        if (row.number != DARTELM_ACCEPTED) {
            printf("refused %u at %" PRIu64 "\n", row.number, row.place);
            return 1;
        }
        if (row.is_done) {
            printf("done\n");
            return 0;
        }
        if (writes == most) {
            fflush(stdout);
            _Exit(9);
        }
        write_row(argv[2], row);
    }
    fprintf(stderr, "%s does not take the writes\n", argv[2]);
    return 3;
}
