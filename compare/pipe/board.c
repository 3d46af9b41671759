/* The server on a bare board: its standard input and output are the emulator's. */
#include "board.h"
#include "server.h"

static int input, output;
static unsigned char kept[4096];
static size_t used;

static void flush(void)
{
    for (size_t at = 0; at < used;) {
        size_t count = write_some(output, kept + at, used - at);
        if (count == 0)
            quit(0);
        at += count;
    }
    used = 0;
}

void pipe_read(void *bytes, size_t count)
{
    unsigned char *at = bytes;
    flush();
    while (count > 0) {
        size_t read = read_some(input, at, count);
        if (read == 0 || read > count)
            quit(0);
        at += read;
        count -= read;
    }
}

void pipe_write(const void *bytes, size_t count)
{
    for (const unsigned char *at = bytes; count > 0; count--) {
        if (used == sizeof kept)
            flush();
        kept[used++] = *at++;
    }
}

int main(void)
{
    input = open_to_read("/dev/stdin");
    output = open_to_write("/dev/stdout");
    if (input < 0 || output < 0)
        return 1;
    while (answer_one()) {
    }
    return 0;
}
