/* The server on a system with files: standard input and output. */
#include <stdlib.h>
#include <unistd.h>

#include "server.h"

static unsigned char kept[1 << 16];
static size_t used;

static void flush(void)
{
    for (size_t at = 0; at < used;) {
        ssize_t count = write(1, kept + at, used - at);
        if (count <= 0)
            exit(0);
        at += (size_t)count;
    }
    used = 0;
}

void pipe_read(void *bytes, size_t count)
{
    unsigned char *at = bytes;
    flush();
    while (count > 0) {
        ssize_t got = read(0, at, count);
        if (got <= 0)
            exit(0);
        at += got;
        count -= (size_t)got;
    }
}

void pipe_write(const void *bytes, size_t count)
{
    for (const unsigned char *at = bytes; count > 0; count--) {
        if (used == sizeof kept)
            flush();
        kept[used++] = *at++;
    }
}

int main(void)
{
    while (answer_one()) {
    }
    return 0;
}
