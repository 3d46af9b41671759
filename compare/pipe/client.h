/* The client: each of the library's calls goes to a server down a pipe. DARTELM_SERVER is the command that is the server. */
#include <stdio.h>
#include <stdlib.h>
#include <string.h>
#include <sys/types.h>
#include <unistd.h>

#include "dartelm.h"

static int to = -1, from = -1;
static unsigned char *kept;
static size_t used, room;
static unsigned long long made;

static void gone(void)
{
    fprintf(stderr, "the server is gone in call %llu\n", made);
    _exit(3);
}

static void start(void)
{
    int down[2], up[2];
    char *command = getenv("DARTELM_SERVER");
    if (command == NULL || pipe(down) != 0 || pipe(up) != 0)
        gone();
    pid_t child = fork();
    if (child < 0)
        gone();
    if (child == 0) {
        dup2(down[0], 0);
        dup2(up[1], 1);
        close(down[0]), close(down[1]), close(up[0]), close(up[1]);
        execl("/bin/sh", "sh", "-c", command, (char *)NULL);
        _exit(3);
    }
    close(down[0]), close(up[1]);
    to = down[1];
    from = up[0];
}

static void put(const void *bytes, size_t count)
{
    if (used + count > room) {
        room = 2 * (used + count);
        kept = realloc(kept, room);
        if (kept == NULL)
            gone();
    }
    memcpy(kept + used, bytes, count);
    used += count;
}

static void put_number(uint64_t number)
{
    put(&number, sizeof number);
}

/* A call begins with how many bytes it has, which are known at its end. */
static void begin(unsigned char call)
{
    uint32_t length = 0;
    if (to < 0)
        start();
    made++;
    used = 0;
    put(&length, sizeof length);
    put(&call, 1);
}

static void end(void)
{
    uint32_t length = (uint32_t)(used - sizeof length);
    memcpy(kept, &length, sizeof length);
    for (size_t at = 0; at < used;) {
        ssize_t count = write(to, kept + at, used - at);
        if (count <= 0)
            gone();
        at += (size_t)count;
    }
}

static void get(void *bytes, size_t count)
{
    for (unsigned char *at = bytes; count > 0;) {
        ssize_t got = read(from, at, count);
        if (got <= 0)
            gone();
        at += got;
        count -= (size_t)got;
    }
}
