/* What a program on a bare board has of the machine that runs it: files and an exit, by semihosting, which QEMU and debuggers offer. */
#ifndef BOARD_H
#define BOARD_H

#include <stddef.h>

/* Writes a string to the console. */
void say(const char *text);

/* Opens a file of the host to read or to write bytes. Less than 0 if that cannot be done. */
int open_to_read(const char *name);
int open_to_write(const char *name);

/* How many bytes were read or written. */
size_t read_some(int file, void *bytes, size_t count);
size_t write_some(int file, const void *bytes, size_t count);

/* Ends the program. */
void quit(int status);

#endif
