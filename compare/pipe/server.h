/* A server of the library's calls: on the target it reads calls, makes them, and writes what they return and wrote. */
#ifndef SERVER_H
#define SERVER_H

#include <stddef.h>

/* What a target has to offer. Reading ends the program where there is nothing more. */
void pipe_read(void *bytes, size_t count);
void pipe_write(const void *bytes, size_t count);

/* Answers one call; 0 if it is none. */
int answer_one(void);

#endif
