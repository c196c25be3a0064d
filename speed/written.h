/* The end of a program that prints: what it printed has arrived, or one line says that it has not. */
#ifndef WRITTEN_H
#define WRITTEN_H

#include <errno.h>
#include <stdio.h>
#include <string.h>

/* The program's status. */
static inline int written(const char *program)
{
    if (!ferror(stdout) && fflush(stdout) == 0)
        return 0;
    fprintf(stderr, "%s: cannot write standard output: %s\n", program, strerror(errno));
    return 2;
}

#endif
