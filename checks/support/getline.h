/* POSIX's getline, which Windows' C library lacks. */
#ifndef GETLINE_H
#define GETLINE_H

#include <stdio.h>
#include <stdlib.h>
#include <sys/types.h>

static inline ssize_t getline(char **line, size_t *size, FILE *stream)
{
    size_t length = 0;
    if (!*line)
        *size = 0;
    for (int got; (got = getc(stream)) != EOF;) {
        if (length + 2 > *size) {
            *size = *size * 2 + 4096;
            *line = realloc(*line, *size);
            if (!*line)
                return -1;
        }
        (*line)[length++] = (char)got;
        if (got == '\n')
            break;
    }
    if (!length)
        return -1;
    (*line)[length] = 0;
    return (ssize_t)length;
}

#endif
