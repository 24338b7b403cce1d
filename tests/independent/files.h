/* Files that a word of the program's line names, - being standard input. */
#ifndef FILES_H
#define FILES_H

#include <stdio.h>

#include "bytes.h"

/* NULL if there is no such file. */
static inline FILE *open_named(const char *name)
{
    return strcmp(name, "-") == 0 ? stdin : fopen(name, "rb");
}

static inline void close_named(FILE *file)
{
    if (file != NULL && file != stdin)
        fclose(file);
}

/* Says what is wrong with a file, after all that was printed before. */
static inline void complain(const char *name, const char *wrong)
{
    fflush(stdout);
    fprintf(stderr, "independent: %s: %s\n", name, wrong);
}

#endif
