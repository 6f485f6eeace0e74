/* What the measured programs share: a script from standard input, line by line. */
#define _GNU_SOURCE
#include "../tests/script.h"
#include <stdio.h>
#include <stdlib.h>
#include <string.h>

static uint8_t output[MOST_ROOM];

static void give_up(const char *what)
{
    fprintf(stderr, "%s\n", what);
    exit(2);
}

/* The next line, 0 at the end. What the line before it points to is gone. */
static int next_line(struct line *line)
{
    static char *text;
    static size_t room;
    if (getline(&text, &room, stdin) <= 0) return 0;
    read_line(text, line);
    return 1;
}
