/* The text of a journal: lines, words and numbers. */
#ifndef HUB_LINE_H
#define HUB_LINE_H

#include <stdbool.h>
#include <stddef.h>
#include <stdint.h>
#include <stdio.h>

enum { LINE_BYTES = 8192, LINE_NUMBERS = LINE_BYTES / 2 };

struct line {
    unsigned char text[LINE_BYTES];
    size_t length;
    bool too_long;
};

struct word {
    const unsigned char *text;
    size_t length;
};

/* The next line, without its end; false at the end of the input. */
bool read_line(FILE *in, struct line *line);

bool is_skipped(const struct line *line);

/* The first word at or after *at, empty at the line's end; *at moves past it. */
struct word next_word(const struct line *line, size_t *at);

bool is_name(struct word word, const char *name);

/* Reads the words from at on as numbers; false if one is none. A line holds at most LINE_NUMBERS.
 */
bool read_numbers(const struct line *line, size_t at, int64_t *numbers, size_t *count);

#endif
