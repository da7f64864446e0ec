#include "line.h"

#include <string.h>

bool read_line(FILE *in, struct line *line) {
    int c = getc(in);
    if (c == EOF)
        return false;
    line->length = 0;
    line->too_long = false;
    for (; c != EOF && c != '\n'; c = getc(in)) {
        if (line->length == LINE_BYTES)
            line->too_long = true;
        else
            line->text[line->length++] = (unsigned char)c;
    }
    return true;
}

bool is_skipped(const struct line *line) {
    size_t at = 0;
    if (line->too_long)
        return false;
    return next_word(line, &at).length == 0 || line->text[0] == '#';
}

struct word next_word(const struct line *line, size_t *at) {
    size_t start = *at;
    while (start < line->length && line->text[start] == ' ')
        start++;
    size_t end = start;
    while (end < line->length && line->text[end] != ' ')
        end++;
    *at = end;
    return (struct word){line->text + start, end - start};
}

bool is_name(struct word word, const char *name) {
    return word.length == strlen(name) && memcmp(word.text, name, word.length) == 0;
}

/* The number of one or more digits, at most limit. */
static bool read_digits(struct word word, uint64_t limit, uint64_t *number) {
    uint64_t n = 0;
    for (size_t k = 0; k < word.length; k++) {
        if (word.text[k] < '0' || word.text[k] > '9')
            return false;
        uint64_t digit = (uint64_t)(word.text[k] - '0');
        if (n > (limit - digit) / 10)
            return false;
        n = 10 * n + digit;
    }
    *number = n;
    return word.length > 0;
}

static bool read_number(struct word word, int64_t *number) {
    const uint64_t most = INT64_MAX;
    uint64_t n;
    if (word.length > 0 && word.text[0] == '-') {
        if (!read_digits((struct word){word.text + 1, word.length - 1}, most + 1, &n))
            return false;
        *number = n == 0 ? 0 : -1 - (int64_t)(n - 1);
        return true;
    }
    if (!read_digits(word, most, &n))
        return false;
    *number = (int64_t)n;
    return true;
}

bool read_numbers(const struct line *line, size_t at, int64_t *numbers, size_t *count) {
    *count = 0;
    for (;;) {
        struct word word = next_word(line, &at);
        if (word.length == 0)
            return true;
        if (!read_number(word, &numbers[*count]))
            return false;
        ++*count;
    }
}
