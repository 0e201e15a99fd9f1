/* Lines of text. Each is written by one call, so lines of several threads don't mix. */

#ifndef PRINT_H
#define PRINT_H

#include "tilesim.h"

/* A line as it is put together; what doesn't fit is left out. All zeros is an empty one. */
struct line {
    size_t length;
    char text[248];
};

static inline void add_character(struct line *line, char character) {
    if (line->length < sizeof line->text)
        line->text[line->length++] = character;
}

static inline void add_text(struct line *line, const char *text) {
    while (*text)
        add_character(line, *text++);
}

/* A number in decimal digits. */
static inline void add_number(struct line *line, unsigned long number) {
    char digits[20];
    unsigned count = 0;
    do
        digits[count++] = (char)('0' + number % 10);
    while (number /= 10);
    while (count)
        add_character(line, digits[--count]);
}

/* Writes the line with a newline, and empties it. */
static inline void print_line(struct line *line) {
    if (line->length == sizeof line->text)
        line->length--;
    add_character(line, '\n');
    write_bytes(1, line->text, line->length);
    line->length = 0;
}

/* A line that has a word and a number. */
static inline void print_count(const char *name, unsigned long number) {
    struct line line;
    line.length = 0;
    add_text(&line, name);
    add_character(&line, ' ');
    add_number(&line, number);
    print_line(&line);
}

#endif
