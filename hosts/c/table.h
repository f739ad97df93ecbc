/* Sound rows for the tests, no two figures alike, and the table text of a third set of them, which may differ in one line. */
#ifndef TABLE_H
#define TABLE_H

#include "rondavitse.h"

#include <stdio.h>

/* The first row of each set. */
enum { IN_FORCE = 0, NEXT = RONDAVITSE_SURFACES, LOADED = 2 * RONDAVITSE_SURFACES };

enum { GUARANTEED, HARDEST, MOST_ACCELERATION, FIGURES };
enum { TABLE_LINES = FIGURES * RONDAVITSE_SURFACES, TABLE_BUFFER = 1024 };

static unsigned figure_of(size_t row, size_t column) {
    const unsigned firsts[FIGURES] = {16, 192, 96};
    return firsts[column] + (unsigned)row;
}

/* Writes the text with `other` as the line `changed`, or as it is where that is past the last one; gives the length. */
static size_t table_text(char *text, size_t changed, const char *other) {
    size_t length = 0;
    for (size_t line = 0; line < TABLE_LINES; line++) {
        const size_t row = LOADED + line / FIGURES, column = line % FIGURES;
        if (line == changed) {
            length += (size_t)sprintf(text + length, "%s", other);
        } else {
            length += (size_t)sprintf(text + length, "%c=%u\n", "bBA"[column], figure_of(row, column));
        }
    }
    return length;
}

#endif
