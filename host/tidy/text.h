/* Files read whole, cut into lines, and memory that grows. */
#ifndef TEXT_H
#define TEXT_H

#include "fault.h"

#include <stdbool.h>
#include <stddef.h>

/* Text of the program's own; always ended by a zero byte once something was added. */
struct text {
    char *bytes;
    size_t len;
    size_t room;
};

#if defined(__GNUC__)
#define TEXT_FORMAT __attribute__((format(printf, 2, 3)))
#else
#define TEXT_FORMAT
#endif

enum { TEXT_MAX_FILE = 4 << 20 }; /* bytes: above any listed chain, and small enough to hold in memory */

/* Room for `needed` elements of `size` bytes; ends the program if there is no memory. */
void *grown(void *array, size_t *room, size_t needed, size_t size);

/* The whole file at `path`, - for standard input; a fault if it cannot be read or has over TEXT_MAX_FILE bytes. */
bool text_read(struct text *text, const char *path, struct faults *faults);

/* What was read, without the three bytes that some programs put before a text in UTF-8. */
struct slice text_read_part(const struct text *text);

/* Cuts the next line off `rest`, without its end (byte 10, or 13 and 10). False if nothing is left. */
bool next_line(struct slice *rest, struct slice *line);

TEXT_FORMAT void text_add(struct text *text, const char *format, ...);

void text_free(struct text *text);

/* Without blanks at its ends. */
struct slice trimmed(struct slice part);

bool is_blank(char c);

/* Is the part this word, in small or capital letters? */
bool is_word(struct slice part, const char *word);

/* How many letters are to be put in, taken out or changed to make one of the other, small and capital ones alike. */
size_t edits(struct slice one, struct slice other);

/* Digits, after a minus or not. */
bool is_decimal(struct slice part);

/* A decimal number within 64 bits. */
bool whole_number(struct slice part, long long *value);

#endif
