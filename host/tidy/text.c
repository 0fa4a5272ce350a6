#include "text.h"

#include <errno.h>
#include <stdarg.h>
#include <stdio.h>
#include <stdlib.h>
#include <string.h>

void *grown(void *array, size_t *room, size_t needed, size_t size)
{
    if (needed <= *room)
        return array;
    size_t more = *room < 64 ? 64 : *room;
    while (more < needed)
        more *= 2;
    void *moved = realloc(array, more * size);
    if (moved == NULL) {
        fputs("tidy: out of memory\n", stderr);
        exit(EXIT_FAILURE);
    }
    *room = more;
    return moved;
}

static void read_open(struct text *text, FILE *file, struct faults *faults)
{
    size_t got;
    do {
        text->bytes = grown(text->bytes, &text->room, text->len + 4096, 1);
        got = fread(text->bytes + text->len, 1, 4096, file);
        text->len += got;
    } while (got > 0 && text->len <= TEXT_MAX_FILE);
    if (ferror(file))
        fault_add(faults, 0, 0, "cannot be read: %s", strerror(errno));
    else if (text->len > TEXT_MAX_FILE)
        fault_add(faults, 0, 0, "expected a file of at most %d bytes, found a larger one", TEXT_MAX_FILE);
}

bool text_read(struct text *text, const char *path, struct faults *faults)
{
    bool standard = strcmp(path, "-") == 0;
    FILE *file = standard ? stdin : fopen(path, "rb");
    if (file == NULL) {
        fault_add(faults, 0, 0, "cannot be opened: %s", strerror(errno));
        return false;
    }
    read_open(text, file, faults);
    if (!standard)
        fclose(file);
    return faults->count == 0;
}

struct slice text_read_part(const struct text *text)
{
    struct slice part = {text->bytes, text->len};
    if (part.len >= 3 && memcmp(part.at, "\xEF\xBB\xBF", 3) == 0) {
        part.at += 3;
        part.len -= 3;
    }
    return part;
}

bool next_line(struct slice *rest, struct slice *line)
{
    if (rest->len == 0)
        return false;
    const char *end = memchr(rest->at, '\n', rest->len);
    size_t len = end == NULL ? rest->len : (size_t)(end - rest->at);
    size_t cut = end == NULL ? len : len + 1;
    line->at = rest->at;
    line->len = len > 0 && rest->at[len - 1] == '\r' ? len - 1 : len;
    rest->at += cut;
    rest->len -= cut;
    return true;
}

void text_add(struct text *text, const char *format, ...)
{
    va_list arguments;
    va_start(arguments, format);
    int needed = vsnprintf(NULL, 0, format, arguments);
    va_end(arguments);
    if (needed < 0)
        return;
    text->bytes = grown(text->bytes, &text->room, text->len + (size_t)needed + 1, 1);
    va_start(arguments, format);
    vsnprintf(text->bytes + text->len, (size_t)needed + 1, format, arguments);
    va_end(arguments);
    text->len += (size_t)needed;
}

void text_free(struct text *text)
{
    free(text->bytes);
}

bool is_blank(char c)
{
    return c == ' ' || c == '\t';
}

struct slice trimmed(struct slice part)
{
    while (part.len > 0 && is_blank(part.at[0])) {
        part.at++;
        part.len--;
    }
    while (part.len > 0 && is_blank(part.at[part.len - 1]))
        part.len--;
    return part;
}

static char small(char c)
{
    return c >= 'A' && c <= 'Z' ? (char)(c - 'A' + 'a') : c;
}

bool is_word(struct slice part, const char *word)
{
    if (part.len != strlen(word))
        return false;
    for (size_t i = 0; i < part.len; i++)
        if (small(part.at[i]) != word[i])
            return false;
    return true;
}

static size_t least(size_t a, size_t b)
{
    return a < b ? a : b;
}

size_t edits(struct slice one, struct slice other)
{
    enum { LONGEST = 64 }; /* longer than any name */
    size_t row[LONGEST + 1];
    if (one.len > LONGEST || other.len > LONGEST)
        return LONGEST;
    for (size_t j = 0; j <= other.len; j++)
        row[j] = j;
    for (size_t i = 0; i < one.len; i++) {
        size_t diagonal = row[0];
        row[0] = i + 1;
        for (size_t j = 0; j < other.len; j++) {
            size_t changed = diagonal + (small(one.at[i]) != small(other.at[j]));
            diagonal = row[j + 1];
            row[j + 1] = least(changed, least(row[j], diagonal) + 1);
        }
    }
    return row[other.len];
}

bool is_decimal(struct slice part)
{
    size_t sign = part.len > 0 && part.at[0] == '-';
    for (size_t i = sign; i < part.len; i++)
        if (part.at[i] < '0' || part.at[i] > '9')
            return false;
    return part.len > sign;
}

bool whole_number(struct slice part, long long *value)
{
    char digits[40]; /* room for leading zeros */
    if (!is_decimal(part) || part.len >= sizeof digits)
        return false;
    memcpy(digits, part.at, part.len);
    digits[part.len] = '\0';
    errno = 0;
    *value = strtoll(digits, NULL, 10);
    return errno == 0;
}
