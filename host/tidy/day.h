/* Days as desks write them (ISO 8601, 2026-12-18) and as the library takes them: whole days since 1970-01-01. */
#ifndef DAY_H
#define DAY_H

#include "text.h"

#include <stdbool.h>
#include <stdint.h>

/* Has the part the shape of a day, four digits, two and two with minus signs between? */
bool looks_like_day(struct slice part);

/* A day of the Gregorian calendar, of the years 0000 to 9999. */
bool day_read(struct slice part, int64_t *day);

void day_add(struct text *text, int64_t day);

#endif
