/* What C99 has not: the clock, and what is known of a terminal. */
#ifndef PLATFORM_H
#define PLATFORM_H

#include <stdbool.h>
#include <stddef.h>
#include <stdio.h>

/* Nanoseconds from some moment on. */
double platform_ns(void);

/* How many characters a line of the terminal has; `otherwise` if the file goes to none. */
size_t platform_width(FILE *file, size_t otherwise);

/* Is this a terminal that shows colours, and are they wanted? NO_COLOR, if not empty, says no (no-color.org). */
bool platform_colored(FILE *file);

#endif
