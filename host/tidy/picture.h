/* One column drawn (SVG): a line for each typed line that is a range, a thick one as tidied, dots for the chain. */
#ifndef PICTURE_H
#define PICTURE_H

#include "html.h"

/* Is there anything to draw of this column: a line that is a range or a list, or a value? */
bool has_picture(const struct tidied *tidied, const struct run_files *files, size_t column);

/* Adds the typed lines that read the column and are neither a range nor a list of it. */
void undrawn_lines(struct numbers *numbers, const struct tidied *tidied, size_t column);

void picture(struct text *out, const struct tidied *tidied, const struct run_files *files, size_t column);

#endif
