/*
 * One self-contained page for two readers: for the trader what became of each line, for risk a picture of each column,
 * its range as typed and as tidied with the chain's values as dots. It is well-formed XML too, needs no script, and
 * follows the reader's choice of light or dark.
 */
#ifndef HTML_H
#define HTML_H

#include "json.h"

void html_page(struct text *out, const struct tidied *tidied, const struct run_files *files);

/* For html.c and picture.c: text with the signs of HTML written out, as it may stand in an element or an attribute. */
void html_text(struct text *out, struct slice text);

#endif
