/* Screens as the library saves them: told from a text by their content, loaded, and put into a file. */
#ifndef SAVED_H
#define SAVED_H

#include "tidy.h"

/* Is this a saved screen, damaged or not? */
bool saved_is(struct slice bytes);

/*
 * The screen that the bytes hold, into an empty build; a fault if the library refuses them. A file has no names: its
 * columns are called c0, c1, ..
 */
bool saved_load(struct slice bytes, struct build *build, struct faults *faults);

/* The file of the tidied screen: of what it reaches alone, records and values. */
void saved_add(struct text *file, const struct tidied *tidied);

#endif
