/*
 * What became of each typed line, as far as the two screens tell: records that are still there are kept, a comparison
 * is looked for among those on its column.
 */
#ifndef FATE_H
#define FATE_H

#include "tidy.h"

/* Fills `fates`, and `typed` and `opened` of each tidied line. */
void fates_told(struct tidied *tidied);

#endif
