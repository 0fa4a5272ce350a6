/* All that tidy knows, as one JSON object (RFC 8259) for other programs. */
#ifndef JSON_H
#define JSON_H

#include "chain.h"
#include "row.h"

/* What a run is about; `chain` and `outcome` are NULL without a chain, `row` if none was asked for. */
struct run_files {
    const char *screen;
    const char *chain_name;
    const struct chain *chain;
    const struct outcome *outcome;
    const struct shown_row *row;
};

void json_tidied(struct text *out, const struct tidied *tidied, const struct run_files *files,
                 const struct faults *faults);

/* A run that ended with faults. */
void json_faulty(struct text *out, const char *screen, const struct faults *faults);

#endif
