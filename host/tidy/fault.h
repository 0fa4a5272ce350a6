/* What is wrong with the files: where, and what was expected there. All faults of a run are told. */
#ifndef FAULT_H
#define FAULT_H

#include <stdbool.h>
#include <stddef.h>

/* A part of some text, not ended by a zero byte. */
struct slice {
    const char *at;
    size_t len;
};

struct fault {
    bool warning; /* the run goes on */
    const char *file;
    size_t line;       /* from 1; 0: the file as a whole */
    size_t place;      /* the character in that line, from 1; 0: the line as a whole */
    struct slice text; /* that line, to be shown */
    char what[400];
};

struct faults {
    const char *file;  /* that is read now */
    struct slice text; /* the line that is read now */
    struct fault *list;
    size_t room;
    size_t kept;     /* in the list: no more than a reader would look through */
    size_t count;    /* of faults, those that are not kept too; warnings do not count */
    size_t warnings; /* in the list */
    size_t told;     /* the line of the last fault; 0: of another file, or the file as a whole */
};

#if defined(__GNUC__)
#define FAULT_FORMAT __attribute__((format(printf, 4, 5)))
#else
#define FAULT_FORMAT
#endif

/* One a line: what follows the first on the way out of a parser is its consequence. */
FAULT_FORMAT void fault_add(struct faults *faults, size_t line, size_t place, const char *format, ...);

FAULT_FORMAT void warning_add(struct faults *faults, size_t line, size_t place, const char *format, ...);

/* To standard error, each with its line and a mark under the place. */
void faults_print(const struct faults *faults, bool colored);

void faults_free(struct faults *faults);

#endif
