#include "fault.h"

#include "text.h"

#include <stdarg.h>
#include <stdio.h>
#include <stdlib.h>

enum { KEPT = 20, SHOWN = 100 }; /* faults a run; characters of a line around its place */

/* Bytes of a file go to a terminal only as printing characters. */
static char printing(char c)
{
    return c >= ' ' && c < 127 ? c : '?';
}

static void keep(struct faults *faults, struct fault fault, const char *format, va_list arguments)
{
    vsnprintf(fault.what, sizeof fault.what, format, arguments);
    for (char *c = fault.what; *c != '\0'; c++)
        *c = printing(*c);
    faults->list = grown(faults->list, &faults->room, faults->kept + 1, sizeof *faults->list);
    faults->list[faults->kept++] = fault;
}

void fault_add(struct faults *faults, size_t line, size_t place, const char *format, ...)
{
    struct fault fault = {false, faults->file, line, place, faults->text, ""};
    if (line > 0 && line == faults->told)
        return;
    faults->told = line;
    if (faults->count++ >= KEPT)
        return;
    va_list arguments;
    va_start(arguments, format);
    keep(faults, fault, format, arguments);
    va_end(arguments);
}

void warning_add(struct faults *faults, size_t line, size_t place, const char *format, ...)
{
    struct fault fault = {true, faults->file, line, place, faults->text, ""};
    if (faults->warnings >= KEPT)
        return;
    faults->warnings++;
    va_list arguments;
    va_start(arguments, format);
    keep(faults, fault, format, arguments);
    va_end(arguments);
}

/* The line, or of a long one the part around the place. */
static void print_mark(const struct fault *fault)
{
    size_t mark = fault->place - 1, from = mark > SHOWN ? mark - SHOWN / 2 : 0;
    size_t to = fault->text.len - from > SHOWN + 20 ? from + SHOWN : fault->text.len;
    fputs(from > 0 ? "    .." : "    ", stderr);
    for (size_t i = from; i < to; i++)
        fputc(fault->text.at[i] == '\t' ? '\t' : printing(fault->text.at[i]), stderr);
    fputs(to < fault->text.len ? "..\n" : "\n", stderr);
    fputs(from > 0 ? "      " : "    ", stderr);
    for (size_t i = from; i < mark; i++)
        fputc(i < fault->text.len && fault->text.at[i] == '\t' ? '\t' : ' ', stderr);
}

static void print_one(const struct fault *fault, bool colored)
{
    const char *paint = fault->warning ? "\33[33m" : "\33[31m", *plain = "\33[0m";
    if (!colored)
        paint = plain = "";
    fprintf(stderr, "tidy: %s", fault->file);
    if (fault->line > 0)
        fprintf(stderr, ", line %zu", fault->line);
    if (fault->place > 0)
        fprintf(stderr, ", place %zu", fault->place);
    fprintf(stderr, ": %s%s%s%s\n", paint, fault->warning ? "warning: " : "", fault->what, plain);
    if (fault->place > 0 && fault->place - 1 <= fault->text.len) {
        print_mark(fault);
        fprintf(stderr, "%s^%s\n", paint, plain);
    }
}

void faults_print(const struct faults *faults, bool colored)
{
    for (size_t i = 0; i < faults->kept; i++)
        print_one(&faults->list[i], colored);
    if (faults->count > KEPT)
        fprintf(stderr, "tidy: and %zu more\n", faults->count - KEPT);
}

void faults_free(struct faults *faults)
{
    free(faults->list);
}
