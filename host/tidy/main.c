/* tidy: merges the lines of an option screen, and shows that the same rows of a chain pass before and after. */
#include "html.h"
#include "json.h"
#include "parse.h"
#include "platform.h"
#include "report.h"
#include "saved.h"

#include <errno.h>
#include <stdio.h>
#include <string.h>

/* Exit statuses. */
enum status {
    STATUS_DONE = 0,
    STATUS_FAULTY = 1, /* a file, its text, or the library refused the screen */
    STATUS_USAGE = 2,
    STATUS_NOTHING_PASSES = 3,
    STATUS_DIFFERS = 4 /* a row's fate changed, or the row shown does not pass, which is promised never to happen */
};

static const char HELP[] =
#include "help.inc"
    ;

enum color { COLOR_AUTO, COLOR_ALWAYS, COLOR_NEVER };

struct options {
    bool help, version, only, json, verbose, row;
    const char *html, *save;
    enum color color;
    const char *files[2];
    size_t file_count;
};

/* ------------------------------------------------------------------------------------------------- the command line */

static bool usage(const char *what, const char *word)
{
    fprintf(stderr, "tidy: %s%s; tidy --help tells more\n", what, word);
    return false;
}

static bool read_color(struct options *options, const char *word)
{
    static const char *const WORDS[] = {"auto", "always", "never"};
    for (unsigned i = 0; i < 3; i++)
        if (strcmp(word, WORDS[i]) == 0) {
            options->color = (enum color)i;
            return true;
        }
    return usage("expected --color=auto, always or never, found --color=", word);
}

static bool read_file(struct options *options, const char *word)
{
    if (options->file_count == 2)
        return usage("expected SCREEN [CHAIN.csv], found also ", word);
    options->files[options->file_count++] = word;
    return true;
}

/* Is the word this option, alone or with = and a file? */
static bool is_option(const char *word, const char *name)
{
    size_t len = strlen(name);
    return strncmp(word, name, len) == 0 && (word[len] == '\0' || word[len] == '=');
}

/* The file of an option, behind its = or the next word. */
static bool read_path(const char **path, const char *word, char **next, int *taken)
{
    const char *sign = strchr(word, '=');
    if (sign == NULL && *next == NULL)
        return usage("expected a file after ", word);
    *taken = sign == NULL;
    *path = sign == NULL ? *next : sign + 1;
    return true;
}

/* One word of the command line; *next is the one after it, which an option may take. */
static bool read_word(struct options *options, const char *word, char **next, int *taken)
{
    if (word[0] != '-' || strcmp(word, "-") == 0)
        return read_file(options, word);
    if (strcmp(word, "-h") == 0 || strcmp(word, "--help") == 0)
        return options->help = true;
    if (strcmp(word, "--version") == 0)
        return options->version = true;
    if (strcmp(word, "--only") == 0)
        return options->only = true;
    if (strcmp(word, "--json") == 0)
        return options->json = true;
    if (strcmp(word, "--verbose") == 0)
        return options->verbose = true;
    if (strcmp(word, "--row") == 0)
        return options->row = true;
    if (strncmp(word, "--color=", 8) == 0)
        return read_color(options, word + 8);
    if (is_option(word, "--html"))
        return read_path(&options->html, word, next, taken);
    if (is_option(word, "--save"))
        return read_path(&options->save, word, next, taken);
    return usage("unknown option ", word);
}

static bool read_words(struct options *options, int argc, char **argv)
{
    bool files_only = false;
    for (int i = 1; i < argc; i++) {
        int taken = 0;
        if (!files_only && strcmp(argv[i], "--") == 0)
            files_only = true;
        else if (files_only ? !read_file(options, argv[i]) : !read_word(options, argv[i], &argv[i + 1], &taken))
            return false;
        i += taken;
    }
    if (options->help || options->version)
        return true;
    if (options->file_count == 0)
        return usage("expected SCREEN [CHAIN.csv]", "");
    if (options->file_count == 2 && strcmp(options->files[0], "-") == 0 && strcmp(options->files[1], "-") == 0)
        return usage("standard input can be the screen or the chain, not both", "");
    if (options->only && options->json)
        return usage("--only and --json exclude each other", "");
    if (options->only && options->row)
        return usage("--only and --row exclude each other", "");
    return true;
}

static bool colored(const struct options *options, FILE *file)
{
    return options->color == COLOR_ALWAYS || (options->color == COLOR_AUTO && platform_colored(file));
}

/* ---------------------------------------------------------------------------------------------------------- writing */

/* A write that fails is told and is a failure. */
static bool write_all(const struct text *text, FILE *file, const char *name)
{
    bool good = text->len == 0 || fwrite(text->bytes, 1, text->len, file) == text->len;
    good = fflush(file) == 0 && good;
    if (!good)
        fprintf(stderr, "tidy: %s: cannot be written: %s\n", name, strerror(errno));
    return good;
}

static bool write_file(const struct text *text, const char *path)
{
    FILE *file = fopen(path, "wb");
    if (file == NULL) {
        fprintf(stderr, "tidy: %s: cannot be written: %s\n", path, strerror(errno));
        return false;
    }
    bool good = write_all(text, file, path);
    return fclose(file) == 0 && good;
}

/* ---------------------------------------------------------------------------------------------------------- one run */

struct session {
    struct options options;
    struct faults faults;
    struct text texts[2]; /* the files */
    struct build build;
    struct tidied tidied;
    struct shown_row row; /* with --row */
    struct chain chain;
    struct outcome outcome;
    struct text out;
};

static bool read_files(struct session *session)
{
    bool good = true;
    for (size_t i = 0; i < session->options.file_count; i++) {
        session->faults.file = session->options.files[i];
        session->faults.told = 0;
        good &= text_read(&session->texts[i], session->options.files[i], &session->faults);
    }
    return good;
}

static bool read_screen(struct session *session)
{
    struct slice bytes = {session->texts[0].bytes, session->texts[0].len};
    if (saved_is(bytes))
        return saved_load(bytes, &session->build, &session->faults);
    return parse_screen(text_read_part(&session->texts[0]), &session->build, &session->faults);
}

/* The files read and the calls made; false if there is a fault. */
static bool work(struct session *session)
{
    struct faults *faults = &session->faults;
    if (!read_files(session))
        return false;
    faults->file = session->options.files[0];
    if (!read_screen(session))
        return false;
    tidy(&session->tidied, &session->build);
    faults->told = 0;
    if (screen_refused(session->tidied.answer)) {
        refusal_told(&session->tidied, faults);
        return false;
    }
    if (session->options.row)
        row_show(&session->row, &session->tidied);
    if (session->options.file_count < 2)
        return true;
    faults->file = session->options.files[1];
    if (!chain_read(text_read_part(&session->texts[1]), &session->build, session->tidied.columns, &session->chain,
                    faults))
        return false;
    chain_run(&session->outcome, &session->chain, &session->tidied);
    return true;
}

static struct run_files files_of(const struct session *session)
{
    bool chain = session->options.file_count == 2;
    struct run_files files = {session->options.files[0], session->options.files[1], chain ? &session->chain : NULL,
                              chain ? &session->outcome : NULL, session->options.row ? &session->row : NULL};
    return files;
}

static void print_tidied(struct session *session)
{
    struct run_files files = files_of(session);
    struct page page = {platform_width(stdout, 110), colored(&session->options, stdout)};
    if (session->options.only) {
        report_only(&session->out, &session->tidied);
    } else if (session->options.json) {
        json_tidied(&session->out, &session->tidied, &files, &session->faults);
    } else {
        report_screen(&session->out, page, &session->tidied);
        if (session->options.verbose)
            report_passes(&session->out, &session->tidied);
        if (files.row != NULL)
            report_row(&session->out, page, &session->tidied, files.row);
        if (files.chain != NULL)
            report_chain(&session->out, page, &session->tidied, files.chain, files.outcome, files.chain_name);
    }
}

static bool write_html(struct session *session)
{
    struct run_files files = files_of(session);
    struct text page = {NULL, 0, 0};
    html_page(&page, &session->tidied, &files);
    bool good = write_file(&page, session->options.html);
    text_free(&page);
    return good;
}

static bool write_saved(const struct session *session)
{
    struct text file = {NULL, 0, 0};
    saved_add(&file, &session->tidied);
    bool good = write_file(&file, session->options.save);
    text_free(&file);
    return good;
}

/* Promised never to happen, so it is told whatever was asked to be printed. */
static enum status differs(const struct session *session)
{
    const struct outcome *outcome = &session->outcome;
    uint32_t refusal = outcome->typed.refusal != 0          ? outcome->typed.refusal
                       : outcome->copied.refusal != 0       ? outcome->copied.refusal
                       : outcome->typed_hedge.refusal != 0  ? outcome->typed_hedge.refusal
                                                            : outcome->copied_hedge.refusal;
    if (refusal != 0)
        fprintf(stderr, "tidy: a row was refused, number %u: %s\n", (unsigned)refusal, screen_refusal_text(refusal));
    else
        fprintf(stderr, "tidy: NOT THE SAME ROWS PASS as typed and as tidied\n");
    return STATUS_DIFFERS;
}

static enum status row_differs(void)
{
    fprintf(stderr, "tidy: THE ROW SHOWN DOES NOT PASS, or no row does\n");
    return STATUS_DIFFERS;
}

static enum status run(struct session *session)
{
    bool good = work(session);
    faults_print(&session->faults, colored(&session->options, stderr));
    if (good)
        print_tidied(session);
    else if (session->options.json)
        json_faulty(&session->out, session->options.files[0], &session->faults);
    bool written = write_all(&session->out, stdout, "standard output");
    if (good && session->options.html != NULL)
        written &= write_html(session);
    if (good && session->options.save != NULL)
        written &= write_saved(session);
    if (!good || !written)
        return STATUS_FAULTY;
    if (session->options.file_count == 2 && (!session->outcome.same || session->outcome.typed.refusal != 0))
        return differs(session);
    if (session->options.row && !session->row.right)
        return row_differs();
    return session->tidied.answer == SCREEN_NOTHING_PASSES ? STATUS_NOTHING_PASSES : STATUS_DONE;
}

static void session_free(struct session *session)
{
    text_free(&session->out);
    outcome_free(&session->outcome);
    chain_free(&session->chain);
    tidied_free(&session->tidied);
    build_free(&session->build);
    text_free(&session->texts[0]);
    text_free(&session->texts[1]);
    faults_free(&session->faults);
}

int main(int argc, char **argv)
{
    struct session session;
    enum status status = STATUS_USAGE;
    memset(&session, 0, sizeof session);
    if (read_words(&session.options, argc, argv)) {
        if (session.options.help || session.options.version) {
            text_add(&session.out, "%s", session.options.help ? HELP : "tidy " SCREEN_VERSION "\n");
            status = write_all(&session.out, stdout, "standard output") ? STATUS_DONE : STATUS_FAULTY;
        } else {
            status = run(&session);
        }
    }
    session_free(&session);
    return (int)status;
}
