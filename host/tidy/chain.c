#include "chain.h"

#include "day.h"
#include "platform.h"

#include <stdlib.h>
#include <string.h>

/* One line of the file, its cells read from left to right. */
struct cells {
    struct slice line;
    size_t number;
    size_t at;
    bool ended;
    bool quoted; /* the cell read last */
    struct faults *faults;
    bool faulty;
};

static void cell_fault(struct cells *cells, size_t place, const char *what)
{
    fault_add(cells->faults, cells->number, place, "%s", what);
    cells->faulty = true;
}

/* A quoted cell may hold commas (RFC 4180); one that a screen reads never needs a quote inside. */
static struct slice quoted_cell(struct cells *cells)
{
    struct slice line = cells->line, cell = {line.at + cells->at + 1, 0};
    size_t at = cells->at + 1;
    while (at < line.len && (line.at[at] != '"' || (at + 1 < line.len && line.at[at + 1] == '"')))
        at += line.at[at] == '"' ? 2 : 1;
    cell.len = at - cells->at - 1;
    size_t after = at + 1;
    while (after < line.len && is_blank(line.at[after]))
        after++;
    if (at >= line.len)
        cell_fault(cells, cells->at + 1, "expected a closing quote before the end of the line");
    else if (after < line.len && line.at[after] != ',')
        cell_fault(cells, after + 1, "expected a comma after the closing quote");
    cells->at = after;
    return cell;
}

static struct slice next_cell(struct cells *cells)
{
    struct slice line = cells->line;
    while (cells->at < line.len && is_blank(line.at[cells->at]))
        cells->at++;
    struct slice cell = {line.at + cells->at, 0};
    cells->quoted = cells->at < line.len && line.at[cells->at] == '"';
    if (cells->quoted) {
        cell = quoted_cell(cells);
    } else {
        const char *comma = memchr(cell.at, ',', line.len - cells->at);
        cell.len = comma == NULL ? line.len - cells->at : (size_t)(comma - cell.at);
        cells->at += cell.len;
    }
    cells->ended = cells->at >= line.len;
    cells->at++;
    return trimmed(cell);
}

static size_t place_of(const struct cells *cells, struct slice cell)
{
    return (size_t)(cell.at - cells->line.at) + 1;
}

/* A symbol's bytes go to the chain's text where they are not in it. In a quoted cell a quote stands for two. */
static bool read_symbol(struct chain *chain, struct slice cell, bool quoted, int64_t *value)
{
    char bytes[SCREEN_MAX_SYMBOL_BYTES];
    uint32_t length = 0;
    for (size_t i = 0; i < cell.len; i++) {
        if (length == SCREEN_MAX_SYMBOL_BYTES)
            return false;
        bytes[length++] = cell.at[i];
        i += quoted && cell.at[i] == '"';
    }
    chain->text = grown(chain->text, &chain->text_room, chain->text_len + SCREEN_MAX_SYMBOL_BYTES, 1);
    struct screen_lent s;
    screen_begin(&s, NULL, 0, NULL, 0, NULL, 0, chain->text, chain->text_room);
    s.text_len = chain->text_len;
    *value = screen_symbol(screen_put_text(&s, bytes, length), length);
    chain->text_len = s.text_len;
    return true;
}

/* A cell's value by its column's type. */
static bool read_value(struct chain *chain, struct slice cell, bool quoted, unsigned type, int64_t *value)
{
    long long number = 0;
    if (type == SCREEN_TYPE_TEXT)
        return read_symbol(chain, cell, quoted, value);
    if (type == SCREEN_TYPE_DAY)
        return day_read(cell, value);
    bool good =
        type == SCREEN_TYPE_TRUTH ? is_word(cell, "true") || is_word(cell, "false") : whole_number(cell, &number);
    *value = type == SCREEN_TYPE_TRUTH ? is_word(cell, "true") : number;
    return good;
}

static void put_cell(struct chain *chain, const struct build *build, size_t column, struct cells *cells,
                     struct slice cell)
{
    static const char *const EXPECTED[] = {"", "a whole number within 64 bits", "a day (YYYY-MM-DD)", "true or false",
                                           "a symbol of at most 16 bytes"};
    int64_t value = 0;
    unsigned type = build->lent.table[column];
    size_t at = chain->rows * chain->columns + column;
    if (cell.len == 0)
        return;
    if (!read_value(chain, cell, cells->quoted, type, &value)) {
        fault_add(cells->faults, cells->number, place_of(cells, cell), "expected %s or nothing for %s, found '%.*s'",
                  EXPECTED[type], build->columns[column].name, cell.len > 60 ? 60 : (int)cell.len, cell.at);
        cells->faulty = true;
    }
    chain->nulls[chain->rows] &= ~((uint64_t)1 << column);
    screen_store_value(chain->values + SCREEN_VALUE_BYTES * at, value);
}

/* A row of nulls. */
static void add_row(struct chain *chain)
{
    size_t bytes = SCREEN_VALUE_BYTES * chain->columns;
    chain->values = grown(chain->values, &chain->values_room, bytes * (chain->rows + 1) + 1, 1);
    chain->nulls = grown(chain->nulls, &chain->nulls_room, chain->rows + 1, sizeof *chain->nulls);
    chain->lines = grown(chain->lines, &chain->lines_room, chain->rows + 1, sizeof *chain->lines);
    memset(chain->values + bytes * chain->rows, 0, bytes);
    chain->nulls[chain->rows] = chain->columns == 0 ? 0 : UINT64_MAX >> (64 - chain->columns);
}

/* The columns of the file: for each the screen's, or the number of columns if the screen has none of that name. */
struct header {
    size_t *columns;
    size_t room;
    size_t count;
    struct text names; /* what the first line reads as */
};

/* What the first line reads as is told: there a reader sees another spelling, or other signs between the columns. */
static void missing_column(const struct header *header, const struct build *build, size_t column, struct cells *cells)
{
    const char *name = build->columns[column].name;
    if (header->count == 1 && strpbrk(header->names.bytes, ";\t") != NULL)
        fault_add(cells->faults, cells->number, 0,
                  "expected commas between the columns; the first line reads as one column, '%.200s'",
                  header->names.bytes);
    else
        fault_add(cells->faults, cells->number, 0,
                  "expected one column named %s, found none; the first line reads as: %.200s", name,
                  header->names.bytes);
}

static void check_header(const struct header *header, const struct build *build, uint64_t read, struct cells *cells)
{
    for (size_t column = 0; column < build->lent.table_len; column++) {
        size_t times = 0;
        for (size_t i = 0; i < header->count; i++)
            times += header->columns[i] == column;
        if (times == 0 && read >> column & 1)
            missing_column(header, build, column, cells);
        else if (times > 1)
            fault_add(cells->faults, cells->number, 0, "expected one column named %s, found several",
                      build->columns[column].name);
    }
}

static void read_header(struct header *header, const struct build *build, uint64_t read, struct cells *cells)
{
    while (!cells->ended && !cells->faulty) {
        struct slice name = next_cell(cells);
        text_add(&header->names, "%s%.*s", header->count > 0 ? ", " : "", (int)name.len, name.at);
        header->columns = grown(header->columns, &header->room, header->count + 1, sizeof *header->columns);
        header->columns[header->count++] = find_column(build, name);
    }
    if (!cells->faulty)
        check_header(header, build, read, cells);
}

static void read_row(struct chain *chain, const struct header *header, const struct build *build, struct cells *cells)
{
    size_t count = 0;
    add_row(chain);
    while (!cells->ended && !cells->faulty) {
        struct slice cell = next_cell(cells);
        if (count < header->count && header->columns[count] < build->lent.table_len)
            put_cell(chain, build, header->columns[count], cells, cell);
        count++;
    }
    if (!cells->faulty && count != header->count)
        fault_add(cells->faults, cells->number, 0, "expected %zu cells, as the first line has, found %zu",
                  header->count, count);
    chain->lines[chain->rows++] = cells->number;
}

bool chain_read(struct slice text, const struct build *build, uint64_t read, struct chain *chain, struct faults *faults)
{
    struct header header = {NULL, 0, 0, {NULL, 0, 0}};
    struct slice line;
    size_t number = 0;
    chain->columns = build->lent.table_len;
    chain->text = grown(chain->text, &chain->text_room, build->lent.text_len + 1, 1);
    chain->text_len = build->lent.text_len;
    if (chain->text_len > 0)
        memcpy(chain->text, build->lent.text, chain->text_len);
    while (next_line(&text, &line)) {
        struct cells cells = {line, ++number, 0, false, false, faults, false};
        faults->text = line;
        if (trimmed(line).len == 0)
            continue;
        if (header.count > 0)
            read_row(chain, &header, build, &cells);
        else
            read_header(&header, build, read, &cells);
        if (chain->rows == 0 && faults->count > 0)
            break; /* without its names no row can be read */
    }
    if (header.count == 0 && faults->count == 0)
        fault_add(faults, number, 0, "expected a line of column names, found the end of the file");
    if (chain->text_len > SCREEN_MAX_TEXT_BYTES && faults->count == 0)
        fault_add(faults, number, 0, "the symbols of the screen and of the chain have more than 8,192 bytes together");
    free(header.columns);
    text_free(&header.names);
    return faults->count == 0;
}

void chain_free(struct chain *chain)
{
    free(chain->values);
    free(chain->nulls);
    free(chain->lines);
    free(chain->text);
}

struct screen_lent chain_screen(const struct chain *chain, const struct screen_lent *screen)
{
    struct screen_lent lent = *screen;
    lent.text = chain->text;
    lent.text_len = chain->text_len;
    lent.text_room = chain->text_len;
    return lent;
}

const uint8_t *chain_row(const struct chain *chain, size_t row)
{
    return chain->values + chain_row_len(chain) * row;
}

size_t chain_row_len(const struct chain *chain)
{
    return SCREEN_VALUE_BYTES * chain->columns;
}

/* -------------------------------------------------------------------------------------------------- running screens */

static uint32_t test(const struct chain *chain, size_t row, const struct screen_lent *screen)
{
    struct screen_lent lent = chain_screen(chain, screen);
    return screen_lent_test_row(&lent, chain_row(chain, row), chain_row_len(chain), chain->nulls[row]);
}

static void run_screen(struct run *run, const struct chain *chain, const struct screen_lent *screen)
{
    size_t room = 0;
    run->truths = grown(NULL, &room, chain->rows + 1, 1);
    for (size_t i = 0; i < chain->rows; i++) {
        uint32_t answer = test(chain, i, screen);
        run->truths[i] = 0;
        if (screen_refused(answer))
            run->refusal = answer;
        else
            run->truths[i] = (uint8_t)(answer - SCREEN_FALSE);
        run->counts[run->truths[i]]++;
    }
}

static bool same_rows(const struct chain *chain, const struct run *a, const struct run *b)
{
    for (size_t i = 0; i < chain->rows; i++)
        if ((a->truths[i] == 2) != (b->truths[i] == 2))
            return false;
    return true;
}

/* Does the hedge list name the rows that pass, and no others? */
static bool same_list(const struct chain *chain, const struct run *run, const struct hedged *hedged)
{
    for (size_t i = 0; i < chain->rows; i++)
        if ((run->truths[i] == 2) != (hedged->passes[i] == 1))
            return false;
    return true;
}

/* The columns that a line reads; 0 if it cannot be told. */
static uint64_t line_columns(const struct tidied *tidied, size_t line)
{
    struct screen_lent part = tidied->typed;
    uint64_t columns = 0, count = 0;
    part.root = tidied->build->lines[line].root;
    return screen_refused(screen_lent_columns_read(&part, &columns, &count)) ? 0 : columns;
}

/* A row is unknown for the null columns of those lines that are unknown of it. */
static void find_unknown(struct outcome *outcome, const struct chain *chain, const struct tidied *tidied)
{
    for (size_t i = 0; i < chain->rows; i++) {
        uint64_t nulls = 0;
        if (outcome->typed.truths[i] != 1)
            continue;
        for (size_t line = 0; line < tidied->build->line_count; line++) {
            struct screen_lent part = tidied->typed;
            part.root = tidied->build->lines[line].root;
            if (test(chain, i, &part) == SCREEN_UNKNOWN)
                nulls |= line_columns(tidied, line) & chain->nulls[i];
        }
        for (size_t column = 0; column < chain->columns; column++)
            outcome->unknown_by[column] += nulls >> column & 1;
    }
}

/* The best of some rounds, the three screens in turns, so that whatever else the machine does meets them alike. */
static void measure(struct outcome *outcome, const struct chain *chain, const struct tidied *tidied)
{
    const struct screen_lent *screens[3] = {&tidied->typed, &tidied->returned, &tidied->copied};
    double *best[3] = {&outcome->typed_ns, &outcome->returned_ns, &outcome->copied_ns};
    double began = platform_ns();
    for (unsigned round = 0; chain->rows > 0 && (round < 2 || (round < 50 && platform_ns() - began < 1e7)); round++)
        for (unsigned s = 0; s < 3; s++) {
            double from = platform_ns();
            uint32_t sum = 0;
            for (size_t i = 0; i < chain->rows; i++)
                sum += test(chain, i, screens[s]);
            double taken = (platform_ns() - from) / (double)chain->rows + (sum == 0);
            if (round == 0 || taken < *best[s])
                *best[s] = taken;
        }
}

static void measure_hedge(struct outcome *outcome, const struct chain *chain, const struct tidied *tidied)
{
    double began = platform_ns();
    for (unsigned round = 0; chain->rows > 0 && (round < 2 || (round < 50 && platform_ns() - began < 3e6)); round++) {
        struct hedged again;
        double from = platform_ns();
        hedged_run(&again, chain, &tidied->copied);
        double taken = (platform_ns() - from) / (double)chain->rows;
        hedged_free(&again);
        if (round == 0 || taken < outcome->hedge_ns)
            outcome->hedge_ns = taken;
    }
}

void chain_run(struct outcome *outcome, const struct chain *chain, const struct tidied *tidied)
{
    memset(outcome, 0, sizeof *outcome);
    run_screen(&outcome->typed, chain, &tidied->typed);
    run_screen(&outcome->returned, chain, &tidied->returned);
    run_screen(&outcome->copied, chain, &tidied->copied);
    hedged_run(&outcome->typed_hedge, chain, &tidied->typed);
    hedged_run(&outcome->copied_hedge, chain, &tidied->copied);
    outcome->same = same_rows(chain, &outcome->typed, &outcome->returned) &&
                    same_rows(chain, &outcome->typed, &outcome->copied) &&
                    same_list(chain, &outcome->typed, &outcome->typed_hedge) &&
                    same_list(chain, &outcome->copied, &outcome->copied_hedge) &&
                    same_trader_view(&outcome->typed_hedge, &outcome->copied_hedge);
    find_unknown(outcome, chain, tidied);
    measure(outcome, chain, tidied);
    measure_hedge(outcome, chain, tidied);
}

void outcome_free(struct outcome *outcome)
{
    free(outcome->typed.truths);
    free(outcome->returned.truths);
    free(outcome->copied.truths);
    hedged_free(&outcome->typed_hedge);
    hedged_free(&outcome->copied_hedge);
}
