/* Both headers by themselves, as C99 and, under another name, as C++: every call is made once, plainly and wrapped. */
#include "screen_build.h"

#ifdef __cplusplus
#define NONE nullptr
#else
#define NONE NULL
#endif

static int calls_refuse(void)
{
    uint64_t columns = 0;
    uint64_t count = 0;
    uint64_t root = 0;
    uint64_t used = 0;
    uint64_t text_bytes = 0;
    struct screen_tally tally = {0, 0, 0};
    uint32_t answer = screen_check(NONE, 0, NONE, 0, NONE, 0, NONE, 0, 0, 0);
    return answer == SCREEN_REFUSED_ROOT && screen_refused(answer) && screen_refusal_text(answer)[0] == 'T' &&
           screen_test_row(NONE, 0, NONE, 0, NONE, 0, NONE, 0, 0, 0, NONE, 0, 0) == SCREEN_REFUSED_ROOT &&
           screen_rewrite(NONE, 0, NONE, 0, NONE, 0, NONE, 0, 0, 0, NONE, 0, &root, &used, &count, &columns) ==
               SCREEN_REFUSED_ROOT &&
           screen_line_in_the_way(NONE, 0, NONE, 0, NONE, 0, NONE, 0, 0, 0, &count) == SCREEN_REFUSED_ROOT &&
           screen_show_row(NONE, 0, NONE, 0, NONE, 0, NONE, 0, 0, 0, NONE, 0, &count) == SCREEN_REFUSED_ROOT &&
           screen_check_row(NONE, 0, NONE, 0, NONE, 0, NONE, 0, 0, 0, NONE, 0, 0) == SCREEN_REFUSED_ROOT &&
           screen_slowest(1, NONE, 0, NONE, 0, &root, &used) == SCREEN_REFUSED_COLUMNS &&
           screen_save(NONE, 0, NONE, 0, NONE, 0, NONE, 0, 0, 0, NONE, 0, &count) == SCREEN_REFUSED_ROOT &&
           screen_load(NONE, 0, NONE, 0, NONE, 0, NONE, 0, NONE, 0, &root, &columns, &used, &count, &text_bytes) ==
               SCREEN_REFUSED_FILE &&
           screen_columns_read(NONE, 0, NONE, 0, NONE, 0, NONE, 0, 0, 0, &columns, &count) == SCREEN_REFUSED_ROOT &&
           screen_hedge_list(NONE, 0, NONE, 0, NONE, 0, NONE, 0, 0, 0, NONE, 0, NONE, 0, NONE, 0, &tally, &count) ==
               SCREEN_REFUSED_ROOT &&
           screen_trader_view(&tally, &columns, &count) == SCREEN_VIEWED && columns == 0 && count == 0 &&
           screen_risk_view(&tally, &columns, &count, &used) == SCREEN_VIEWED && used == 0;
}

/* c0 > -100, c0 is_in [1, 2] or null, an expiry: a little of everything. */
static uint32_t put_screen(struct screen_lent *s)
{
    static const int64_t values[2] = {1, 2};
    uint32_t strike = screen_declare(s, SCREEN_TYPE_INT), expiry = screen_declare(s, SCREEN_TYPE_DAY);
    uint32_t x = screen_put_column(s, strike), y = screen_put_column(s, expiry);
    uint32_t low = screen_put_binary(s, SCREEN_OP_GT, x, screen_put_int(s, -100));
    uint32_t listed = screen_put_is_in(s, x, screen_put_list(s, SCREEN_TYPE_INT, values, 2, 0), 0);
    uint32_t day = screen_put_day(s, screen_day(2026, 12, 18));
    uint32_t until = screen_put_between(s, SCREEN_CLOSED_BOTH, y, screen_put_null(s, SCREEN_TYPE_DAY), day);
    uint32_t rest = screen_put_modulus(s, screen_put_floor_divide(s, x, screen_put_int(s, 2)), screen_put_int(s, 3));
    uint32_t either = screen_put_or(s, listed, screen_put_not(s, screen_put_is_null(s, rest)));
    uint32_t both = screen_put_and(s, low, either);
    screen_put_and(s, both, screen_put_or(s, until, screen_put_truth(s, 1)));
    return screen_put_and(s, both, screen_put_is_not_null(s, y));
}

static int wrappers_answer(void)
{
    uint8_t table[2], records[16 * 40], reached[16 * 40], pool[16], text[8], file[5 * SCREEN_BLOCK_BYTES];
    uint8_t row[16] = {0}, cells[2 * SCREEN_CELL_BYTES] = {0}, list[2] = {1, 1}, reasons[SCREEN_MAX_REASONS_BYTES];
    uint64_t columns = 0, count = 0, length = 0, marks = 0;
    struct screen_reason reason;
    size_t at = 0;
    struct screen_tally tally = {7, 0, 0};
    struct screen_lent s;
    screen_begin(&s, table, sizeof table, records, sizeof records, pool, sizeof pool, text, sizeof text);
    if (put_screen(&s) != s.root || screen_is_full(&s) || screen_lent_check(&s) != SCREEN_ACCEPTED)
        return 0;
    screen_store_value(row, 1);
    screen_store_cell(cells, 1, 3, -1);
    if (screen_whole_at(cells, 1) != 3 || screen_half_at(cells, 1) != -1 || screen_whole_at(cells, 0) != 0)
        return 0;
    return screen_lent_columns_read(&s, &columns, &count) == SCREEN_COLUMNS && columns == 3 && count == 2 &&
           screen_lent_line_in_the_way(&s, &length) == SCREEN_REFUSED_PLAIN &&
           screen_lent_show_row(&s, cells, sizeof cells, &marks) == SCREEN_REFUSED_PLAIN &&
           screen_lent_check_row(&s, cells, sizeof cells, 0) == SCREEN_REFUSED_PLAIN &&
           !screen_refused(screen_lent_rewrite(&s)) && screen_record_at(&s, 0).kind == SCREEN_KIND_COLUMN &&
           !screen_refused(screen_lent_rewrite_told(&s, reasons, sizeof reasons, &length, &count)) &&
           !screen_next_reason(reasons, length, &at, &reason) &&
           screen_copy_reached(&s, reached, sizeof reached, &s) == SCREEN_ACCEPTED &&
           screen_lent_save(&s, file, sizeof file, &length) == SCREEN_SAVED &&
           screen_lent_load(&s, file, length) == SCREEN_LOADED &&
           screen_lent_test_row(&s, row, sizeof row, 0) == SCREEN_TRUE &&
           screen_lent_hedge_list(&s, row, sizeof row, &marks, 1, list, sizeof list, &tally, &count) == SCREEN_HEDGED &&
           count == 1 && tally.passed == 8 && screen_listed(list, 0) == 0;
}

int main(void)
{
    return !(calls_refuse() && wrappers_answer() && SCREEN_VERSION_MAJOR >= 1 && SCREEN_VERSION_MINOR >= 0);
}
