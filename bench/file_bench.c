/*
 * Saving and loading the largest screen, 64 columns, 4,096 records, 8,192 pool values and 8,192 bytes of text, and a
 * screen of a few lines, beside memcpy of the same bytes: what the checks, the blocks and the checksums cost.
 */
#define _POSIX_C_SOURCE 199309L
#include "make.h"
#include "measure.h"

static struct made full;
static struct made few;
static uint8_t file[SCREEN_MAX_FILE_BYTES];
static uint8_t few_file[4096];
static uint64_t length;
static uint64_t few_length;
static uint8_t table[64], records[65536], pool[65536], text[8192];

static void make_full(void)
{
    make(&full, 64, SCREEN_TYPE_INT);
    full.s.pool_len = sizeof full.pool;
    full.s.text_len = sizeof full.text;
    while (full.s.used < 4095)
        line(&full, SCREEN_OP_GT, (uint32_t)(full.s.used % 64), 7);
    screen_put_is_null(&full.s, (uint32_t)full.s.root);
}

static void make_few(void)
{
    make(&few, 8, SCREEN_TYPE_INT);
    for (uint32_t i = 0; i < 5; i++)
        line(&few, SCREEN_OP_GT, i, 7);
}

static uint64_t save_full(void) { return screen_lent_save(&full.s, file, sizeof file, &length) + length; }
static uint64_t save_few(void)
{
    return screen_lent_save(&few.s, few_file, sizeof few_file, &few_length) + few_length;
}

static uint64_t load_full(void)
{
    uint64_t n[5] = {0};
    return screen_load(file, (size_t)length, table, 64, records, 65536, pool, 65536, text, 8192, n, n + 1, n + 2, n + 3,
                       n + 4) + n[0];
}

static uint64_t load_few(void)
{
    uint64_t n[5] = {0};
    return screen_load(few_file, (size_t)few_length, table, 64, records, 65536, pool, 65536, NULL, 0, n, n + 1, n + 2,
                       n + 3, n + 4) +
           n[0];
}

static uint8_t copy[SCREEN_MAX_FILE_BYTES];
static uint64_t copy_full(void)
{
    memcpy(copy, file, (size_t)length);
    return copy[length / 2];
}

static uint64_t copy_few(void)
{
    memcpy(copy, few_file, (size_t)few_length);
    return copy[few_length / 2];
}

static uint64_t check_full(void) { return screen_lent_check(&full.s); }
static uint64_t check_few(void) { return screen_lent_check(&few.s); }

static void compare(const char *name, work ours, work other, const char *other_name, unsigned times)
{
    struct taken t;
    work works[2] = {ours, other};
    measure(&t, works, 2, 51, times);
    print_ratio(name, t.by[0], t.by[1], t.rounds, other_name);
}

int main(void)
{
    make_full();
    make_few();
    if (save_full() != 256 + SCREEN_MAX_FILE_BYTES || save_few() != 256 + 1536 || load_full() != 256 + full.s.root ||
        load_few() != 256 + few.s.root) {
        puts("saving or loading answers something else than expected");
        return 1;
    }
    compare("saving the largest screen, 285 blocks", save_full, copy_full, "memcpy", 20);
    compare("loading the largest screen", load_full, copy_full, "memcpy", 20);
    compare("saving a screen of 15 records, 3 blocks", save_few, copy_few, "memcpy", 2000);
    compare("loading a screen of 15 records", load_few, copy_few, "memcpy", 2000);
    compare("saving the largest screen", save_full, check_full, "checking", 20);
    compare("loading the largest screen", load_full, check_full, "checking", 20);
    compare("saving a screen of 15 records", save_few, check_few, "checking", 2000);
    compare("loading a screen of 15 records", load_few, check_few, "checking", 2000);
    return 0;
}
