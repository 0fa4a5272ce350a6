/*
 * Checking and columns read of a full screen, 4,096 records and 8,192 pool values, beside plain C; goal: within 2x.
 * The last line is the worst screen there is: each record a list over the whole pool, every value of it looked at.
 */
#define _POSIX_C_SOURCE 199309L
#include "make.h"
#include "measure.h"
#include "plain.h"

static struct made full;
static struct made worst;

/* Lines of all kinds; 64 lists share out the pool, which holds Days so that its values must be looked at. */
static void make_full(void)
{
    uint32_t top;
    uint32_t n = 0;
    make(&full, 64, SCREEN_TYPE_DAY);
    top = line(&full, SCREEN_OP_GT, 0, 3);
    while (full.s.used + 5 <= 4096) {
        uint32_t number = n++ % 64;
        uint32_t next;
        if (full.s.pool_len < sizeof full.pool)
            next = member(&full, number, n, 128);
        else if (n % 4 == 0)
            next = range(&full, number, 1, 9);
        else if (n % 4 == 1)
            next = screen_put_is_not_null(&full.s, screen_put_column(&full.s, number));
        else
            next = line(&full, SCREEN_OP_LT_EQ, number, n);
        top = screen_put_and(&full.s, top, next);
    }
    while (full.s.used < 4096)
        top = screen_put_is_null(&full.s, top);
}

static void make_worst(void)
{
    make(&worst, 1, SCREEN_TYPE_DAY);
    worst.s.pool_len = sizeof worst.pool;
    while (worst.s.used < 4095)
        screen_put(&worst.s, SCREEN_KIND_LIST, 0, SCREEN_TYPE_DAY, 0, 8192, 0);
    screen_put_truth(&worst.s, 1);
}

static uint64_t check_ours(void) { return screen_lent_check(&full.s); }
static uint64_t check_plain(void) { return plain_check(&full.s); }
static uint64_t worst_ours(void) { return screen_lent_check(&worst.s); }
static uint64_t worst_plain(void) { return plain_check(&worst.s); }

static uint64_t columns_ours(void)
{
    uint64_t columns = 0;
    uint64_t count = 0;
    return screen_lent_columns_read(&full.s, &columns, &count) + columns + count;
}

static uint64_t columns_plain(void)
{
    uint64_t columns = 0;
    uint64_t count = 0;
    return plain_columns_read(&full.s, &columns, &count) + columns + count;
}

static int beside(const char *name, work ours, work plain, unsigned rounds, unsigned times)
{
    static struct taken taken;
    const work works[2] = {ours, plain};
    if (ours() != plain()) {
        printf("%s: the answers differ\n", name);
        return 1;
    }
    measure(&taken, works, 2, rounds, times);
    print_ratio(name, taken.by[0], taken.by[1], rounds, "plain C");
    return 0;
}

int main(void)
{
    int differ = 0;
    make_full();
    make_worst();
    differ |= beside("check, full screen", check_ours, check_plain, ROUNDS, 10);
    differ |= beside("columns read, full screen", columns_ours, columns_plain, ROUNDS, 10);
    differ |= beside("check, every record a list over the whole pool", worst_ours, worst_plain, 5, 1);
    return differ;
}
