/* implies of range.h, beside what it means: every half number of which the one is true, the other is true of too;
 * and of symbols in the order of these numbers the same. */
#include "range.h"

#include <stdio.h>
#include <string.h>

static const unsigned CODES[] = {SCREEN_OP_EQ, SCREEN_OP_NOT_EQ, SCREEN_OP_LT,
                                 SCREEN_OP_LT_EQ, SCREEN_OP_GT, SCREEN_OP_GT_EQ};

/* Is `code value` true of half / 2? */
static bool is_true(struct comparison c, int64_t half)
{
    int64_t value = 2 * c.value;
    switch (c.code) {
    case SCREEN_OP_EQ:
        return half == value;
    case SCREEN_OP_NOT_EQ:
        return half != value;
    case SCREEN_OP_LT:
        return half < value;
    case SCREEN_OP_LT_EQ:
        return half <= value;
    case SCREEN_OP_GT:
        return half > value;
    default:
        return half >= value;
    }
}

/* Five symbols in rising order: a prefix is below what extends it, and bytes count from 0 to 255. */
static const char *const SYMBOLS[] = {"", "SP", "SPX", "SPY", "\xff"};

static struct comparison of_symbol(struct comparison number)
{
    number.symbol = (const uint8_t *)SYMBOLS[number.value + 2];
    number.length = strlen(SYMBOLS[number.value + 2]);
    number.value = 0;
    return number;
}

static bool means(struct comparison strong, struct comparison weak)
{
    for (int64_t half = -12; half <= 12; half++)
        if (is_true(strong, half) && !is_true(weak, half))
            return false;
    return true;
}

int main(void)
{
    unsigned passed = 0, failed = 0;
    for (unsigned i = 0; i < 6 * 5 * 6 * 5; i++) {
        struct comparison strong = {0, CODES[i % 6], (int64_t)(i / 6 % 5) - 2, NULL, 0};
        struct comparison weak = {0, CODES[i / 30 % 6], (int64_t)(i / 180) - 2, NULL, 0}, elsewhere = weak;
        elsewhere.column = 1;
        bool good = implies(strong, weak) == means(strong, weak) && !implies(strong, elsewhere) &&
                    implies(of_symbol(strong), of_symbol(weak)) == means(strong, weak);
        passed += good;
        failed += !good;
        if (!good)
            printf("FAILED %u %d implies %u %d\n", strong.code, (int)strong.value, weak.code, (int)weak.value);
    }
    printf("%u passed, %u failed\n", passed, failed);
    return failed != 0;
}
