/* A rewriter that lets nothing pass, whatever the screen: tidy must see it on the chain. */
#include "screen_build.h"

uint32_t __wrap_screen_rewrite(const uint8_t *table, size_t table_len, uint8_t *records, size_t records_len,
                               const uint8_t *pool, size_t pool_len, const uint8_t *text, size_t text_len, uint64_t used,
                               uint64_t root, uint8_t *reasons, size_t reasons_len, uint64_t *new_root, uint64_t *new_used, uint64_t *reasons_used,
                               uint64_t *passes);

uint32_t __wrap_screen_rewrite(const uint8_t *table, size_t table_len, uint8_t *records, size_t records_len,
                               const uint8_t *pool, size_t pool_len, const uint8_t *text, size_t text_len, uint64_t used,
                               uint64_t root, uint8_t *reasons, size_t reasons_len, uint64_t *new_root, uint64_t *new_used, uint64_t *reasons_used,
                               uint64_t *passes)
{
    struct screen_lent s;
    (void)table, (void)table_len, (void)pool, (void)pool_len, (void)text, (void)text_len, (void)root, (void)reasons, (void)reasons_len;
    screen_begin(&s, NULL, 0, records, records_len, NULL, 0, NULL, 0);
    s.used = used;
    screen_put_truth(&s, 0);
    *new_root = s.root;
    *new_used = s.used;
    *reasons_used = 0;
    *passes = 0;
    return SCREEN_NOTHING_PASSES;
}
