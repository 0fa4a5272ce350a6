#include "saved.h"

#include <stdio.h>
#include <stdlib.h>
#include <string.h>

/*
 * The first block has 12 zero bytes among its first 16: its number and bytes 6 to 15. No text has one; two thirds of
 * them are asked for, so that neither a damaged file nor a text in UTF-16 is mistaken.
 */
bool saved_is(struct slice bytes)
{
    unsigned zeros = 0;
    if (bytes.len < 16)
        return false;
    for (size_t i = 2; i < 16; i++)
        zeros += i != 4 && i != 5 && bytes.at[i] == 0;
    return zeros >= 8;
}

bool saved_load(struct slice bytes, struct build *build, struct faults *faults)
{
    struct screen_lent *s = &build->lent;
    /* no part of a file is longer than the file: the buffers are never too short */
    s->table = grown(s->table, &s->table_room, bytes.len, 1);
    s->records = grown(s->records, &s->records_room, bytes.len, 1);
    s->pool = grown(s->pool, &s->pool_room, bytes.len, 1);
    s->text = grown(s->text, &s->text_room, bytes.len, 1);
    uint32_t answer = screen_lent_load(s, (const uint8_t *)bytes.at, bytes.len);
    if (screen_refused(answer)) {
        fault_add(faults, 0, 0, "refused, number %u: %s", (unsigned)answer, screen_refusal_text(answer));
        return false;
    }
    build->columns = grown(build->columns, &build->columns_room, s->table_len, sizeof *build->columns);
    for (size_t i = 0; i < s->table_len; i++) {
        snprintf(build->columns[i].name, sizeof build->columns[i].name, "c%u", (unsigned)i);
        build->columns[i].line = 0;
    }
    build->loaded = true;
    return true;
}

/* ---------------------------------------------------------------------------------------------------------- writing */

/* Leaves behind the values that no list has; the others keep their order, so each list stays in one piece. */
static void drop_values(struct screen_lent *s, uint8_t *pool)
{
    uint32_t numbers[SCREEN_MAX_POOL_VALUES + 1] = {0}; /* 1 for a value of a list; then how many of them are before */
    uint32_t count = 0, values = (uint32_t)(s->pool_len / SCREEN_VALUE_BYTES);
    for (uint64_t n = 0; n < s->used; n++) {
        struct screen_record list = screen_record_at(s, n);
        for (uint32_t i = 0; list.kind == SCREEN_KIND_LIST && i < list.b; i++)
            numbers[list.a + i] = 1;
    }
    for (uint32_t i = 0; i <= values; i++) {
        bool listed = numbers[i] == 1;
        numbers[i] = count;
        if (listed)
            memcpy(pool + SCREEN_VALUE_BYTES * count++, s->pool + SCREEN_VALUE_BYTES * i, SCREEN_VALUE_BYTES);
    }
    for (uint64_t n = 0; n < s->used; n++) {
        struct screen_record list = screen_record_at(s, n);
        if (list.kind == SCREEN_KIND_LIST)
            screen_store(s->records + SCREEN_RECORD_BYTES * n + 4, 4, numbers[list.a]);
    }
    s->pool = pool;
    s->pool_len = SCREEN_VALUE_BYTES * count;
}

void saved_add(struct text *file, const struct tidied *tidied)
{
    struct screen_lent s = tidied->copied;
    size_t records_room = 0, pool_room = 0;
    uint64_t length = 0;
    uint8_t *records = grown(NULL, &records_room, SCREEN_RECORD_BYTES * (size_t)s.used, 1);
    uint8_t *pool = grown(NULL, &pool_room, s.pool_len, 1);
    if (screen_refused(screen_copy_reached(&s, records, records_room, &s)))
        abort(); /* what is copied was accepted */
    drop_values(&s, pool);
    file->bytes = grown(file->bytes, &file->room, SCREEN_MAX_FILE_BYTES, 1);
    if (screen_refused(screen_lent_save(&s, (uint8_t *)file->bytes, file->room, &length)))
        abort(); /* and the longest file has room */
    file->len = (size_t)length;
    free(records);
    free(pool);
}
