/* screen_save and screen_load: round trips, every refusal, every limit, and that nothing but the answer is written. */
#define _POSIX_C_SOURCE 200809L
#include "lend.h"

#include "stack.h"

enum { INT = SCREEN_TYPE_INT, DAY = SCREEN_TYPE_DAY, TRUTH = SCREEN_TYPE_TRUTH };

#define MARK UINT64_C(0x0123456789abcdef)

static uint8_t file[SCREEN_MAX_FILE_BYTES + 1024]; /* the file of the last screen saved */
static size_t file_len;

/* ----------------------------------------------------------------------------------------------------------- saving */

/* Saves the screen under construction into `room` bytes; the bytes go to `file`. */
static void save(const char *name, size_t room, uint32_t want)
{
    struct slices s = lend();
    uint8_t *old = malloc(room + 1);
    uint64_t length = MARK;
    if (old == NULL)
        abort();
    for (size_t i = 0; i < room; i++)
        old[i] = (uint8_t)(7 * i + 3);
    uint8_t *out = lent(old, room);
    uint32_t got = screen_save(s.table, sent.table_len, s.records, sent.records_len, s.pool, sent.pool_len, s.text,
                               sent.text_len, sent.used, sent.root, out, room, &length);
    report(got == want, name, screen_refusal_text(got));
    report(all_kept(&s), name, "saving changed a lent byte");
    if (got == SCREEN_SAVED) {
        report(length <= room && length % SCREEN_BLOCK_BYTES == 0, name, "another length than blocks in the room lent");
        report(kept(out + length, old + length, room - (size_t)length), name, "a byte behind the file was written");
        file_len = (size_t)length;
        memcpy(file, out, file_len);
    } else {
        report(length == MARK && kept(out, old, room), name, "a refusal wrote a byte");
    }
    free(old);
    free(out);
    give_back(&s);
}

/* ---------------------------------------------------------------------------------------------------------- loading */

struct rooms {
    size_t table, records, pool, text;
};

static const struct rooms enough = {64, 65536, 65536, 8192};

/* Loads `file`; what is loaded must be the screen under construction. */
static void load(const char *name, struct rooms room, uint32_t want)
{
    static uint8_t old[4][17 * 4096 + 64];
    uint64_t root = MARK, columns = MARK + 1, used = MARK + 2, values = MARK + 3, text_bytes = MARK + 4;
    memset(old, 0xa5, sizeof old);
    uint8_t *bytes = lent(file, file_len);
    uint8_t *table = lent(old[0], room.table);
    uint8_t *records = lent(old[1], room.records);
    uint8_t *pool = lent(old[2], room.pool);
    uint8_t *text = lent(old[3], room.text);
    uint32_t got = screen_load(bytes, file_len, table, room.table, records, room.records, pool, room.pool, text,
                               room.text, &root, &columns, &used, &values, &text_bytes);
    report(got == want, name, screen_refusal_text(got));
    report(kept(bytes, file, file_len), name, "loading changed the file");
    if (got == SCREEN_LOADED) {
        size_t record_bytes = 16 * (size_t)used;
        size_t pool_bytes = 8 * (size_t)values;
        report(root == sent.root && columns == sent.table_len && used == sent.used && pool_bytes == sent.pool_len &&
                   text_bytes == sent.text_len, name, "other numbers than were saved");
        report(kept(table, sent.table, columns) && kept(records, sent.records, record_bytes) &&
                   kept(pool, sent.pool, pool_bytes) && kept(text, sent.text, text_bytes),
               name, "another screen than was saved");
        report(kept(table + columns, old[0], room.table - (size_t)columns) &&
                   kept(records + record_bytes, old[1], room.records - record_bytes) &&
                   kept(pool + pool_bytes, old[2], room.pool - pool_bytes) &&
                   kept(text + text_bytes, old[3], room.text - (size_t)text_bytes),
               name, "a byte behind the screen was written");
    } else {
        report(root == MARK && columns == MARK + 1 && used == MARK + 2 && values == MARK + 3 &&
                   text_bytes == MARK + 4 && kept(text, old[3], room.text) && kept(table, old[0], room.table) && kept(records, old[1], room.records) &&
                   kept(pool, old[2], room.pool),
               name, "a refusal wrote a byte");
    }
    free(bytes);
    free(table);
    free(records);
    free(pool);
    free(text);
}

/* RFC 1071, so that a changed block can be given its right checksum. */
static void repair(size_t block)
{
    uint8_t *b = file + 512 * block;
    uint32_t sum = 0;
    for (size_t i = 2; i < 512; i += 2)
        sum += (uint32_t)b[i] << 8 | b[i + 1];
    while (sum >> 16 != 0)
        sum = (sum & 0xffff) + (sum >> 16);
    b[0] = (uint8_t)(~sum >> 8);
    b[1] = (uint8_t)~sum;
}

/* ------------------------------------------------------------------------------------------------------------ cases */

/* `records` true literals, the last the root; `values` pool values that no list reads; a text that no symbol reads. */
static void make(size_t columns, uint32_t records, size_t values, size_t text)
{
    uint8_t table[LEND_TABLE];
    memset(table, INT, sizeof table);
    begin(table, columns);
    while (sent.used < records)
        literal(TRUTH, 1);
    for (size_t i = 0; i < values; i++)
        pool_value((int64_t)i - 5);
    for (size_t i = 0; i < text; i++)
        sent.text[sent.text_len++] = (uint8_t)(31 * i + 7);
}

static void round_trip(const char *name, size_t columns, uint32_t records, size_t values, size_t text)
{
    size_t blocks = 2 + (records + 30) / 31 + (values + 61) / 62 + (text + 495) / 496;
    struct rooms exact = {columns, 16 * (size_t)records, 8 * values, text};
    make(columns, records, values, text);
    save(name, 512 * blocks, SCREEN_SAVED);
    report(file_len == 512 * blocks, name, "another length than its blocks");
    load(name, exact, SCREEN_LOADED);
    save(name, 512 * blocks + 100, SCREEN_SAVED);
    load(name, enough, SCREEN_LOADED);
    save(name, 512 * blocks - 1, SCREEN_REFUSED_SHORT);
    if (columns > 0) {
        exact.table--;
        load(name, exact, SCREEN_REFUSED_SHORT);
        exact.table++;
    }
    exact.records--;
    load(name, exact, SCREEN_REFUSED_SHORT);
    exact.records += 40;
    if (values > 0) {
        exact.pool--;
        load(name, exact, SCREEN_REFUSED_SHORT);
        exact.pool++;
    }
    if (text > 0) {
        exact.text--;
        load(name, exact, SCREEN_REFUSED_SHORT);
    }
}

/* On a thread with as much stack as the header asks for. */
static void *largest(void *unused)
{
    round_trip("the largest screen", 64, 4096, 8192, 8192);
    return unused;
}

static void test_largest(void)
{
    on_stack(largest, NULL, (size_t)7 << 15);
}

static void test_round_trips(void)
{
    round_trip("the smallest screen", 0, 1, 0, 0);
    round_trip("one of each", 1, 1, 1, 1);
    round_trip("a text and no pool", 1, 1, 0, 5);
    round_trip("one full block of each", 64, 31, 62, 496);
    round_trip("one more than a full block", 64, 32, 63, 497);
    round_trip("a block of text counted in two bytes", 1, 1, 0, 256);
    test_largest();
    report(file_len == SCREEN_MAX_FILE_BYTES, "the largest screen", "another length than SCREEN_MAX_FILE_BYTES");
    begin_mixed();
    uint32_t low = line(SCREEN_OP_GT_EQ, 0, INT, -7);
    pool_value(3);
    pool_value(4);
    uint32_t days = list(0, DAY, 0, 2);
    uint32_t member = is_in(0, column(1), days);
    uint32_t both = binary(SCREEN_OP_AND, low, member);
    binary(SCREEN_OP_OR, both, column(2));
    save("a screen of lines", 4096, SCREEN_SAVED);
    load("a screen of lines", enough, SCREEN_LOADED);
    sent.used--;
    sent.root = both;
    save("fewer records used than lent", 4096, SCREEN_SAVED);
    load("fewer records used than lent", enough, SCREEN_LOADED);
    sent.root = sent.used;
    save("a root that is not used", 4096, SCREEN_REFUSED_ROOT);
    sent.root = low;
    sent.table[0] = 9;
    save("an unknown type", 4096, SCREEN_REFUSED_TABLE);
    save("an unknown type, and no room", 0, SCREEN_REFUSED_TABLE);
}

/* A byte of a saved file changed, its block's checksum repaired, and what loading answers then. */
struct change {
    const char *name;
    size_t at;
    uint8_t value;
    uint32_t want;
};

/* Every byte of a small file, changed alone, is told; most changes also with the checksum made right. */
static void test_damage(void)
{
    static uint8_t whole[1536];
    make(2, 1, 0, 0);
    save("a file to damage", 1536, SCREEN_SAVED);
    memcpy(whole, file, sizeof whole);
    unsigned told = 0;
    for (size_t at = 0; at < sizeof whole; at++) {
        uint64_t n[5];
        file[at] ^= 0x10;
        uint8_t *bytes = lent(file, file_len);
        uint8_t table[64], records[64], pool[64];
        told += screen_load(bytes, file_len, table, 64, records, 64, pool, 64, NULL, 0, n, n + 1, n + 2, n + 3,
                            n + 4) == SCREEN_REFUSED_FILE;
        free(bytes);
        file[at] = whole[at];
    }
    report(told == sizeof whole, "each byte changed alone", "a change was not told");
    static const struct change changes[] = {
        {"a number that is not the block's", 512 + 2, 2, SCREEN_REFUSED_FILE},
        {"an unknown kind", 512 + 4, 6, SCREEN_REFUSED_FILE},
        {"the table's kind again", 512 + 4, 1, SCREEN_REFUSED_FILE},
        {"a count of none", 512 + 5, 0, SCREEN_REFUSED_FILE},
        {"a count that the block cannot hold", 512 + 5, 32, SCREEN_REFUSED_FILE},
        {"an end that counts two", 1024 + 5, 2, SCREEN_REFUSED_FILE},
        {"a header byte that is not zero", 15, 1, SCREEN_REFUSED_FILE},
        {"a second byte of the count", 512 + 6, 1, SCREEN_REFUSED_FILE},
        {"an unused byte that is not zero", 511, 1, SCREEN_REFUSED_FILE},
        {"an unused byte behind the end", 1024 + 24, 1, SCREEN_REFUSED_FILE},
        {"a used that is not the records held", 1024 + 16, 2, SCREEN_REFUSED_FILE},
        {"a root that is not used", 1024 + 20, 1, SCREEN_REFUSED_ROOT},
        {"a type that is none", 17, 9, SCREEN_REFUSED_TABLE},
        {"a record of unknown kind", 512 + 16, 11, SCREEN_REFUSED_RECORD},
    };
    for (size_t i = 0; i < sizeof changes / sizeof changes[0]; i++) {
        memcpy(file, whole, sizeof whole);
        file[changes[i].at] = changes[i].value;
        repair(changes[i].at / 512);
        load(changes[i].name, enough, changes[i].want);
    }
    memcpy(file, whole, sizeof whole);
    file_len = 1535;
    load("a byte missing", enough, SCREEN_REFUSED_FILE);
    file_len = 1024;
    load("no end", enough, SCREEN_REFUSED_FILE);
    file_len = 0;
    load("no byte", enough, SCREEN_REFUSED_FILE);
    memcpy(file, whole, sizeof whole);
    memset(file + 1536, 0, 512);
    file_len = 1537;
    load("a trailing byte", enough, SCREEN_REFUSED_FILE);
    file_len = 2048;
    load("a trailing block", enough, SCREEN_REFUSED_FILE);
}

/* Over 64 columns are number 1 where there is room for them. */
static void test_wide(void)
{
    struct rooms room = {255, 65536, 65536, 8192};
    make(1, 1, 0, 0);
    save("a file of one column", 1536, SCREEN_SAVED);
    for (unsigned columns = 65; columns <= 255; columns += 38) {
        memset(file + 16, INT, columns);
        file[5] = (uint8_t)columns;
        repair(0);
        load("a file of too many columns", room, SCREEN_REFUSED_TABLE);
        load("a file of too many columns for 64", enough, SCREEN_REFUSED_SHORT);
    }
}

/* Blocks of text: after the pool and before the end, each full before the next, the count in two bytes. */
static void test_text(void)
{
    static uint8_t whole[6 * 512];
    static const struct change changes[] = {
        {"a count of text of none", 4 * 512 + 5, 0, SCREEN_REFUSED_FILE},
        {"a count of text that the bytes do not have", 4 * 512 + 5, 3, SCREEN_REFUSED_FILE},
        {"a count of text over the block", 4 * 512 + 6, 2, SCREEN_REFUSED_FILE},
        {"a first block of text that is not full", 3 * 512 + 5, 0xef, SCREEN_REFUSED_FILE},
        {"a byte behind the count", 4 * 512 + 7, 1, SCREEN_REFUSED_FILE},
        {"text where the pool is due", 2 * 512 + 4, 5, SCREEN_REFUSED_FILE},
        {"a pool behind the text", 4 * 512 + 4, 3, SCREEN_REFUSED_FILE},
        {"another text", 4 * 512 + 16, 200, SCREEN_LOADED},
    };
    make(1, 1, 1, 500);
    save("a file with a text", sizeof whole, SCREEN_SAVED);
    report(file_len == sizeof whole, "a file with a text", "another length");
    memcpy(whole, file, sizeof whole);
    for (size_t i = 0; i < sizeof changes / sizeof changes[0]; i++) {
        memcpy(file, whole, sizeof whole);
        file[changes[i].at] = changes[i].value;
        repair(changes[i].at / 512);
        if (changes[i].want == SCREEN_LOADED)
            sent.text[496] = changes[i].value;
        load(changes[i].name, enough, changes[i].want);
    }
    begin((const uint8_t[]){SCREEN_TYPE_TEXT}, 1);
    uint32_t left = column(0);
    binary(SCREEN_OP_EQ, left, symbol("SPX", 3));
    save("a screen with a symbol", 4096, SCREEN_SAVED);
    load("a screen with a symbol", enough, SCREEN_LOADED);
    sent.text_len = 2;
    save("a symbol past the text", 4096, SCREEN_REFUSED_RECORD);
    make(1, 1, 0, 8193);
    save("a text of 8,193 bytes", 65536, SCREEN_REFUSED_SIZE);
}

int main(void)
{
    test_round_trips();
    test_damage();
    test_text();
    test_wide();
    return finish();
}
