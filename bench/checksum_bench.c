/*
 * The checksum of 4,096 blocks in four ways, all in one run: the library's, by words of eight bytes; the library's before
 * that, a pair of bytes at a time with its carry; plain C a byte at a time; plain C by words of eight bytes. The first two
 * are entries of crates/checksum_bench, which call the proved functions and are compiled as the library is.
 */
#define _POSIX_C_SOURCE 199309L
#include "measure.h"

#include <string.h>

enum { BLOCK = 512, BLOCKS = 4096 };

uint16_t checksum_by_words(const uint8_t *block, size_t len);
uint16_t checksum_by_pairs(const uint8_t *block, size_t len);

static uint8_t blocks[BLOCKS][BLOCK];

static uint16_t folded(uint64_t sum)
{
    while (sum >> 16)
        sum = (sum & 0xffff) + (sum >> 16);
    return (uint16_t)sum;
}

static uint16_t plain_by_bytes(const uint8_t *block)
{
    uint32_t sum = 0;
    for (unsigned k = 2; k < BLOCK; k++)
        sum += k % 2 ? block[k] : (uint32_t)block[k] << 8;
    return (uint16_t)~folded(sum);
}

/* The halves of a word have room for their carries in 64 bits. A loop with the carry of whole words is slower. */
static uint16_t plain_by_words(const uint8_t *block)
{
    uint64_t sum = 0;
    for (unsigned k = 0; k < BLOCK; k += 8) {
        uint64_t word;
        memcpy(&word, block + k, 8);
        sum += (word & 0xffffffff) + (word >> 32);
    }
    uint16_t little = folded(sum - block[0] - 256u * block[1]);
    return (uint16_t)~(little << 8 | little >> 8);
}

static uint64_t library_words(void)
{
    uint64_t sum = 0;
    for (unsigned i = 0; i < BLOCKS; i++)
        sum += checksum_by_words(blocks[i], BLOCK);
    return sum;
}

static uint64_t library_pairs(void)
{
    uint64_t sum = 0;
    for (unsigned i = 0; i < BLOCKS; i++)
        sum += checksum_by_pairs(blocks[i], BLOCK);
    return sum;
}

static uint64_t c_bytes(void)
{
    uint64_t sum = 0;
    for (unsigned i = 0; i < BLOCKS; i++)
        sum += plain_by_bytes(blocks[i]);
    return sum;
}

static uint64_t c_words(void)
{
    uint64_t sum = 0;
    for (unsigned i = 0; i < BLOCKS; i++)
        sum += plain_by_words(blocks[i]);
    return sum;
}

/* Bytes of every kind; blocks of zeros and of ones; and sums that fold to 0 and to FFFF. */
static void make_blocks(void)
{
    uint32_t x = 1;
    for (unsigned i = 2; i < BLOCKS; i++)
        for (unsigned k = 0; k < BLOCK; k++) {
            x = x * 1664525 + 1013904223;
            blocks[i][k] = (uint8_t)(x >> 24);
        }
    memset(blocks[1], 0xff, BLOCK);
    memset(blocks[2] + 2, 0, BLOCK - 2);
    blocks[2][510] = blocks[2][511] = 0xff;
    memset(blocks[3] + 2, 0, BLOCK - 2);
    blocks[3][8] = 1;
    blocks[3][16] = 0xfe;
    blocks[3][511] = 0xff;
}

static unsigned differing(void)
{
    unsigned n = 0;
    for (unsigned i = 0; i < BLOCKS; i++) {
        uint16_t sum = plain_by_bytes(blocks[i]);
        n += checksum_by_words(blocks[i], BLOCK) != sum || checksum_by_pairs(blocks[i], BLOCK) != sum ||
             plain_by_words(blocks[i]) != sum;
    }
    return n;
}

/* Two at a time: behind a slow one the next would find the blocks out of the cache. */
static void compare(work other, const char *name, unsigned times, double goal)
{
    struct taken t;
    work works[2] = {library_words, other};
    measure(&t, works, 2, 101, times);
    print_goal("the checksum of 4,096 blocks", t.by[0], t.by[1], t.rounds, name, goal);
}

int main(void)
{
    make_blocks();
    if (differing() != 0) {
        printf("%u of %u blocks have different checksums\n", differing(), (unsigned)BLOCKS);
        return 1;
    }
    compare(c_words, "plain C by words", 8, 1.2);
    compare(library_pairs, "by pairs of bytes, as before", 1, 0.25);
    compare(c_bytes, "plain C by bytes", 1, 0.25);
    return 0;
}
