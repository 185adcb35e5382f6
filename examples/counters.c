/* Drives compression with counters of 128 bits, over the place where the lower half goes over into the upper.
 *
 *     cc -std=c99 -I include examples/counters.c target/native/libbahmorist.a -o target/counters && target/counters
 *
 * Prints the chaining value after one block, and what was looked at. The status is 1 where something is refused, or not as expected. */
#include "bahmorist.h"
#include <stdio.h>
#include <string.h>

/* 2^64 - 80, which has no upper half yet. Each of the 16 words of a round takes one count, so that it has one from the sixth round on. */
static const uint64_t low = UINT64_MAX - 79, high = 0;

/* Without a salt. */
static const uint8_t salt[BAHMORIST_SALT_BYTES] = {0};

/* A square whose bytes count up: the chaining value is its front, and the block the rest. */
static uint8_t start[BAHMORIST_SQUARE_BYTES];
enum { CHAINING_BYTES = 64, BLOCK_BYTES = 192 };
static const uint8_t *const block = start + CHAINING_BYTES;

/* Prints what was looked at, and answers 0 where it is as expected. */
static int look(const char *what, int expected)
{
    printf("%s: %s\n", what, expected ? "yes" : "no");
    return !expected;
}

static int compress(void)
{
    uint8_t chaining[CHAINING_BYTES], same[CHAINING_BYTES];
    uint8_t refusal;

    memcpy(chaining, start, sizeof chaining);
    memcpy(same, start, sizeof same);
    refusal = bahmorist_compress_wide(BAHMORIST_DOUBLE_PIPE, chaining, sizeof chaining, block, BLOCK_BYTES, low, high, salt, sizeof salt);
    if (refusal != BAHMORIST_DONE) {
        fprintf(stderr, "refused by %u\n", (unsigned)refusal);
        return 1;
    }
    for (size_t i = 0; i < sizeof chaining; i++) {
        printf("%02x", (unsigned)chaining[i]);
    }
    printf("\n");
    refusal = bahmorist_compress(same, sizeof same, block, BLOCK_BYTES, low, salt, sizeof salt);
    return look("refused by 7 where the counter has 64 bits", refusal == BAHMORIST_REFUSED_COUNTER && memcmp(same, start, sizeof same) == 0);
}

static int there_and_back(void)
{
    uint8_t square[BAHMORIST_SQUARE_BYTES];
    int moved, refused;

    memcpy(square, start, sizeof square);
    refused = bahmorist_rounds_wide(square, sizeof square, 8, low, high, salt, sizeof salt);
    moved = memcmp(square, start, sizeof square) != 0;
    refused |= bahmorist_rounds_back_wide(square, sizeof square, 8, low, high, salt, sizeof salt);
    return look("the square comes back", !refused && moved && memcmp(square, start, sizeof square) == 0);
}

/* The counter of a message's first block: its bits. */
static int both_widths(void)
{
    uint8_t one[CHAINING_BYTES], other[CHAINING_BYTES];
    const uint64_t counter = 8 * BLOCK_BYTES;
    int refused;

    memcpy(one, start, sizeof one);
    memcpy(other, start, sizeof other);
    refused = bahmorist_compress(one, sizeof one, block, BLOCK_BYTES, counter, salt, sizeof salt);
    refused |= bahmorist_compress_wide(BAHMORIST_DOUBLE_PIPE, other, sizeof other, block, BLOCK_BYTES, counter, 0, salt, sizeof salt);
    return look("a low counter gives the same in both widths", !refused && memcmp(one, other, sizeof one) == 0);
}

int main(void)
{
    int wrong;

    for (size_t i = 0; i < sizeof start; i++) {
        start[i] = (uint8_t)i;
    }
    wrong = compress();
    wrong |= there_and_back();
    wrong |= both_widths();
    return wrong;
}
