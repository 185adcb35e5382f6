/* Rounds forward and backward, a compression, and the fingerprint of a table. The other examples have the digests, counters and tags.
 *
 *     cc -std=c99 -I include examples/tour.c target/native/libbahmorist.a -o target/tour
 *     target/tour <crates/fingerprint_table/stdin
 *
 * Standard input is sixteen salt bytes and then a steering table. Prints the table's fingerprint, and then the 256-bit digest of the empty
 * message, made by hand from one compression. The status is 1 where a square does not come back, or where something is refused. */
#include "bahmorist.h"
#include <stdio.h>
#include <string.h>

static void print(const uint8_t *bytes, size_t count)
{
    for (size_t i = 0; i < count; i++) {
        printf("%02x", (unsigned)bytes[i]);
    }
    printf("\n");
}

/* 0 where forward and then backward gives the square again, and something else in between. */
static int there_and_back(uint64_t rounds, uint64_t counter, const uint8_t salt[16])
{
    uint8_t start[256], square[256];

    for (size_t i = 0; i < sizeof start; i++) {
        start[i] = (uint8_t)i;
    }
    memcpy(square, start, sizeof square);
    if (bahmorist_rounds(square, sizeof square, rounds, counter, salt, 16) != 0 || memcmp(square, start, sizeof square) == 0) {
        return 1;
    }
    return bahmorist_rounds_back(square, sizeof square, rounds, counter, salt, 16) != 0 || memcmp(square, start, sizeof square) != 0;
}

/* The empty message is one block of padding, with the counter 0. */
static int digest_by_hand(void)
{
    const uint8_t salt[16] = {0};
    uint8_t chaining[64] = {0}, block[192] = {0x80};

    for (size_t word = 0; word < sizeof chaining; word += 16) {
        chaining[word + 1] = 256 >> 8;
    }
    block[175] = 256 >> 8;
    if (bahmorist_compress(chaining, sizeof chaining, block, sizeof block, 0, salt, sizeof salt) != 0) {
        return 1;
    }
    print(chaining, 32);
    return 0;
}

static int fingerprint(void)
{
    uint8_t input[16 + 4097], out[32];
    uint64_t place;
    size_t count = fread(input, 1, sizeof input, stdin);
    size_t salt_len = count < 16 ? count : 16;
    uint8_t refusal = bahmorist_fingerprint(input, salt_len, input + salt_len, count - salt_len, out, sizeof out, &place);

    if (refusal != 0) {
        printf("refused %u at %llu\n", (unsigned)refusal, (unsigned long long)place);
        return 1;
    }
    print(out, sizeof out);
    return 0;
}

int main(void)
{
    const uint8_t salt[16] = {1, 2, 3};

    return fingerprint() || digest_by_hand() || there_and_back(8, 1536, salt) || there_and_back(10, UINT64_MAX - 160, salt);
}
