/* Digests a radio capture that ends within a byte.
 *
 *     cc -std=c99 -I include examples/capture.c target/native/libbahmorist.a -o target/capture && target/capture
 *
 * Prints the digest, and what was looked at. The status is 1 where something is refused, or not as expected. */
#include "bahmorist.h"
#include <stdio.h>
#include <string.h>

/* 1391 bits, the most that one block holds with its padding. They are 173 bytes and seven bits of another one, the most significant bit of a byte
 * first, so that the lowest bit of the last byte is not used. */
enum { CAPTURE_BITS = 1391, CAPTURE_BYTES = (CAPTURE_BITS + 7) / 8, UNUSED = 8 * CAPTURE_BYTES - CAPTURE_BITS, DIGEST_BYTES = 32 };
static uint8_t capture[CAPTURE_BYTES];

/* Without a salt. */
static const uint8_t salt[BAHMORIST_SALT_BYTES] = {0};

/* Prints what was looked at, and answers 0 where it is as expected. */
static int look(const char *what, int expected)
{
    printf("%s: %s\n", what, expected ? "yes" : "no");
    return !expected;
}

/* The digest of so many bits of the capture. */
static uint8_t digest_of(uint64_t bits, uint8_t digest[DIGEST_BYTES])
{
    return bahmorist_digest_bits(BAHMORIST_DOUBLE_PIPE, 8 * DIGEST_BYTES, salt, sizeof salt, capture, sizeof capture, bits, digest, DIGEST_BYTES);
}

/* A receiver that leaves something in the bits behind the last one is told so. */
static int set_bits(void)
{
    uint8_t digest[DIGEST_BYTES] = {0}, blank[DIGEST_BYTES] = {0};
    uint8_t refusal;

    capture[CAPTURE_BYTES - 1] |= 1;
    refusal = digest_of(CAPTURE_BITS, digest);
    capture[CAPTURE_BYTES - 1] &= (uint8_t)(0xff << UNUSED);
    return look("refused by 17 where a bit behind the last one is set",
                refusal == BAHMORIST_REFUSED_SET_BITS && memcmp(digest, blank, sizeof digest) == 0);
}

/* The same bytes with one bit more, a zero, are another message: the whole bytes. */
static int whole_bytes(const uint8_t of_bits[DIGEST_BYTES])
{
    uint8_t of_bytes[DIGEST_BYTES], same[DIGEST_BYTES];
    int refused, wrong;

    refused = bahmorist_digest(8 * DIGEST_BYTES, salt, sizeof salt, capture, sizeof capture, of_bytes, sizeof of_bytes);
    refused |= digest_of(8 * CAPTURE_BYTES, same);
    wrong = look("the same bytes as whole ones have another digest", !refused && memcmp(of_bytes, of_bits, sizeof of_bytes) != 0);
    wrong |= look("and one digest by their bits and by their bytes", !refused && memcmp(of_bytes, same, sizeof of_bytes) == 0);
    return wrong;
}

int main(void)
{
    uint8_t digest[DIGEST_BYTES];
    uint8_t refusal;
    int wrong;

    for (size_t i = 0; i < sizeof capture; i++) {
        capture[i] = (uint8_t)i;
    }
    capture[CAPTURE_BYTES - 1] &= (uint8_t)(0xff << UNUSED);
    refusal = digest_of(CAPTURE_BITS, digest);
    if (refusal != BAHMORIST_DONE) {
        fprintf(stderr, "refused by %u\n", (unsigned)refusal);
        return 1;
    }
    for (size_t i = 0; i < sizeof digest; i++) {
        printf("%02x", (unsigned)digest[i]);
    }
    printf("\n");
    wrong = set_bits();
    wrong |= whole_bytes(digest);
    return wrong;
}
