/* How many bytes of stack the calls take, which include/bahmorist.h bounds in its first comment: each is made on a stack of its own that was painted.
 *
 *     cc -std=gnu99 -O2 -I include tests/taken_stack.c target/native/libbahmorist.a -o target/taken_stack && target/taken_stack
 *
 * Prints two numbers: the most that a call which makes or checks a tag has written to, and the most of any other call. What the caller takes, as a call
 * that does nothing shows it, is left out; what the C library's memcpy and memset take is not. */
#define _XOPEN_SOURCE 700
#include "bahmorist.h"
#include "painted_stack.h"
#include <stdio.h>

static const uint8_t salt[BAHMORIST_SALT_BYTES] = {0};
static const uint8_t key[300] = {1}, message[300] = {2}, table[] = {1, 0xa2, 0, 0, 0, 0, 7, 2, 0, 0x3c};
static uint8_t square[256], chaining[128], out[BAHMORIST_MOST_DIGEST_BYTES], room[64];
static uint8_t yes, kind, answers;
static uint64_t place, count;

static void nothing(void) { answers |= bahmorist_version() == 0; }
static void make(void) { answers |= bahmorist_hmac(512, salt, 16, key, 300, message, 300, out, 64); }
static void make_short(void) { answers |= bahmorist_hmac(256, salt, 16, key, 32, message, 300, out, 64); }
static void check(void) { answers |= bahmorist_hmac_check(512, salt, 16, key, 300, message, 300, out, 64, &yes); }
static void verify(void) { answers |= bahmorist_hmac_verify(256, salt, 16, key, 32, message, 300, out, 32); }
static void digest(void) { answers |= bahmorist_digest(256, salt, 16, message, 300, out, 64); }
static void digest_in(void) { answers |= bahmorist_digest_in(1, 512, salt, 16, message, 300, out, 64); }
static void digest_bits(void) { answers |= bahmorist_digest_bits(0, 512, salt, 16, message, 300, 2400, out, 64); }
static void rounds(void) { answers |= bahmorist_rounds(square, 256, 10, 0, salt, 16); }
static void rounds_back(void) { answers |= bahmorist_rounds_back(square, 256, 10, 0, salt, 16); }
static void rounds_wide(void) { answers |= bahmorist_rounds_wide(square, 256, 10, 0, 1, salt, 16); }
static void rounds_back_wide(void) { answers |= bahmorist_rounds_back_wide(square, 256, 10, 0, 1, salt, 16); }
static void compress(void) { answers |= bahmorist_compress(chaining, 128, message, 128, 0, salt, 16); }
static void compress_in(void) { answers |= bahmorist_compress_in(1, chaining, 64, message, 192, 0, salt, 16); }
static void compress_wide(void) { answers |= bahmorist_compress_wide(0, chaining, 64, message, 192, 0, 1, salt, 16); }
static void fingerprint(void) { answers |= bahmorist_fingerprint(salt, 16, table, sizeof table, out, 32, &place); }
static void read_at(void) { answers |= bahmorist_read_at(table, sizeof table, 7, &kind, &place); }
static void counted(void) { answers |= bahmorist_count(table, sizeof table, &count, &place); }
static void write_at(void) { answers |= bahmorist_write_at(room, sizeof room, 0, 5, message, 32, &place); }

static size_t taken(void (*call)(void))
{
    size_t untouched = 0;
    on_painted_stack(call);
    while (untouched < sizeof stack && stack[untouched] == PAINT) {
        untouched++;
    }
    return sizeof stack - untouched;
}

static size_t most(void (*const *calls)(void), size_t n)
{
    size_t found = 0, own = taken(nothing);
    for (size_t i = 0; i < n; i++) {
        size_t one = taken(calls[i]) - own;
        found = found < one ? one : found;
    }
    return found;
}

int main(void)
{
    static void (*const of_tags[])(void) = {make, check, make_short, verify};
    static void (*const others[])(void) = {digest, digest_in, digest_bits, rounds, rounds_back, rounds_wide, rounds_back_wide, compress, compress_in,
                                           compress_wide, fingerprint, read_at, counted, write_at};
    size_t tags = most(of_tags, sizeof of_tags / sizeof *of_tags), rest = most(others, sizeof others / sizeof *others);
    if (answers != 0) {
        fprintf(stderr, "a call was refused\n");
        return 1;
    }
    printf("%zu %zu\n", tags, rest);
    return 0;
}
