/* Tags a join message, verifies it as a node that gets it would, and turns a tampered one down.
 *
 *     cc -std=c99 -I include examples/join.c target/native/libbahmorist.a -o target/join && target/join
 *
 * Prints the 256-bit tag, and what comes of each try. The status is 1 where that is not what it must be. */
#include "bahmorist.h"
#include <stdio.h>

/* Without a salt. A key of the product's own is random, 16 bytes or more, and the keys of all nodes have one length. */
static const uint8_t salt[BAHMORIST_SALT_BYTES] = {0};
static const uint8_t key[16] = {0x0b, 0x0b, 0x0b, 0x0b, 0x0b, 0x0b, 0x0b, 0x0b, 0x0b, 0x0b, 0x0b, 0x0b, 0x0b, 0x0b, 0x0b, 0x0b};

/* Prints what comes of a message and its tag, and answers 0 where that is what is expected. */
static int verify(const char *what, const uint8_t *message, size_t message_len, const uint8_t *tag, size_t tag_len, uint8_t expected)
{
    uint8_t number = bahmorist_hmac_verify(256, salt, sizeof salt, key, sizeof key, message, message_len, tag, tag_len);

    if (number == BAHMORIST_DONE) {
        printf("%s: accepted\n", what);
    } else {
        printf("%s: turned down, %s\n", what, bahmorist_refusal_text(number));
    }
    return number != expected;
}

int main(void)
{
    uint8_t message[13] = {'j', 'o', 'i', 'n', ' ', 'a', '2', '0', '0', '0', '0', '0', '7'};
    uint8_t tag[32];
    uint8_t number = bahmorist_hmac(256, salt, sizeof salt, key, sizeof key, message, sizeof message, tag, sizeof tag);
    int wrong;

    if (number != BAHMORIST_DONE) {
        fprintf(stderr, "refused: %s\n", bahmorist_refusal_text(number));
        return 1;
    }
    for (size_t i = 0; i < sizeof tag; i++) {
        printf("%02x", (unsigned)tag[i]);
    }
    printf("\n");
    wrong = verify("as it was sent", message, sizeof message, tag, sizeof tag, BAHMORIST_DONE);
    wrong |= verify("with its tag cut", message, sizeof message, tag, sizeof tag - 1, BAHMORIST_REFUSED_TAG);
    message[12] = '8';
    wrong |= verify("tampered with", message, sizeof message, tag, sizeof tag, BAHMORIST_REFUSED_TAG);
    return wrong;
}
