/* Prints the 256-bit digest of "abc" without a salt, and what is refused.
 *
 *     cc -std=c99 -I include examples/digest.c target/native/libbahmorist.a -o target/digest && target/digest */
#include "bahmorist.h"
#include <stdio.h>

int main(void)
{
    const uint8_t salt[BAHMORIST_SALT_BYTES] = {0};
    const uint8_t message[3] = {'a', 'b', 'c'};
    uint8_t digest[32];
    uint8_t refusal = bahmorist_digest(256, salt, sizeof salt, message, sizeof message, digest, sizeof digest);

    if (refusal != BAHMORIST_DONE) {
        fprintf(stderr, "refused by %u\n", (unsigned)refusal);
        return 1;
    }
    for (size_t i = 0; i < sizeof digest; i++) {
        printf("%02x", (unsigned)digest[i]);
    }
    printf("\n");
    printf("512 bits into 32 bytes: refused by %u\n", (unsigned)bahmorist_digest(512, salt, sizeof salt, message, sizeof message, digest, sizeof digest));
    return 0;
}
