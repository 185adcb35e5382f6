/* Verifies a forged message on a stack of its own and looks there for what a forger wants: the right tag, and the inner chaining value behind the
 * key's block, with which any message could be tagged but for the outer one. Without the recipe of include/bahmorist.h both are found, and with it
 * neither. RECIPE is a file that has the recipe, as it stands there.
 *
 *     cc -std=gnu99 -O2 -DRECIPE='"FILE"' -I include tests/wiped_stack.c target/native/libbahmorist.a -o target/wiped_stack && target/wiped_stack
 *
 * Prints what was found. The status is 0 where that is as it should be; that there is something to wipe was seen on x86-64 and is asked for there
 * alone, since another compiler may lay its frames elsewhere. */
#define _XOPEN_SOURCE 700
#include "bahmorist.h"
#include RECIPE
#include "painted_stack.h"
#include <stdio.h>

static const uint8_t salt[BAHMORIST_SALT_BYTES] = {0};
static const uint8_t key[32] = {0xd1, 0x5c, 0x09, 0xe7, 0x33, 0x8a, 0x60, 0xbf, 0x12, 0x4d, 0x97, 0xc8, 0x2e, 0x71, 0xa6, 0x05};
static const uint8_t message[] = "join a20000008";
static const uint8_t forged[32] = {0};

static uint8_t answer;

static void verify(void)
{
    answer = bahmorist_hmac_verify(256, salt, sizeof salt, key, sizeof key, message, sizeof message, forged, sizeof forged);
}

static void verify_and_wipe(void)
{
    answer = bahmorist_hmac_verify(256, salt, sizeof salt, key, sizeof key, message, sizeof message, forged, sizeof forged);
    wipe_stack();
}

/* Whether the stack holds these bytes after the work was done on it. */
static int holds(void (*work)(void), const uint8_t *bytes, size_t count)
{
    on_painted_stack(work);
    for (size_t place = 0; place + count <= sizeof stack; place++) {
        if (memcmp(stack + place, bytes, count) == 0) {
            return 1;
        }
    }
    return 0;
}

static const char *told(int found)
{
    return found ? "found" : "not found";
}

int main(void)
{
    uint8_t tag[32], block[192], chaining[64] = {0};
    int kept_tag, kept_chaining, wiped_tag, wiped_chaining;

    if (bahmorist_hmac(256, salt, sizeof salt, key, sizeof key, message, sizeof message, tag, sizeof tag) != BAHMORIST_DONE) {
        return 1;
    }
    for (size_t i = 0; i < sizeof block; i++) {
        block[i] = (uint8_t)(0x36 ^ (i < sizeof key ? key[i] : 0));
    }
    for (size_t word = 0; word < sizeof chaining; word += 16) {
        chaining[word + 1] = 256 >> 8;
    }
    if (bahmorist_compress(chaining, sizeof chaining, block, sizeof block, 8 * sizeof block, salt, sizeof salt) != BAHMORIST_DONE) {
        return 1;
    }
    kept_tag = holds(verify, tag, sizeof tag);
    kept_chaining = holds(verify, chaining, sizeof chaining);
    wiped_tag = holds(verify_and_wipe, tag, sizeof tag);
    wiped_chaining = holds(verify_and_wipe, chaining, sizeof chaining);
    printf("the right tag: %s, and once wiped %s\n", told(kept_tag), told(wiped_tag));
    printf("the inner chaining value: %s, and once wiped %s\n", told(kept_chaining), told(wiped_chaining));
#ifdef __x86_64__
    if (!kept_tag || !kept_chaining) {
        return 1;
    }
#endif
    return !(answer == BAHMORIST_REFUSED_TAG && !wiped_tag && !wiped_chaining);
}
