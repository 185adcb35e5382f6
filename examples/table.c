/* Writes a steering table, reads it back and prints its fingerprint.
 *
 *     cc -std=c99 -I include examples/table.c target/native/libbahmorist.a -o target/table && target/table
 *
 * Prints the records as list_table does, a line for each with its place, its kind and its body in hex, and then their count; the fingerprint; and
 * what is refused, in words. The status is 1 where something else is refused, or that is not. */
#include "bahmorist.h"
#include <stdio.h>

/* A node's address, and its join floors at 2.4 and at 5 GHz: 60 and 65, the most significant byte first. */
static const uint8_t address[BAHMORIST_NODE_BYTES] = {0xa2, 0, 0, 0, 0, 7};
static const uint8_t low[BAHMORIST_FLOOR_BYTES] = {0, 60}, high[BAHMORIST_FLOOR_BYTES] = {0, 65};

static const uint8_t salt[BAHMORIST_SALT_BYTES] = {0, 1, 2, 3, 4, 5, 6, 7, 8, 9, 10, 11, 12, 13, 14, 15};

static void print(const uint8_t *bytes, size_t count)
{
    for (size_t i = 0; i < count; i++) {
        printf("%02x", (unsigned)bytes[i]);
    }
    printf("\n");
}

static int refused(uint8_t refusal)
{
    fprintf(stderr, "refused: %s\n", bahmorist_refusal_text(refusal));
    return 1;
}

/* Writes the records one behind the other; *length becomes that of the table. */
static uint8_t write_table(uint8_t *room, size_t room_len, uint64_t *length)
{
    uint8_t refusal = bahmorist_write_at(room, room_len, 0, BAHMORIST_KIND_NODE, address, sizeof address, length);

    if (refusal == BAHMORIST_DONE) {
        refusal = bahmorist_write_at(room, room_len, *length, BAHMORIST_KIND_FLOOR_LOW, low, sizeof low, length);
    }
    if (refusal == BAHMORIST_DONE) {
        refusal = bahmorist_write_at(room, room_len, *length, BAHMORIST_KIND_FLOOR_HIGH, high, sizeof high, length);
    }
    return refusal;
}

/* Prints each record: its body stands between its kind byte and the place behind it. */
static uint8_t list(const uint8_t *table, size_t table_len)
{
    uint64_t place = 0, next, count;
    uint8_t kind;
    uint8_t refusal = bahmorist_read_at(table, table_len, place, &kind, &next);

    while (refusal == BAHMORIST_DONE && kind != 0) {
        printf("%llu %02x ", (unsigned long long)place, (unsigned)kind);
        print(table + place + 1, (size_t)(next - place - 1));
        place = next;
        refusal = bahmorist_read_at(table, table_len, place, &kind, &next);
    }
    if (refusal == BAHMORIST_DONE) {
        refusal = bahmorist_count(table, table_len, &count, &place);
    }
    if (refusal == BAHMORIST_DONE) {
        printf("records %llu\n", (unsigned long long)count);
    }
    return refusal;
}

int main(void)
{
    uint8_t room[13], fingerprint[BAHMORIST_FINGERPRINT_BYTES];
    uint64_t length, place;
    uint8_t refusal = write_table(room, sizeof room, &length);

    if (refusal != BAHMORIST_DONE) {
        return refused(refusal);
    }
    refusal = list(room, (size_t)length);
    if (refusal != BAHMORIST_DONE) {
        return refused(refusal);
    }
    refusal = bahmorist_fingerprint(salt, sizeof salt, room, (size_t)length, fingerprint, sizeof fingerprint, &place);
    if (refusal != BAHMORIST_DONE) {
        return refused(refusal);
    }
    print(fingerprint, sizeof fingerprint);

    /* The room is full. */
    refusal = bahmorist_write_at(room, sizeof room, length, BAHMORIST_KIND_FLOOR_LOW, low, sizeof low, &place);
    printf("a fourth record: refused, %s\n", bahmorist_refusal_text(refusal));
    return refusal != BAHMORIST_REFUSED_ROOM;
}
