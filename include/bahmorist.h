/* ECHO 2.0 digests, its round mixing forward and backward, steering tables read, written and fingerprinted, and tags of messages under a key.
 *
 * Messages are bytes, but for bahmorist_digest_bits, which takes the length in bits: a message may end within a byte. The most significant bit of
 * a byte comes first, and bits of the last byte that are not used are zero.
 *
 * Digests and compression come in two modes (enum bahmorist_mode). ECHO itself is double-pipe: its chaining value is at least twice as long as
 * the digest. Single-pipe, section 5 of the paper, halves the chaining value and takes longer blocks instead, for less state and less time.
 * Functions that take no mode are double-pipe.
 *
 * Rounds and compression start at a counter. Functions that take it in 64 bits refuse those near the end of them; those that end in _wide take it in
 * 128 bits, as two halves, and refuse none.
 *
 * Link target/native/libbahmorist.a, which `tools/library` makes for x86-64 Linux, or target/aarch64/libbahmorist.a, which
 * `tools/library aarch64` makes for Linux on Arm. The library keeps nothing between calls, allocates nothing and may be called from
 * several threads at once. As it is compiled today no call takes more than 8,500 bytes of stack, and those that make and check tags no more
 * than 17,000, what the C library's memcpy and memset take not counted; 4,096 of them are tables, which a build for a task with little stack does
 * without (docs/DECISIONS.md, "Two paths"). The code for x86-64 uses the SSE2 registers, which a kernel has to save around a call.
 *
 * How long a call takes depends on the data, keys included: the substitution is in tables, and which entries are read depends on what is
 * worked on. So the tag functions are not for a node on which an attacker can run code beside them or measure how long they take. Nothing is
 * erased: what was worked on stays on the stack until something else is written there: parts of a message or a key, inner chaining values, and after
 * bahmorist_hmac_verify and bahmorist_hmac_check the right tag, of a forged message too. A caller that minds wipes as much stack as a call has
 * taken, by a function that it calls next, from where it made the call; no compiler may take it apart or leave it out:
 *
 *     __attribute__((noinline)) static void wipe_stack(void)
 *     {
 *         volatile uint8_t room[BAHMORIST_MOST_STACK];
 *
 *         for (size_t i = 0; i < sizeof room; i++) {
 *             room[i] = 0;
 *         }
 *     }
 *
 * Registers, and what a compiler has copied of the caller's own, are not wiped by that.
 *
 * Each function but bahmorist_same and bahmorist_version answers 0, or the number that it refuses by (enum bahmorist_refusal), which
 * bahmorist_refusal_text says in words. Where several apply the lowest is given, but between 9 and 10 that of the record nearer the table's front. A
 * function that refuses writes to no buffer. What a function answers by a pointer to one number is written on every call, in a refusal too: *place,
 * *kind, *next and *count of those over tables, and *yes of bahmorist_hmac_check. What stands in a buffer after a refusal is no digest, no tag and no
 * table, so a compiler that can warns where an answer is not looked at.
 *
 * What a caller must give: a pointer and a length name that many bytes, which nothing else writes during the call. Memory that a function
 * writes (a pointer without const) overlaps none of its other arguments. Where a length is 0 nothing is read or written there, and any
 * pointer will do, NULL included. Nothing checks these; every number and every length is checked by the function itself. */
#ifndef BAHMORIST_H
#define BAHMORIST_H

#include <stddef.h>
#include <stdint.h>

#define BAHMORIST_VERSION "0.8.0"
#define BAHMORIST_VERSION_NUMBER 800 /* 10,000 times the first part, 100 times the second and the third, added up */

#define BAHMORIST_SALT_BYTES 16
#define BAHMORIST_SQUARE_BYTES 256
#define BAHMORIST_FINGERPRINT_BYTES 32
#define BAHMORIST_MOST_DIGEST_BYTES 64
#define BAHMORIST_MOST_TABLE_BYTES 4096

/* What is wiped after a call: more than any takes. bahmorist_hmac_check and bahmorist_hmac_verify take the most, 16,896 bytes
 * in the archive for x86-64. */
#define BAHMORIST_MOST_STACK 18432

/* Why a call was refused. No function here takes a session, so that 3 and 16, which are for those that do, are left out, nor a node's address as a
 * number, so that 12, which is for that, is left out too. 11 is unused and stays so, and 13 to 15 and 18 are not in use. */
enum bahmorist_refusal {
    BAHMORIST_DONE = 0,
    BAHMORIST_REFUSED_DIGEST_LENGTH = 1, /* the digest length is not a multiple of 8 from 128 to 512 */
    BAHMORIST_REFUSED_SALT = 2,          /* the salt is not 16 bytes */
    BAHMORIST_REFUSED_MESSAGE = 4,       /* the message is over 2^64 - 161 bits, which is over 2^61 - 21 whole bytes; for a tag, the key is, or one
                                            block and the message are */
    BAHMORIST_REFUSED_ROOM = 5,          /* the output room is under bits / 8 bytes, or under 32 for a fingerprint; the room from the place on is too
                                            short for the record */
    BAHMORIST_REFUSED_SHAPE = 6,         /* the mode is neither 0 nor 1; chaining and block sizes are not the mode's: 64 and 192 or 128 and 128
                                            in double-pipe, 32 and 224 or 64 and 192 in single-pipe; the square is not 256 bytes; the round
                                            count is not 8 or 10; the message is not as many bytes as its bits over 8, rounded up; the reading
                                            place is past the table's end */
    BAHMORIST_REFUSED_COUNTER = 7,       /* the starting counter is above 2^64 - 161; from functions alone that take it in 64 bits, never from those
                                            that end in _wide */
    BAHMORIST_REFUSED_TABLE = 8,         /* the table is over 4,096 bytes */
    BAHMORIST_REFUSED_KIND = 9,          /* a kind that no record has, in the table or to be written */
    BAHMORIST_REFUSED_CUT_SHORT = 10,    /* record of the table cut short; a body to be written is not as long as its kind's */
    BAHMORIST_REFUSED_SET_BITS = 17,     /* a bit of the message's last byte is set behind the last one that is used */
    BAHMORIST_REFUSED_TAG = 19           /* the tag is not the message's, all of it and nothing else; from bahmorist_hmac_verify alone */
};

/* How long chaining value and block are, in bytes, for digests up to 256 bits and above: with 8 rounds and with 10. */
enum bahmorist_mode {
    BAHMORIST_DOUBLE_PIPE = 0, /* 64 and 192; 128 and 128 */
    BAHMORIST_SINGLE_PIPE = 1  /* 32 and 224; 64 and 192 */
};

/* A record of a steering table is one of these kind bytes and a body of so many bytes, its numbers with the most significant byte first. */
enum bahmorist_kind {
    BAHMORIST_KIND_NODE = 1,       /* node address */
    BAHMORIST_KIND_FLOOR_LOW = 2,  /* join floor at 2.4 GHz */
    BAHMORIST_KIND_FLOOR_HIGH = 3, /* join floor at 5 GHz */
    BAHMORIST_KIND_HOLD = 4,       /* hold time */
    BAHMORIST_KIND_NOTE = 5        /* note: four numbers of 8 bytes */
};
#define BAHMORIST_NODE_BYTES 6
#define BAHMORIST_FLOOR_BYTES 2
#define BAHMORIST_HOLD_BYTES 4
#define BAHMORIST_NOTE_BYTES 32

/* A warning where an answer is not looked at, from a compiler that can. */
#if defined(__cplusplus) && __cplusplus >= 201703L
#define BAHMORIST_LOOK_AT [[nodiscard]]
#elif !defined(__cplusplus) && defined(__STDC_VERSION__) && __STDC_VERSION__ >= 202311L
#define BAHMORIST_LOOK_AT [[nodiscard]]
#elif defined(__GNUC__)
#define BAHMORIST_LOOK_AT __attribute__((warn_unused_result))
#else
#define BAHMORIST_LOOK_AT
#endif

#ifdef __cplusplus
extern "C" {
#endif

/* Puts the digest of the message, bits / 8 bytes, at the front of out; bytes behind it stay. Refuses by 1, 2, 4 or 5. The salt is sixteen
 * zeros where there is none. */
BAHMORIST_LOOK_AT uint8_t bahmorist_digest(uint64_t bits, const uint8_t *salt, size_t salt_len, const uint8_t *message, size_t message_len,
                                           uint8_t *out, size_t out_len);

/* The same in a mode of enum bahmorist_mode, of which 0 gives what bahmorist_digest gives. Refuses by 1, 2, 4, 5 or 6. */
BAHMORIST_LOOK_AT uint8_t bahmorist_digest_in(uint8_t mode, uint64_t bits, const uint8_t *salt, size_t salt_len, const uint8_t *message,
                                              size_t message_len, uint8_t *out, size_t out_len);

/* The same of a message of message_bits bits, which end within the last of its message_len bytes or with it: message_len is message_bits / 8,
 * rounded up, and bits behind the last one are zero. Where message_bits is 8 * message_len, it gives what bahmorist_digest_in gives. Refuses by 1,
 * 2, 4, 5, 6 or 17. */
BAHMORIST_LOOK_AT uint8_t bahmorist_digest_bits(uint8_t mode, uint64_t bits, const uint8_t *salt, size_t salt_len, const uint8_t *message,
                                                size_t message_len, uint64_t message_bits, uint8_t *out, size_t out_len);

/* Rewrites the square by 8 or 10 of ECHO's rounds, whose inner counter starts at counter. Refuses by 2, 6 or 7. */
BAHMORIST_LOOK_AT uint8_t bahmorist_rounds(uint8_t *square, size_t square_len, uint64_t rounds, uint64_t counter, const uint8_t *salt,
                                           size_t salt_len);

/* Undoes bahmorist_rounds with the same rounds, counter and salt. Refuses by 2, 6 or 7. */
BAHMORIST_LOOK_AT uint8_t bahmorist_rounds_back(uint8_t *square, size_t square_len, uint64_t rounds, uint64_t counter, const uint8_t *salt,
                                                size_t salt_len);

/* Like bahmorist_rounds, with an inner counter of 128 bits that starts at high * 2^64 + low: the first key is all sixteen bytes of it, the least
 * significant one first, and counting past the lower half goes over into the upper, modulo 2^128 (section 3.1 of the paper). Where high is 0 and
 * bahmorist_rounds does not refuse low, both give the same. Refuses by 2 or 6. */
BAHMORIST_LOOK_AT uint8_t bahmorist_rounds_wide(uint8_t *square, size_t square_len, uint64_t rounds, uint64_t low, uint64_t high,
                                                const uint8_t *salt, size_t salt_len);

/* Undoes bahmorist_rounds_wide with the same rounds, low, high and salt. Refuses by 2 or 6. */
BAHMORIST_LOOK_AT uint8_t bahmorist_rounds_back_wide(uint8_t *square, size_t square_len, uint64_t rounds, uint64_t low, uint64_t high,
                                                     const uint8_t *salt, size_t salt_len);

/* Rewrites the chaining value to the one after this block, with 8 rounds where it is 64 bytes and 10 where it is 128. Refuses by 2, 6 or
 * 7. */
BAHMORIST_LOOK_AT uint8_t bahmorist_compress(uint8_t *chaining, size_t chaining_len, const uint8_t *block, size_t block_len, uint64_t counter,
                                             const uint8_t *salt, size_t salt_len);

/* The same in a mode of enum bahmorist_mode, of which 0 gives what bahmorist_compress gives; in single-pipe with 8 rounds where the chaining
 * value is 32 bytes and 10 where it is 64. Refuses by 2, 6 or 7. */
BAHMORIST_LOOK_AT uint8_t bahmorist_compress_in(uint8_t mode, uint8_t *chaining, size_t chaining_len, const uint8_t *block, size_t block_len,
                                                uint64_t counter, const uint8_t *salt, size_t salt_len);

/* Like bahmorist_compress_in, with an inner counter of 128 bits that starts at high * 2^64 + low, as in bahmorist_rounds_wide. Where high is 0 and
 * bahmorist_compress_in does not refuse low, both give the same. Refuses by 2 or 6. */
BAHMORIST_LOOK_AT uint8_t bahmorist_compress_wide(uint8_t mode, uint8_t *chaining, size_t chaining_len, const uint8_t *block, size_t block_len,
                                                  uint64_t low, uint64_t high, const uint8_t *salt, size_t salt_len);

/* Puts the fingerprint of a steering table, 32 bytes, at the front of out; bytes behind it stay. It is the 256-bit digest of the whole table,
 * kind bytes included. Refuses by 2, 5, 8, 9 or 10. place, which is not NULL, gets the place of the record's kind byte with 9 and 10, and
 * else 0. */
BAHMORIST_LOOK_AT uint8_t bahmorist_fingerprint(const uint8_t *salt, size_t salt_len, const uint8_t *table, size_t table_len, uint8_t *out,
                                                size_t out_len, uint64_t *place);

/* Reads what stands at a place of a steering table: *kind gets the record's kind byte and *next the place behind the record, whose body stands
 * between the two. At the table's end *kind gets 0 and *next the place itself. What stands before and behind the record is not looked at. Refuses
 * by 6, 8, 9 or 10; *kind is 0 then, and *next the place of the kind byte with 9 and 10, and else 0. kind and next are not NULL, and are written on
 * every call. So all records are read from place 0 on, each from the *next of the one before, while the answer is 0 and *kind is not. */
BAHMORIST_LOOK_AT uint8_t bahmorist_read_at(const uint8_t *table, size_t table_len, uint64_t place, uint8_t *kind, uint64_t *next);

/* Counts the records of a steering table: *count gets their number, and *place 0. Refuses by 8, 9 or 10; *count is 0 then, and *place the place of
 * the record's kind byte with 9 and 10, and else 0. count and place are not NULL, and are written on every call. */
BAHMORIST_LOOK_AT uint8_t bahmorist_count(const uint8_t *table, size_t table_len, uint64_t *count, uint64_t *place);

/* Puts a record, its kind byte and then its body, at a place of the room; bytes outside of it stay. *next gets the place behind it, where the next
 * record goes. Refuses by 5, 9 or 10; *next is 0 then. next is not NULL, and is written on every call. A room may be longer than a table: what is
 * written past its 4,096 bytes is refused by the functions that read. */
BAHMORIST_LOOK_AT uint8_t bahmorist_write_at(uint8_t *room, size_t room_len, uint64_t place, uint8_t kind, const uint8_t *body, size_t body_len,
                                             uint64_t *next);

/* Puts the tag of the message under the key, bits / 8 bytes, at the front of out; bytes behind it stay. It is HMAC by FIPS 198-1 over the ECHO
 * digest of so many bits under the salt, in double-pipe, whose blocks are 192 bytes up to 256 bits and 128 above. Refuses by 1, 2, 4 or 5.
 *
 * A key may have any length. An empty one is taken, and its tags are no secret: anyone can make them. Keys that differ may have the same tags: a key
 * and the same with zero bytes behind it, up to one block; and a key longer than a block and its digest. So let the keys of a product have one
 * length, up to a block: then different keys go into a tag as different blocks. */
BAHMORIST_LOOK_AT uint8_t bahmorist_hmac(uint64_t bits, const uint8_t *salt, size_t salt_len, const uint8_t *key, size_t key_len,
                                         const uint8_t *message, size_t message_len, uint8_t *out, size_t out_len);

/* Verifies a tag: the answer is 0 where tag is all bits / 8 bytes of the message's tag under the key and nothing else, and there alone. Any other
 * tag, of whatever length, is refused by 19. Where the length is right, every byte of the tag is looked at, whatever the first ones are. Refuses
 * by 1, 2, 4 or 19. */
BAHMORIST_LOOK_AT uint8_t bahmorist_hmac_verify(uint64_t bits, const uint8_t *salt, size_t salt_len, const uint8_t *key, size_t key_len,
                                                const uint8_t *message, size_t message_len, const uint8_t *tag, size_t tag_len);

/* AN ANSWER OF 0 DOES NOT SAY THAT THE TAG IS RIGHT, only that there is an answer in *yes: a caller that looks at the answer alone accepts every
 * forged tag. bahmorist_hmac_verify above has no such trap.
 *
 * Checks a tag: *yes becomes 1 where bahmorist_hmac_verify answers 0, and else 0. Refuses by 1, 2 or 4, and *yes is 0 then. yes is not NULL, and
 * is written on every call. */
BAHMORIST_LOOK_AT uint8_t bahmorist_hmac_check(uint64_t bits, const uint8_t *salt, size_t salt_len, const uint8_t *key, size_t key_len,
                                               const uint8_t *message, size_t message_len, const uint8_t *tag, size_t tag_len, uint8_t *yes);

/* 1 where the two strings of bytes are the same, and else 0: yes or no, and no refusal. Where their lengths are equal every byte is looked at,
 * whatever the first ones are: for a tag that a protocol cuts, of which memcmp would tell by its time how many bytes are right. */
BAHMORIST_LOOK_AT uint8_t bahmorist_same(const uint8_t *a, size_t a_len, const uint8_t *b, size_t b_len);

/* The version of the archive that is linked, as BAHMORIST_VERSION_NUMBER is that of this header. */
BAHMORIST_LOOK_AT uint32_t bahmorist_version(void);

#ifdef __cplusplus
}
#endif

/* `inline` where the language has it. */
#if defined(__cplusplus) || (defined(__STDC_VERSION__) && __STDC_VERSION__ >= 199901L)
#define BAHMORIST_INLINE static inline
#elif defined(__GNUC__)
#define BAHMORIST_INLINE static __inline__
#else
#define BAHMORIST_INLINE static
#endif

/* What an answer says, in words; never NULL. 3 and 16 come from the library's sessions, which have no C function yet, and 12 from its own write_at,
 * which takes a node's address as a number: bahmorist_write_at takes it as the six bytes of a body. */
BAHMORIST_INLINE const char *bahmorist_refusal_text(uint8_t number)
{
    switch (number) {
    case 0: return "done";
    case 1: return "the digest length is not a multiple of 8 from 128 to 512";
    case 2: return "the salt is not 16 bytes";
    case 3: return "the record is no session";
    case 4: return "the message, or a key, or key block and message together, is over 2^64 - 161 bits";
    case 5: return "the output room is too small";
    case 6:
        return "no mode, sizes that are not the mode's, no square, a round count other than 8 and 10, or bytes that are not those of the bits";
    case 7: return "the starting counter is above 2^64 - 161";
    case 8: return "the table is over 4096 bytes";
    case 9: return "unknown kind byte";
    case 10: return "record cut short";
    case 12: return "the address is 2^48 or more";
    case 16: return "a piece that is not empty follows a part byte";
    case 17: return "a bit is set behind the last one of the message";
    case 19: return "the tag is not the message's";
    default: return "the number of no refusal";
    }
}

#endif
