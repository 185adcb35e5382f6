//! The C functions as `include/bahmorist.h` declares them.
//!
//! # Safety
//!
//! The header asks two things of a caller, and slices give both.
//!
//! A pointer and a length name that many bytes, which nothing else writes during
//! the call: both are taken from one slice, whose bytes are all readable, and
//! writable where the slice is `&mut`. Rust's rules on references keep others
//! from writing.
//!
//! Memory that a function writes overlaps none of its other arguments: it comes
//! from a `&mut` slice or reference, which nothing else overlaps while it lives.
//!
//! An empty slice has a pointer too, never null and pointing nowhere. The header
//! allows any pointer where the length is 0.
//!
//! The functions keep no pointer and have no state, so that calls from several
//! threads at once are as good as one after the other.

extern "C" {
    pub fn bahmorist_digest(
        bits: u64,
        salt: *const u8,
        salt_len: usize,
        message: *const u8,
        message_len: usize,
        out: *mut u8,
        out_len: usize,
    ) -> u8;

    pub fn bahmorist_digest_in(
        mode: u8,
        bits: u64,
        salt: *const u8,
        salt_len: usize,
        message: *const u8,
        message_len: usize,
        out: *mut u8,
        out_len: usize,
    ) -> u8;

    pub fn bahmorist_digest_bits(
        mode: u8,
        bits: u64,
        salt: *const u8,
        salt_len: usize,
        message: *const u8,
        message_len: usize,
        message_bits: u64,
        out: *mut u8,
        out_len: usize,
    ) -> u8;

    pub fn bahmorist_hmac(
        bits: u64,
        salt: *const u8,
        salt_len: usize,
        key: *const u8,
        key_len: usize,
        message: *const u8,
        message_len: usize,
        out: *mut u8,
        out_len: usize,
    ) -> u8;

    pub fn bahmorist_hmac_check(
        bits: u64,
        salt: *const u8,
        salt_len: usize,
        key: *const u8,
        key_len: usize,
        message: *const u8,
        message_len: usize,
        tag: *const u8,
        tag_len: usize,
        yes: *mut u8,
    ) -> u8;

    pub fn bahmorist_hmac_verify(
        bits: u64,
        salt: *const u8,
        salt_len: usize,
        key: *const u8,
        key_len: usize,
        message: *const u8,
        message_len: usize,
        tag: *const u8,
        tag_len: usize,
    ) -> u8;

    pub fn bahmorist_same(a: *const u8, a_len: usize, b: *const u8, b_len: usize) -> u8;

    pub fn bahmorist_version() -> u32;

    pub fn bahmorist_rounds(
        square: *mut u8,
        square_len: usize,
        rounds: u64,
        counter: u64,
        salt: *const u8,
        salt_len: usize,
    ) -> u8;

    pub fn bahmorist_rounds_back(
        square: *mut u8,
        square_len: usize,
        rounds: u64,
        counter: u64,
        salt: *const u8,
        salt_len: usize,
    ) -> u8;

    pub fn bahmorist_rounds_wide(
        square: *mut u8,
        square_len: usize,
        rounds: u64,
        low: u64,
        high: u64,
        salt: *const u8,
        salt_len: usize,
    ) -> u8;

    pub fn bahmorist_rounds_back_wide(
        square: *mut u8,
        square_len: usize,
        rounds: u64,
        low: u64,
        high: u64,
        salt: *const u8,
        salt_len: usize,
    ) -> u8;

    pub fn bahmorist_compress(
        chaining: *mut u8,
        chaining_len: usize,
        block: *const u8,
        block_len: usize,
        counter: u64,
        salt: *const u8,
        salt_len: usize,
    ) -> u8;

    pub fn bahmorist_compress_in(
        mode: u8,
        chaining: *mut u8,
        chaining_len: usize,
        block: *const u8,
        block_len: usize,
        counter: u64,
        salt: *const u8,
        salt_len: usize,
    ) -> u8;

    pub fn bahmorist_compress_wide(
        mode: u8,
        chaining: *mut u8,
        chaining_len: usize,
        block: *const u8,
        block_len: usize,
        low: u64,
        high: u64,
        salt: *const u8,
        salt_len: usize,
    ) -> u8;

    pub fn bahmorist_fingerprint(
        salt: *const u8,
        salt_len: usize,
        table: *const u8,
        table_len: usize,
        out: *mut u8,
        out_len: usize,
        place: *mut u64,
    ) -> u8;

    pub fn bahmorist_read_at(
        table: *const u8,
        table_len: usize,
        place: u64,
        kind: *mut u8,
        next: *mut u64,
    ) -> u8;

    pub fn bahmorist_count(
        table: *const u8,
        table_len: usize,
        count: *mut u64,
        place: *mut u64,
    ) -> u8;

    pub fn bahmorist_write_at(
        room: *mut u8,
        room_len: usize,
        place: u64,
        kind: u8,
        body: *const u8,
        body_len: usize,
        next: *mut u64,
    ) -> u8;
}
