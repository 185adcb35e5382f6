mod sha1;

use super::*;
use crate::hex;
use sha1::sha1;

const SALT: Word = [9; 16];

/// Digest lengths at the edges of both families, and their blocks.
const LENGTHS: [(u64, usize); 4] = [(128, 192), (256, 192), (264, 128), (512, 128)];

/// Bytes that differ from their neighbours.
fn bytes(length: usize) -> Vec<u8> {
    (0..length).map(|i| (7 * i + 3) as u8).collect()
}

/// Published with FIPS 198, over SHA-1: keys of just a block, of the hash's
/// length, longer than a block and between, the last tag cut to 12 bytes; and
/// with RFC 2202, where key and message are both longer than a block.
#[test]
fn published_tags_over_another_hash() {
    let range = |first: u8, last: u8| (first..=last).collect::<Vec<u8>>();
    let long = b"Test Using Larger Than Block-Size Key and Larger Than One Block-Size Data";
    for (key, message, published) in [
        (
            range(0x00, 0x3f),
            &b"Sample #1"[..],
            "4f4ca3d5d68ba7cc0a1208c9c61e9c5da0403c0a",
        ),
        (
            range(0x30, 0x43),
            b"Sample #2",
            "0922d3405faa3d194f82a45830737d5cc6c75d24",
        ),
        (
            range(0x50, 0xb3),
            b"Sample #3",
            "bcf41eab8bb2d802f3d05caf7cb092ecf8d1a3aa",
        ),
        (range(0x70, 0xa0), b"Sample #4", "9ea886efe268dbecce420c75"),
        (
            b"Jefe".to_vec(),
            b"what do ya want for nothing?",
            "effcdf6ae5eb2fa2d27416d5f184df9c259a7c79",
        ),
        (
            vec![0xaa; 80],
            long,
            "e8e99d0f45237d786d6bbaa7965c7808bbff1a91",
        ),
    ] {
        let blocks = KeyBlocks::by(sha1, sha1::BLOCK, &key);
        let tag = by(sha1, &blocks, message);
        assert!(hex::encode(&tag).starts_with(published));
    }
}

/// The blocks written out, with nothing but digests in between.
#[test]
fn a_tag_is_two_digests() {
    for (bits, b) in LENGTHS {
        for length in [0, 1, b - 1, b] {
            let key = bytes(length);
            for message in [&b""[..], b"abc", &bytes(2 * b)] {
                let mut inner = vec![0x36; b];
                let mut outer = vec![0x5c; b];
                for place in 0..length {
                    inner[place] ^= key[place];
                    outer[place] ^= key[place];
                }
                inner.extend(message);
                outer.extend(digest(DoublePipe, bits, &SALT, &inner));
                let tag = digest(DoublePipe, bits, &SALT, &outer);
                assert_eq!(hmac(bits, &SALT, &key, message), tag);
                assert_eq!(tag.len() as u64, bits / 8);
            }
        }
    }
}

#[test]
fn zeros_behind_a_key_make_no_difference_up_to_a_block() {
    for (bits, b) in LENGTHS {
        let tag = |key: &[u8]| hmac(bits, &SALT, key, b"abc");
        let mut key = bytes(b - 9);
        let short = tag(&key);
        key.resize(b - 1, 0);
        assert_eq!(tag(&key), short);
        key.push(0);
        assert_eq!(tag(&key), short);
        key.push(0);
        assert_ne!(tag(&key), short);
        assert_eq!(tag(&[]), tag(&vec![0; b]));
    }
}

#[test]
fn only_a_key_that_is_longer_than_a_block_is_digested() {
    for (bits, b) in LENGTHS {
        let tag = |key: &[u8]| hmac(bits, &SALT, key, b"abc");
        for length in [b + 1, b + 2, 1000] {
            let key = bytes(length);
            assert_eq!(tag(&key), tag(&digest(DoublePipe, bits, &SALT, &key)));
            assert_ne!(tag(&key), tag(&key[..b]));
        }
        for length in [b - 1, b] {
            let key = bytes(length);
            assert_ne!(tag(&key), tag(&digest(DoublePipe, bits, &SALT, &key)));
        }
    }
}

#[test]
fn every_input_counts() {
    for (bits, b) in LENGTHS {
        let (key, message) = (bytes(b), bytes(b + 5));
        let tag = hmac(bits, &SALT, &key, &message);
        for place in [0, b - 1] {
            let mut other = key.clone();
            other[place] ^= 1;
            assert_ne!(hmac(bits, &SALT, &other, &message), tag);
        }
        for place in [0, b + 4] {
            let mut other = message.clone();
            other[place] ^= 1;
            assert_ne!(hmac(bits, &SALT, &key, &other), tag);
        }
        let mut other = SALT;
        other[15] ^= 1;
        assert_ne!(hmac(bits, &other, &key, &message), tag);
    }
    // A byte that goes over from the key to the message is another case.
    assert_ne!(
        hmac(256, &SALT, b"keya", b"bc"),
        hmac(256, &SALT, b"key", b"abc")
    );
}

/// What `examples/join.c` prints first; the gate looks it up here.
#[test]
fn the_tag_of_the_example_in_c() {
    let tag = hmac(256, &[0; 16], &[0x0b; 16], b"join a2000007");
    assert_eq!(
        hex::encode(&tag),
        "4b11a1cb7de137936d33f94ddc3bc0dec777cf58653e56eb30cfb935998b4720"
    );
}

#[test]
fn shorter_tags_are_no_cuts_of_longer_ones() {
    let tag = |bits| hmac(bits, &SALT, b"key", b"abc");
    assert_ne!(tag(248), tag(256)[..31]);
    assert_ne!(tag(504), tag(512)[..63]);
}

#[test]
#[should_panic(expected = "no digest has 260 bits")]
fn other_lengths_are_a_mistake_of_the_caller() {
    hmac(260, &SALT, b"key", b"");
}
