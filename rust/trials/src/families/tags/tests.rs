use super::*;
use crate::implementation::{Hmac, Implementation, LIBRARY};

/// What the family says of an implementation with another tag.
fn said(hmac: Hmac) -> String {
    let wrong = Implementation { hmac, ..LIBRARY };
    FAMILY.tried(wrong, 1, Some(1)).unwrap_err()
}

/// A key that goes through the digest, where its length says so.
fn digested(bits: u64, salt: &[u8], key: &[u8], when: bool) -> Vec<u8> {
    let mut digest = vec![0; bits as usize / 8];
    match when {
        true => assert_eq!((LIBRARY.digest)(bits, salt, key, &mut digest), 0),
        false => digest = key.to_vec(),
    }
    digest
}

#[test]
fn the_library_passes_and_is_counted() {
    let agreed = FAMILY.tried(LIBRARY, 1, Some(50));
    assert_eq!(agreed, Ok(49 * 6 * 12 + 50));
}

#[test]
fn a_key_of_just_a_block_that_is_digested_is_seen() {
    let said = said(|bits, salt, key, message, out| {
        let key = digested(bits, salt, key, key.len() == draw::block(bits));
        (LIBRARY.hmac)(bits, salt, &key, message, out)
    });
    // It fails first for 128 bits under the fourth of the keys, and the shortest
    // that still fails is just a block.
    assert!(said.starts_with("case 37: tag, 128 bits, "), "{said}");
    assert!(said.contains("key of 192 bytes "), "{said}");
    assert!(said.contains("message empty, "), "{said}");
}

#[test]
fn a_long_key_that_is_cut_is_seen() {
    let said = said(|bits, salt, key, message, out| {
        let key = &key[..key.len().min(draw::block(bits))];
        (LIBRARY.hmac)(bits, salt, key, message, out)
    });
    assert!(said.contains("key of 193 bytes "), "{said}");
}

#[test]
fn the_block_of_the_other_family_is_seen() {
    let said = said(|bits, salt, key, message, out| {
        let key = digested(bits, salt, key, key.len() > 128);
        (LIBRARY.hmac)(bits, salt, &key, message, out)
    });
    assert!(said.contains("tag, 128 bits, key of 129 bytes "), "{said}");
}

#[test]
fn a_digest_without_a_key_is_seen() {
    let said = said(|bits, salt, key, message, out| {
        let joined = [key, message].concat();
        (LIBRARY.digest)(bits, salt, &joined, out)
    });
    assert!(
        said.starts_with("case 1: tag, 128 bits, key empty, "),
        "{said}"
    );
}

#[test]
fn a_byte_written_behind_the_tag_is_seen() {
    let said = said(|bits, salt, key, message, out| {
        let number = (LIBRARY.hmac)(bits, salt, key, message, out);
        if let Some(byte) = out.get_mut(bits as usize / 8) {
            *byte = !*byte;
        }
        number
    });
    assert!(said.contains("lent byte 16 became "), "{said}");
}
