//! Tags of messages under a key, and the comparison of what is cut from them.

use crate::{answer, face, Refusal};

/// Puts the tag of a message under a key, `bits` / 8 bytes, at the front of
/// `out`; bytes behind it stay. It is HMAC of FIPS 198-1 over the digest of that
/// length and salt in double-pipe; the key may have any length. Refuses by 1, 2, 4
/// or 5.
///
/// How long a call takes may depend on the key, since the substitution goes by
/// tables: who can measure that, or shares the processor's cache, may learn
/// something of it. Nothing of a key is erased from the stack.
///
/// Keys that differ may have the same tags: a key of up to a block, 192 bytes up to
/// 256 bits and 128 above, and the same key with zero bytes behind it; and a longer
/// key and its digest. An empty key is taken, and is that of a block of zeros: whoever
/// knows that there is none can make every tag.
///
/// A message that asks to join is tagged, and the tag is looked at by [`hmac_verify`]:
///
/// ```
/// use bahmorist::{hmac, hmac_verify, Refusal};
///
/// let (salt, key) = ([0; 16], b"known to both nodes");
/// let join = b"node a20000000007 asks to join";
/// let mut tag = [0; 32];
/// hmac(256, &salt, key, join, &mut tag)?;
/// hmac_verify(256, &salt, key, join, &tag)?;
///
/// let tampered = b"node a20000000008 asks to join";
/// let refused = hmac_verify(256, &salt, key, tampered, &tag);
/// assert_eq!(refused, Err(Refusal::Tag));
/// # Ok::<(), Refusal>(())
/// ```
///
/// It is two digests, each behind a block that the key is xored into:
///
/// ```
/// let (salt, key, message) = ([9; 16], b"key", b"abc");
/// let (mut inner, mut outer) = (vec![0x36; 128], vec![0x5c; 128]);
/// for (place, byte) in key.iter().enumerate() {
///     inner[place] ^= byte;
///     outer[place] ^= byte;
/// }
/// inner.extend(message);
/// let mut digest = [0; 64];
/// bahmorist::digest(512, &salt, &inner, &mut digest)?;
/// outer.extend(digest);
/// bahmorist::digest(512, &salt, &outer, &mut digest)?;
///
/// let mut tag = [0; 64];
/// bahmorist::hmac(512, &salt, key, message, &mut tag)?;
/// assert_eq!(tag, digest);
/// # Ok::<(), bahmorist::Refusal>(())
/// ```
///
/// A room that is too small stays as it is:
///
/// ```
/// use bahmorist::Refusal;
///
/// let mut out = [7; 31];
/// let refused = bahmorist::hmac(256, &[0; 16], b"key", b"abc", &mut out);
/// assert_eq!(refused, Err(Refusal::Room));
/// assert_eq!(out, [7; 31]);
/// ```
pub fn hmac(
    bits: u64,
    salt: &[u8],
    key: &[u8],
    message: &[u8],
    out: &mut [u8],
) -> Result<(), Refusal> {
    // SAFETY: each pointer comes with its slice's length; see `face`.
    answer(unsafe {
        face::bahmorist_hmac(
            bits,
            salt.as_ptr(),
            salt.len(),
            key.as_ptr(),
            key.len(),
            message.as_ptr(),
            message.len(),
            out.as_mut_ptr(),
            out.len(),
        )
    })
}

/// `Ok` for the right tag alone: the one that [`hmac`] gives, all of it. A wrong tag is
/// refused by 19, one of any other length among them, and so `?` lets none through.
/// Refuses by 1, 4 or 19.
///
/// How long a call takes may depend on the key, as with [`hmac`], and nothing of
/// a key, nor the right tag, is erased from the stack.
///
/// ```
/// use bahmorist::{hmac, hmac_verify, Refusal};
///
/// let (salt, key) = ([0; 16], b"known to both nodes");
/// let join = b"node a20000000007 asks to join";
/// let mut tag = [0; 32];
/// hmac(256, &salt, key, join, &mut tag)?;
/// hmac_verify(256, &salt, key, join, &tag)?;
///
/// // A tag that is cut is no tag, nor is one with a bit changed.
/// let wrong = Err(Refusal::Tag);
/// assert_eq!(hmac_verify(256, &salt, key, join, &tag[..31]), wrong);
/// assert_eq!(hmac_verify(256, &salt, key, join, &[]), wrong);
/// tag[31] ^= 1;
/// assert_eq!(hmac_verify(256, &salt, key, join, &tag), wrong);
///
/// let refused = hmac_verify(255, &salt, key, join, &tag);
/// assert_eq!(refused, Err(Refusal::DigestLength));
/// # Ok::<(), Refusal>(())
/// ```
///
/// Salt and key don't change places unseen, where the key is not 16 bytes:
///
/// ```compile_fail
/// let (salt, key) = ([0u8; 16], [1u8; 32]);
/// bahmorist::hmac_verify(256, &key, &salt, b"", &[0; 32]);
/// ```
pub fn hmac_verify(
    bits: u64,
    salt: &[u8; 16],
    key: &[u8],
    message: &[u8],
    tag: &[u8],
) -> Result<(), Refusal> {
    // SAFETY: each pointer comes with its slice's length; see `face`.
    answer(unsafe {
        face::bahmorist_hmac_verify(
            bits,
            salt.as_ptr(),
            salt.len(),
            key.as_ptr(),
            key.len(),
            message.as_ptr(),
            message.len(),
            tag.as_ptr(),
            tag.len(),
        )
    })
}

/// The tag of a message under a key as an array, of 8 * `N` bits, like [`hmac`].
/// Refuses by 1 or 4.
///
/// ```
/// let tag: [u8; 32] = bahmorist::hmac_array(&[0; 16], b"known to both nodes", b"join")?;
/// bahmorist::hmac_verify(256, &[0; 16], b"known to both nodes", b"join", &tag)?;
/// # Ok::<(), bahmorist::Refusal>(())
/// ```
pub fn hmac_array<const N: usize>(
    salt: &[u8; 16],
    key: &[u8],
    message: &[u8],
) -> Result<[u8; N], Refusal> {
    let mut tag = [0; N];
    hmac(crate::bits::<N>(), salt, key, message, &mut tag)?;
    Ok(tag)
}

/// Whether two strings of bytes are the same. Where their lengths are equal every byte
/// is looked at, whatever the first ones are, so that the time tells nothing of where
/// they differ: for tags that a protocol cuts, and for other secrets.
///
/// ```
/// use bahmorist::{hmac_array, same};
///
/// let tag: [u8; 32] = hmac_array(&[0; 16], b"known to both nodes", b"join")?;
/// let (sent, mut forged) = (&tag[..16], tag);
/// assert!(same(sent, &tag[..16]));
/// assert!(!same(sent, &tag));
/// forged[15] ^= 1;
/// assert!(!same(&forged[..16], &tag[..16]));
/// assert!(same(b"", b""));
/// # Ok::<(), bahmorist::Refusal>(())
/// ```
#[must_use]
pub fn same(a: &[u8], b: &[u8]) -> bool {
    // SAFETY: each pointer comes with its slice's length; see `face`.
    let yes = unsafe { face::bahmorist_same(a.as_ptr(), a.len(), b.as_ptr(), b.len()) };
    yes == 1
}

/// **`Ok` does not say that the tag is right**, only that there is an answer, which is
/// the `bool`: `hmac_check(..)?;` alone lets every forged tag through. Of
/// [`hmac_verify`] `Ok` does say it.
///
/// Whether `tag` is the tag that [`hmac`] gives, all of it: bytes of any other
/// length are none. Refuses by 1, 2 or 4.
///
/// How long a call takes may depend on the key, as with [`hmac`], and nothing of
/// a key is erased from the stack.
///
/// ```
/// use bahmorist::{hmac, hmac_check, Refusal};
///
/// let (salt, key) = ([0; 16], b"known to both nodes");
/// let join = b"node a20000000007 asks to join";
/// let mut tag = [0; 32];
/// hmac(256, &salt, key, join, &mut tag)?;
/// assert!(hmac_check(256, &salt, key, join, &tag)?);
///
/// // A tag that is cut is no tag, nor is one with a bit changed.
/// assert!(!hmac_check(256, &salt, key, join, &tag[..31])?);
/// assert!(!hmac_check(256, &salt, key, join, &[])?);
/// tag[31] ^= 1;
/// assert!(!hmac_check(256, &salt, key, join, &tag)?);
///
/// let refused = hmac_check(256, &salt[1..], key, join, &tag);
/// assert_eq!(refused, Err(Refusal::Salt));
/// # Ok::<(), Refusal>(())
/// ```
pub fn hmac_check(
    bits: u64,
    salt: &[u8],
    key: &[u8],
    message: &[u8],
    tag: &[u8],
) -> Result<bool, Refusal> {
    let mut yes = 0;
    // SAFETY: each pointer comes with its slice's length, and the answer is a
    // variable of this function; see `face`.
    answer(unsafe {
        face::bahmorist_hmac_check(
            bits,
            salt.as_ptr(),
            salt.len(),
            key.as_ptr(),
            key.len(),
            message.as_ptr(),
            message.len(),
            tag.as_ptr(),
            tag.len(),
            &mut yes,
        )
    })
    .map(|()| yes == 1)
}
