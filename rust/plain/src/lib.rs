//! ECHO 2.0 in both modes, of messages of any number of bits, tags under a key and the
//! steering tables above it, byte by byte.
//!
//! ECHO follows Part I, sections 1 to 5, of the ECHO paper; the AES round
//! follows FIPS 197, and tags follow FIPS 198-1. Nothing here is shared with the
//! proved library, so where both give one answer, neither has misread the paper
//! alone.
//!
//! The modules other than [`checked`] take inputs that are admitted and panic
//! on others. [`checked`], [`session`], [`tag_session`] and [`table`] answer with
//! refusal numbers instead.

#![forbid(unsafe_code)]

pub mod aes;
pub mod bits;
pub mod checked;
pub mod compression;
pub mod digest;
pub mod family;
pub mod field;
pub mod hex;
pub mod hmac;
pub mod mode;
pub mod padding;
pub mod refusal;
pub mod session;
pub mod square;
pub mod substitution;
pub mod table;
pub mod tag_session;
