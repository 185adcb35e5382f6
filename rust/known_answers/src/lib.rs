//! The proved library held against known-answer files in the form that the ECHO
//! submission published them in.
//!
//! Digests are under the all-zero salt, and as long as the file says they are.

#![forbid(unsafe_code)]

pub mod file;
pub mod hex;
pub mod report;
