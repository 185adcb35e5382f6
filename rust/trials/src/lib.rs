//! The proved library held against the second implementation, `plain`, on many
//! cases that are the same on every run of one seed.
//!
//! A [`case::Case`] is one call of a routine. It is made with everything lent
//! from the middle of larger buffers ([`guarded`]), and held against what
//! `plain`, the table of refusals ([`expected`]) and, where it answers, `third`
//! say of it ([`mod@reference`]). [`families`] are the sorts of cases.

#![deny(unsafe_code)]

pub mod arguments;
pub mod case;
pub mod draw;
pub mod expected;
pub mod families;
pub mod family;
pub mod folder;
pub mod guarded;
pub mod implementation;
pub mod program;
pub mod reference;
pub mod smallest;
pub mod table;
