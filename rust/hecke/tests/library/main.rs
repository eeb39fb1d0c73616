//! The library's calls, safe and raw, held to the crate `plain` on many inputs, good and bad, from fixed seeds.

// A comparison has judged when it returns; its answer may be left.
#![allow(unused_must_use)]

mod compare;
mod elements;
mod lent;
mod pairings;
mod random;
mod runs;
mod sheets;
mod signed_words;
mod towers;
mod traces;
