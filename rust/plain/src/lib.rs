//! Document 01 and the first five requests of document 02 in plain Rust: an implementation that shares no code with the library,
//! to compare the library with.
//!
//! The functions named here have the library's signatures. Each judges what it is given in the order of document 01's table and
//! of those requests, and writes only when nothing is refused. The modules also have the mathematics by itself, with no checks.

pub mod count;
pub mod element;
pub mod perm;
pub mod sheet;

pub use element::{act_signed_word, act_word, pairing, product, scale, sum, trace};
pub use perm::{images_of_tower, tower_descents, tower_inverse, tower_length, tower_of_images, tower_product, tower_word};
pub use sheet::{check as sheet_check, run as run_sheet};

/// A refusal: its number, as document 01's table or a later request has it, and its place, 0 where none is named.
#[derive(Clone, Copy, Debug, PartialEq, Eq)]
pub struct Refusal {
    pub number: u8,
    pub place: u64,
}

/// Refuses with this number and place where the condition holds.
fn refuse(condition: bool, number: u8, place: usize) -> Result<(), Refusal> {
    if condition {
        Err(Refusal { number, place: place as u64 })
    } else {
        Ok(())
    }
}

/// Refuses with this number and the index of the first entry for which the condition holds.
fn refuse_first<T>(entries: &[T], number: u8, bad: impl Fn(usize, &T) -> bool) -> Result<(), Refusal> {
    match entries.iter().enumerate().position(|(index, entry)| bad(index, entry)) {
        Some(index) => refuse(true, number, index),
        None => Ok(()),
    }
}
