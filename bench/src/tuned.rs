//! The library's own method in C, tuned by hand, and the pairing: `bench/c/nested.c` and `bench/c/pairing.c` by each compiler that
//! the build found. The slices have the sizes that the library asks for, which nothing here checks.

use crate::pairing::Pairing;
use plain::sheet::{Action, Product};

macro_rules! compiled {
    ($compiler:ident, $product:literal, $act_word:literal, $pairing:literal) => {
        mod $compiler {
            mod raw {
                extern "C" {
                    #[link_name = $product]
                    pub fn product(m: usize, q: u64, left: *const u64, right: *const u64, result: *mut u64, scratch: *mut u64);

                    #[link_name = $act_word]
                    pub fn act_word(m: usize, q: u64, letters: *const u8, n: usize, element: *mut u64);

                    #[link_name = $pairing]
                    pub fn pairing(m: usize, q: u64, left: *const u64, right: *const u64) -> u64;
                }
            }

            pub fn product(m: usize, q: u64, left: &[u64], right: &[u64], result: &mut [u64], scratch: &mut [u64]) {
                unsafe { raw::product(m, q, left.as_ptr(), right.as_ptr(), result.as_mut_ptr(), scratch.as_mut_ptr()) }
            }

            pub fn act_word(m: usize, q: u64, word: &[u8], element: &mut [u64]) {
                unsafe { raw::act_word(m, q, word.as_ptr(), word.len(), element.as_mut_ptr()) }
            }

            pub fn pairing(m: usize, q: u64, left: &[u64], right: &[u64]) -> u64 {
                unsafe { raw::pairing(m, q, left.as_ptr(), right.as_ptr()) }
            }
        }
    };
}

compiled!(cc, "cc_product", "cc_act_word", "cc_pairing");

#[cfg(clang)]
compiled!(clang, "clang_product", "clang_act_word", "clang_pairing");

/// The product by each compiler.
pub const PRODUCTS: &[Product] = &[
    cc::product,
    #[cfg(clang)]
    clang::product,
];

/// The word action by each compiler.
pub const ACTIONS: &[Action] = &[
    cc::act_word,
    #[cfg(clang)]
    clang::act_word,
];

/// The pairing by each compiler.
pub const PAIRINGS: &[Pairing] = &[
    cc::pairing,
    #[cfg(clang)]
    clang::pairing,
];
