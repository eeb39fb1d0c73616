//! The product, the word action and the tower of an image list by an older archive, where the build was given one by the
//! variable HECKE_BEFORE.

use crate::towers::ToTower;
use plain::sheet::{Action, Product};

#[cfg(before)]
mod archive {
    use hecke::Refusal;

    extern "C" {
        fn before_hecke_act_word(
            m: usize,
            q: u64,
            word: *const u8,
            word_len: usize,
            element: *mut u64,
            element_len: usize,
            answer: *mut u64,
            answer_len: usize,
        ) -> u64;

        fn before_hecke_product(
            m: usize,
            q: u64,
            left: *const u64,
            left_len: usize,
            right: *const u64,
            right_len: usize,
            result: *mut u64,
            result_len: usize,
            scratch: *mut u64,
            scratch_len: usize,
            answer: *mut u64,
            answer_len: usize,
        ) -> u64;

        fn before_hecke_tower_of_images(images: *const u8, images_len: usize, tower: *mut u8, tower_len: usize) -> u64;
    }

    pub fn act_word(m: usize, q: u64, word: &[u8], element: &mut [u64]) {
        let mut answer = [0];
        let (word, letters) = (word.as_ptr(), word.len());
        let refusal =
            unsafe { before_hecke_act_word(m, q, word, letters, element.as_mut_ptr(), element.len(), answer.as_mut_ptr(), 1) };
        assert_eq!(refusal, 0);
    }

    pub fn product(m: usize, q: u64, left: &[u64], right: &[u64], result: &mut [u64], scratch: &mut [u64]) {
        let mut answer = [0];
        let refusal = unsafe {
            before_hecke_product(
                m,
                q,
                left.as_ptr(),
                left.len(),
                right.as_ptr(),
                right.len(),
                result.as_mut_ptr(),
                result.len(),
                scratch.as_mut_ptr(),
                scratch.len(),
                answer.as_mut_ptr(),
                1,
            )
        };
        assert_eq!(refusal, 0);
    }

    /// As `hecke::tower_of_images`, and never inlined, as that is not.
    #[inline(never)]
    pub fn tower_of_images(images: &[u8], tower: &mut [u8]) -> Result<(), Refusal> {
        let (given, points) = (images.as_ptr(), images.len());
        match unsafe { before_hecke_tower_of_images(given, points, tower.as_mut_ptr(), tower.len()) } {
            0 => Ok(()),
            word => Err(Refusal { number: (word & 255) as u8, place: word >> 8 }),
        }
    }
}

/// The product, if there is an older archive.
pub const PRODUCTS: &[Product] = &[
    #[cfg(before)]
    archive::product,
];

/// The word action, if there is an older archive.
pub const ACTIONS: &[Action] = &[
    #[cfg(before)]
    archive::act_word,
];

/// The tower of an image list, if there is an older archive.
pub const TO_TOWERS: &[ToTower] = &[
    #[cfg(before)]
    archive::tower_of_images,
];
