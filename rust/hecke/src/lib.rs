//! The library's calls over safe slices: permutations, towers, elements of the Iwahori-Hecke algebra of type A, and run sheets.
//!
//! A call answers `Err` with the refusal, and then leaves every slice as it was, or `Ok` with what it counts or finds.
//! `include/hecke.h` says what a permutation, a tower and an element are as bytes and words, and what each call refuses.

pub mod raw;

/// A refusal: its number, as document 01's table or a later request has it, and its place, 0 where none is named.
#[derive(Clone, Copy, Debug, PartialEq, Eq)]
pub struct Refusal {
    pub number: u8,
    pub place: u64,
}

/// The descent set of a permutation: s_i at bit i - 1, and the number of set bits.
#[derive(Clone, Copy, Debug, PartialEq, Eq)]
pub struct Descents {
    pub mask: u64,
    pub count: u64,
}

/// The refusal in the word that a call returns, if there is one.
fn verdict(word: u64) -> Result<(), Refusal> {
    match word {
        0 => Ok(()),
        _ => Err(Refusal { number: (word & 255) as u8, place: word >> 8 }),
    }
}

/// Makes a call with an answer slice of N words, and gives these words.
fn answered<const N: usize>(call: impl FnOnce(*mut u64, usize) -> u64) -> Result<[u64; N], Refusal> {
    let mut answer = [0; N];
    verdict(call(answer.as_mut_ptr(), N)).map(|()| answer)
}

/// Writes the tower of an image list.
///
/// ```
/// let mut tower = [0; 2];
/// assert_eq!(hecke::tower_of_images(&[2, 3, 1], &mut tower), Ok(()));
/// assert_eq!(tower, [0, 2]);
///
/// let twice = hecke::tower_of_images(&[2, 3, 2], &mut tower);
/// assert_eq!(twice, Err(hecke::Refusal { number: 6, place: 2 }));
/// ```
pub fn tower_of_images(images: &[u8], tower: &mut [u8]) -> Result<(), Refusal> {
    verdict(unsafe { raw::hecke_tower_of_images(images.as_ptr(), images.len(), tower.as_mut_ptr(), tower.len()) })
}

/// Writes the image list of a tower.
///
/// ```
/// let mut images = [0; 3];
/// assert_eq!(hecke::images_of_tower(&[0, 2], &mut images), Ok(()));
/// assert_eq!(images, [2, 3, 1]);
/// ```
pub fn images_of_tower(tower: &[u8], images: &mut [u8]) -> Result<(), Refusal> {
    verdict(unsafe { raw::hecke_images_of_tower(tower.as_ptr(), tower.len(), images.as_mut_ptr(), images.len()) })
}

/// Writes the tower of the inverse of a tower's permutation.
///
/// ```
/// let mut inverse = [0; 2];
/// assert_eq!(hecke::tower_inverse(&[0, 2], &mut inverse), Ok(()));
/// assert_eq!(inverse, [1, 1]);
/// ```
pub fn tower_inverse(tower: &[u8], result: &mut [u8]) -> Result<(), Refusal> {
    verdict(unsafe { raw::hecke_tower_inverse(tower.as_ptr(), tower.len(), result.as_mut_ptr(), result.len()) })
}

/// Writes the tower of the product of two towers' permutations, the left of which acts first.
///
/// ```
/// let mut product = [0; 2];
/// assert_eq!(hecke::tower_product(&[0, 2], &[0, 1], &mut product), Ok(()));
/// assert_eq!(product, [1, 2]);
/// ```
pub fn tower_product(left: &[u8], right: &[u8], result: &mut [u8]) -> Result<(), Refusal> {
    verdict(unsafe {
        raw::hecke_tower_product(left.as_ptr(), left.len(), right.as_ptr(), right.len(), result.as_mut_ptr(), result.len())
    })
}

/// The length of a tower's permutation.
///
/// ```
/// assert_eq!(hecke::tower_length(&[0, 2]), Ok(2));
/// ```
pub fn tower_length(tower: &[u8]) -> Result<u64, Refusal> {
    answered(|answer, room| unsafe { raw::hecke_tower_length(tower.as_ptr(), tower.len(), answer, room) })
        .map(|[length]| length)
}

/// Writes the standard shortest word of a tower's permutation at the front of `word`, and answers the number of its letters.
///
/// ```
/// let mut word = [0; 3];
/// assert_eq!(hecke::tower_word(&[0, 2], &mut word), Ok(2));
/// assert_eq!(word[..2], [2, 1]);
/// ```
pub fn tower_word(tower: &[u8], word: &mut [u8]) -> Result<u64, Refusal> {
    answered(|answer, room| unsafe {
        raw::hecke_tower_word(tower.as_ptr(), tower.len(), word.as_mut_ptr(), word.len(), answer, room)
    })
    .map(|[letters]| letters)
}

/// The descent set of a tower's permutation.
///
/// ```
/// assert_eq!(hecke::tower_descents(&[0, 2]), Ok(hecke::Descents { mask: 2, count: 1 }));
/// ```
pub fn tower_descents(tower: &[u8]) -> Result<Descents, Refusal> {
    answered(|answer, room| unsafe { raw::hecke_tower_descents(tower.as_ptr(), tower.len(), answer, room) })
        .map(|[mask, count]| Descents { mask, count })
}

/// M = (m + 1)!, the words of an element of rank m, for ranks 0 to 6; 0 for a rank above.
///
/// ```
/// assert_eq!(hecke::size(2), 6);
/// assert_eq!(hecke::size(7), 0);
/// ```
pub fn size(m: usize) -> usize {
    unsafe { raw::hecke_size(m) }
}

/// (m + 6) M, the words of scratch that a product or a trace of rank m takes, for ranks 0 to 6; 0 for a rank above.
///
/// ```
/// assert_eq!(hecke::scratch_size(2), 48);
/// assert_eq!(hecke::scratch_size(7), 0);
/// ```
pub fn scratch_size(m: usize) -> usize {
    unsafe { raw::hecke_scratch_size(m) }
}

/// Writes the sum of two elements of rank m, and answers the count.
///
/// ```
/// let mut sum = [0; 2];
/// assert_eq!(hecke::sum(1, &[2, 3], &[4, 5], &mut sum), Ok(2));
/// assert_eq!(sum, [6, 8]);
/// ```
pub fn sum(m: usize, left: &[u64], right: &[u64], result: &mut [u64]) -> Result<u64, Refusal> {
    answered(|answer, room| unsafe {
        raw::hecke_sum(
            m,
            left.as_ptr(),
            left.len(),
            right.as_ptr(),
            right.len(),
            result.as_mut_ptr(),
            result.len(),
            answer,
            room,
        )
    })
    .map(|[count]| count)
}

/// Writes an element of rank m times the word c, and answers the count.
///
/// ```
/// let mut result = [0; 2];
/// assert_eq!(hecke::scale(1, 3, &[2, 3], &mut result), Ok(2));
/// assert_eq!(result, [6, 9]);
/// ```
pub fn scale(m: usize, c: u64, element: &[u64], result: &mut [u64]) -> Result<u64, Refusal> {
    answered(|answer, room| unsafe {
        raw::hecke_scale(m, c, element.as_ptr(), element.len(), result.as_mut_ptr(), result.len(), answer, room)
    })
    .map(|[count]| count)
}

/// Changes an element of rank m by a word of generators, left to right, and answers the count.
///
/// ```
/// let mut element = [1, 0];
/// assert_eq!(hecke::act_word(1, 3, &[1, 1], &mut element), Ok(6));
/// assert_eq!(element, [3, 2]);
/// ```
pub fn act_word(m: usize, q: u64, word: &[u8], element: &mut [u64]) -> Result<u64, Refusal> {
    answered(|answer, room| unsafe {
        raw::hecke_act_word(m, q, word.as_ptr(), word.len(), element.as_mut_ptr(), element.len(), answer, room)
    })
    .map(|[count]| count)
}

/// Changes an element of rank m by a word of signed letters, left to right, and answers the count: the letter i is T_i, and -i
/// its inverse, for odd q. The mirror word read backwards undoes a word.
///
/// ```
/// let mut element = [1, 0];
/// assert_eq!(hecke::act_signed_word(1, 3, &[1, 1, -1], &mut element), Ok(9));
/// assert_eq!(element, [0, 1]);
/// assert_eq!(hecke::act_signed_word(1, 3, &[1, -1, -1], &mut element), Ok(9));
/// assert_eq!(element, [1, 0]);
///
/// let even = hecke::act_signed_word(1, 2, &[1, -1], &mut element);
/// assert_eq!(even, Err(hecke::Refusal { number: 15, place: 1 }));
/// ```
pub fn act_signed_word(m: usize, q: u64, word: &[i8], element: &mut [u64]) -> Result<u64, Refusal> {
    answered(|answer, room| unsafe {
        raw::hecke_act_signed_word(m, q, word.as_ptr(), word.len(), element.as_mut_ptr(), element.len(), answer, room)
    })
    .map(|[count]| count)
}

/// Writes the product of two elements of rank m, and answers the count. The scratch has `scratch_size(m)` words or more; the
/// first `scratch_size(m)` of them are zero afterwards.
///
/// ```
/// let mut product = [0; 2];
/// let mut scratch = vec![0; hecke::scratch_size(1)];
/// assert_eq!(hecke::product(1, 3, &[0, 1], &[0, 1], &mut product, &mut scratch), Ok(9));
/// assert_eq!(product, [3, 2]);
/// ```
pub fn product(m: usize, q: u64, left: &[u64], right: &[u64], result: &mut [u64], scratch: &mut [u64]) -> Result<u64, Refusal> {
    answered(|answer, room| unsafe {
        raw::hecke_product(
            m,
            q,
            left.as_ptr(),
            left.len(),
            right.as_ptr(),
            right.len(),
            result.as_mut_ptr(),
            result.len(),
            scratch.as_mut_ptr(),
            scratch.len(),
            answer,
            room,
        )
    })
    .map(|[count]| count)
}

/// The pairing of two elements of rank m: the coefficient of the unit in their product, which is the sum over w of q^ℓ(w) times
/// `left` at w times `right` at the inverse of w. It counts no ring operation.
///
/// ```
/// assert_eq!(hecke::pairing(1, 3, &[0, 1], &[0, 1]), Ok(3));
///
/// // rank 2 with q = 2: T of s_1 s_2, at index 3, with itself, and with T of s_2 s_1, at index 4
/// let (chain, reversed) = ([0, 0, 0, 1, 0, 0], [0, 0, 0, 0, 1, 0]);
/// assert_eq!(hecke::pairing(2, 2, &chain, &chain), Ok(0));
/// assert_eq!(hecke::pairing(2, 2, &chain, &reversed), Ok(4));
///
/// let short = hecke::pairing(2, 2, &chain, &reversed[1..]);
/// assert_eq!(short, Err(hecke::Refusal { number: 2, place: 0 }));
/// ```
pub fn pairing(m: usize, q: u64, left: &[u64], right: &[u64]) -> Result<u64, Refusal> {
    answered(|answer, room| unsafe {
        raw::hecke_pairing(m, q, left.as_ptr(), left.len(), right.as_ptr(), right.len(), answer, room)
    })
    .map(|[value]| value)
}

/// The trace of an element of rank m with the parameter z: at rank 0 the coefficient; `include/hecke.h` has the rule for higher ranks. It
/// counts no ring operation. The scratch has `scratch_size(m)` words or more; the first `scratch_size(m)` of them are zero afterwards.
///
/// ```
/// let mut scratch = vec![7; hecke::scratch_size(2)];
/// assert_eq!(hecke::trace(1, 3, 5, &[2, 3], &mut scratch), Ok(17));
///
/// // rank 2 with q = 3 and z = 5: T of s_1 s_2 s_1, at index 5
/// assert_eq!(hecke::trace(2, 3, 5, &[0, 0, 0, 0, 0, 1], &mut scratch), Ok(65));
/// assert!(scratch.iter().all(|&word| word == 0));
///
/// let short = hecke::trace(2, 3, 5, &[0, 0, 0, 0, 0, 1], &mut scratch[1..]);
/// assert_eq!(short, Err(hecke::Refusal { number: 3, place: 0 }));
/// ```
pub fn trace(m: usize, q: u64, z: u64, element: &[u64], scratch: &mut [u64]) -> Result<u64, Refusal> {
    answered(|answer, room| unsafe {
        raw::hecke_trace(m, q, z, element.as_ptr(), element.len(), scratch.as_mut_ptr(), scratch.len(), answer, room)
    })
    .map(|[value]| value)
}

/// The check of a whole run sheet.
///
/// ```
/// let sheet = [0x10, 1, 3, 0, 0, 0, 0, 0, 0, 0, 0x20, 0, 0x30, 0, 1, 0x30, 0, 1, 0x40, 0, 0];
/// assert_eq!(hecke::sheet_check(&sheet), Ok(()));
/// assert_eq!(hecke::sheet_check(&[0]), Err(hecke::Refusal { number: 12, place: 0 }));
/// ```
pub fn sheet_check(sheet: &[u8]) -> Result<(), Refusal> {
    verdict(unsafe { raw::hecke_sheet_check(sheet.as_ptr(), sheet.len()) })
}

/// Runs a whole run sheet, of rank m, on four registers of 720 words, whatever they held, and answers the count over all
/// commands. Register r begins at word 720 r; afterwards it has its element in its first M words, and zeros after them. A show
/// prints nothing.
///
/// ```
/// let sheet = [0x10, 1, 3, 0, 0, 0, 0, 0, 0, 0, 0x20, 0, 0x30, 0, 1, 0x30, 0, 1, 0x40, 0, 0];
/// let mut registers = vec![7; 2880];
/// assert_eq!(hecke::run_sheet(&sheet, &mut registers), Ok(6));
/// assert_eq!(registers[..2], [3, 2]);
/// assert!(registers[2..].iter().all(|&word| word == 0));
///
/// let short = hecke::run_sheet(&sheet, &mut registers[1..]);
/// assert_eq!(short, Err(hecke::Refusal { number: 8, place: 0 }));
/// ```
pub fn run_sheet(sheet: &[u8], registers: &mut [u64]) -> Result<u64, Refusal> {
    answered(|answer, room| unsafe {
        raw::hecke_run_sheet(sheet.as_ptr(), sheet.len(), registers.as_mut_ptr(), registers.len(), answer, room)
    })
    .map(|[count]| count)
}
