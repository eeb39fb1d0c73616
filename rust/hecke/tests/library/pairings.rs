//! The pairing of two elements.

use crate::compare::pairing;
use crate::random::{Random, EDGES};
use hecke::{scratch_size, size};

/// T_w for the permutation w at a place.
fn basis(m: usize, place: usize) -> Vec<u64> {
    (0..size(m)).map(|index| (index == place) as u64).collect()
}

/// The coefficient of the unit in the product, by the library.
fn unit_coefficient(m: usize, q: u64, left: &[u64], right: &[u64]) -> u64 {
    let (mut result, mut scratch) = (vec![0; size(m)], vec![0; scratch_size(m)]);
    hecke::product(m, q, left, right, &mut result, &mut scratch).unwrap();
    result[0]
}

/// Document 02's cases: T of s_1 s_2 paired with itself, and with T of s_2 s_1.
#[test]
fn document_cases() {
    assert_eq!(pairing(2, 2, &basis(2, 3), &basis(2, 3)), Ok(vec![0]));
    assert_eq!(pairing(2, 2, &basis(2, 3), &basis(2, 4)), Ok(vec![4]));
    assert_eq!(pairing(2, 2, &basis(2, 4), &basis(2, 3)), Ok(vec![4]));
}

/// Each two T_w of ranks 0 to 3; of rank 4 each T_w with itself, with T of its inverse and with another.
#[test]
fn basis_elements() {
    for q in EDGES {
        for m in 0..=3 {
            for (u, v) in (0..size(m)).flat_map(|u| (0..size(m)).map(move |v| (u, v))) {
                pairing(m, q, &basis(m, u), &basis(m, v));
            }
        }
        for (w, &inverse) in plain::element::Group::of_rank(4).inverses.iter().enumerate() {
            for other in [w, inverse, (w + 1) % 120] {
                pairing(4, q, &basis(4, w), &basis(4, other));
            }
        }
    }
}

/// At ranks 5 and 6 T_w paired with T of its inverse is q to the power of its length, and with itself 0 unless w is an involution.
#[test]
fn basis_elements_of_ranks_5_and_6() {
    let random = &mut Random(61);
    for m in [5, 6] {
        let group = plain::element::Group::of_rank(m);
        let some: Vec<usize> = (0..20).map(|_| random.below(size(m))).collect();
        for w in some.into_iter().chain([0, size(m) - 1]) {
            let (q, inverse) = (random.parameter(), group.inverses[w]);
            let power = q.wrapping_pow(group.lengths[w] as u32);
            assert_eq!(pairing(m, q, &basis(m, w), &basis(m, inverse)), Ok(vec![power]));
            let with_itself = if inverse == w { power } else { 0 };
            assert_eq!(pairing(m, q, &basis(m, w), &basis(m, w)), Ok(vec![with_itself]));
        }
    }
}

#[test]
fn random_elements() {
    let random = &mut Random(62);
    for (m, times) in [300, 300, 300, 300, 100, 20, 5].into_iter().enumerate() {
        for _ in 0..times {
            let (q, left, right) = (random.parameter(), random.element(size(m)), random.element(size(m)));
            assert!(pairing(m, q, &left, &right).is_ok());
        }
        for q in EDGES {
            assert!(pairing(m, q, &random.words(size(m)), &random.words(size(m))).is_ok());
        }
    }
}

/// The pairing is the coefficient of the unit in the library's own product.
#[test]
fn coefficients_of_products() {
    let random = &mut Random(63);
    for (m, times) in [100, 100, 100, 100, 50, 10, 3].into_iter().enumerate() {
        for _ in 0..times {
            let (q, left, right) = (random.parameter(), random.words(size(m)), random.words(size(m)));
            assert_eq!(hecke::pairing(m, q, &left, &right), Ok(unit_coefficient(m, q, &left, &right)));
        }
    }
}

/// A word on the unit, and the word read backwards, are paired as their product says; for a shortest word this is q to the power
/// of its length.
#[test]
fn reversed_words() {
    let random = &mut Random(64);
    for m in 1..=6 {
        for letters in [1, 2, 5, 12] {
            let (q, word) = (random.parameter(), random.letters(m, letters));
            let backwards: Vec<u8> = word.iter().rev().copied().collect();
            let [left, right] = [&word, &backwards].map(|word| {
                let mut element = basis(m, 0);
                hecke::act_word(m, q, word, &mut element).unwrap();
                element
            });
            assert_eq!(pairing(m, q, &left, &right), Ok(vec![unit_coefficient(m, q, &left, &right)]));
        }
        let chain: Vec<u8> = (1..=m as u8).collect();
        let backwards: Vec<u8> = (1..=m as u8).rev().collect();
        let place = |word: &[u8]| plain::element::place(&plain::perm::of_word(m, word));
        let due = 3u64.pow(m as u32);
        assert_eq!(pairing(m, 3, &basis(m, place(&chain)), &basis(m, place(&backwards))), Ok(vec![due]));
    }
}

/// Both elements are only read, so they may be one slice, or overlap.
#[test]
fn elements_may_overlap() {
    let random = &mut Random(65);
    for m in 0..=6 {
        let words = random.words(size(m) + 1);
        for (left, right) in [(0, 0), (0, 1), (1, 0)] {
            let (h, g) = (&words[left..left + size(m)], &words[right..right + size(m)]);
            assert_eq!(hecke::pairing(m, 3, h, g), Ok(plain::pairing(m, 3, h, g).unwrap()));
        }
    }
}

/// 1 before 2, with either slice or both of another size.
#[test]
fn wrong_sizes() {
    let random = &mut Random(66);
    for m in (0..=6).chain([7, 8, 255, 256, 1 << 32, usize::MAX]) {
        let sizes = if m > 6 { vec![5040, 40_320, 1, 0] } else { vec![size(m), size(m) - 1, size(m) + 1, 0, 2 * size(m)] };
        for (&left, &right) in sizes.iter().flat_map(|left| sizes.iter().map(move |right| (left, right))) {
            let answer = pairing(m, 2, &random.words(left), &random.words(right));
            match m {
                7.. => assert_eq!(answer, Err((1, 0))),
                _ if (left, right) != (size(m), size(m)) => assert_eq!(answer, Err((2, 0))),
                _ => assert!(answer.is_ok()),
            }
        }
    }
}
