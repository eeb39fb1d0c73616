//! Elements: their sizes, sum, scaling, word action and product.

use crate::compare::*;
use crate::lent::Answer;
use crate::random::{Random, EDGES};
use hecke::{scratch_size, size};

/// Ranks that every call refuses.
const ABOVE: [usize; 6] = [7, 8, 255, 256, 1 << 32, usize::MAX];

/// A product of factors of the right sizes, with a scratch that may be larger than is asked for.
fn good_product(random: &mut Random, m: usize, q: u64, left: &[u64], right: &[u64]) {
    let scratch = scratch_size(m) + random.pick(&[0, 1, 7, 100]);
    assert!(product(random, Factors { m, q, left, right }, size(m), scratch).is_ok());
}

fn unit(m: usize, place: usize) -> Vec<u64> {
    (0..size(m)).map(|index| (index == place) as u64).collect()
}

#[test]
fn sizes_of_every_rank() {
    for m in 0..=6 {
        assert_eq!(size(m), plain::element::size(m));
        assert_eq!(scratch_size(m), (m + 6) * plain::element::size(m));
    }
    for m in (7..100_000).chain(ABOVE).chain(usize::MAX - 10..=usize::MAX) {
        assert_eq!((size(m), scratch_size(m)), (0, 0), "rank {m}");
    }
}

#[test]
fn products_of_basis_elements() {
    let random = &mut Random(11);
    for m in 0..=3 {
        for q in EDGES {
            for u in 0..size(m) {
                for v in 0..size(m) {
                    good_product(random, m, q, &unit(m, u), &unit(m, v));
                }
            }
        }
    }
}

fn random_products(seed: u64, m: usize, times: usize) {
    let random = &mut Random(seed);
    for _ in 0..times {
        let (q, left, right) = (random.parameter(), random.element(size(m)), random.element(size(m)));
        good_product(random, m, q, &left, &right);
    }
}

#[test]
fn products_of_ranks_0_to_3() {
    (0..=3).for_each(|m| random_products(12, m, 500));
}

#[test]
fn products_of_rank_4() {
    random_products(13, 4, 200);
}

#[test]
fn products_of_ranks_5_and_6() {
    random_products(14, 5, 10);
    let random = &mut Random(15);
    for q in [random.word(), 0] {
        let (left, right) = (random.words(size(6)), random.words(size(6)));
        good_product(random, 6, q, &left, &right);
    }
}

/// Factors are only read, so they may be one slice, or overlap.
#[test]
fn factors_may_overlap() {
    let random = &mut Random(16);
    for m in 0..=4 {
        let words = random.words(size(m) + 1);
        for (left, right) in [(0, 0), (0, 1), (1, 0)] {
            good_product(random, m, 3, &words[left..left + size(m)], &words[right..right + size(m)]);
            let (mut due, mut got) = (vec![0; size(m)], vec![0; size(m)]);
            let mut scratch = vec![1; scratch_size(m)];
            let (h, g) = (&words[left..left + size(m)], &words[right..right + size(m)]);
            plain::product(m, 3, h, g, &mut due, &mut scratch.clone()).unwrap();
            hecke::product(m, 3, h, g, &mut got, &mut scratch).unwrap();
            assert_eq!(got, due);
        }
    }
}

#[test]
fn words_of_every_rank() {
    let random = &mut Random(17);
    for m in 0..=6 {
        for letters in [0, 1, 2, 3, 10, 50] {
            for _ in 0..if m < 5 { 20 } else { 3 } {
                let word = random.letters(m.max(1), if m == 0 { 0 } else { letters });
                let (q, element) = (random.parameter(), random.element(size(m)));
                assert!(act_word(m, q, &word, &element).is_ok());
            }
        }
    }
}

/// Every letter on every basis element.
#[test]
fn letters() {
    for m in 0..=4 {
        for q in EDGES {
            for place in 0..size(m) {
                for letter in 0..=m as u8 + 1 {
                    act_word(m, q, &[letter], &unit(m, place));
                }
            }
        }
    }
}

#[test]
fn words_of_4096_and_4097_letters() {
    let random = &mut Random(18);
    for m in 1..=6 {
        let element = random.words(size(m));
        let longest = random.letters(m, 4096);
        let count = 4096 * 3 * size(m) as u64 / 2;
        assert_eq!(act_word(m, 3, &longest, &element), Ok(vec![count]));
        for size in [4097, 100_000] {
            let mut word = random.letters(m, size);
            assert_eq!(act_word(m, 3, &word, &element), Err((4, 4096)));
            word[0] = 0;
            assert_eq!(act_word(m, 3, &word, &element), Err((4, 4096)));
        }
        for at in [0, 1, 4094, 4095] {
            for letter in [0, m as u8 + 1, 255] {
                let mut word = longest.clone();
                word[at] = letter;
                assert_eq!(act_word(m, 3, &word, &element), Err((4, at as u64)));
                word[4095] = 0;
                assert_eq!(act_word(m, 3, &word, &element), Err((4, at as u64)));
            }
        }
    }
}

#[test]
fn sums_and_scalings() {
    let random = &mut Random(19);
    for m in 0..=6 {
        for _ in 0..if m < 5 { 100 } else { 10 } {
            let (left, right, c) = (random.element(size(m)), random.element(size(m)), random.parameter());
            assert_eq!(sum(random, m, &left, &right, size(m)), Ok(vec![size(m) as u64]));
            assert_eq!(scale(random, m, c, &left, size(m)), Ok(vec![size(m) as u64]));
        }
    }
}

/// Sizes for a slice of rank m, the right one first.
fn sizes(m: usize) -> Vec<usize> {
    match m {
        0..=6 => vec![size(m), size(m) - 1, size(m) + 1, 0],
        _ => vec![5040, 40_320, 1, 0],
    }
}

/// What is due where these sizes are to be M words: a refusal, or else what follows.
fn due(m: usize, lent: &[usize], then: Answer) -> Answer {
    match m {
        0..=6 if lent.iter().all(|&words| words == size(m)) => then,
        0..=6 => Err((2, 0)),
        _ => Err((1, 0)),
    }
}

#[test]
fn sums_and_scalings_of_wrong_sizes() {
    let random = &mut Random(20);
    for m in (0..=6).chain(ABOVE) {
        let count: Answer = Ok(vec![size(m) as u64]);
        for left in sizes(m) {
            for result in sizes(m) {
                let h = random.words(left);
                assert_eq!(scale(random, m, 3, &h, result), due(m, &[left, result], count.clone()));
                for right in sizes(m) {
                    let g = random.words(right);
                    assert_eq!(sum(random, m, &h, &g, result), due(m, &[left, right, result], count.clone()));
                }
            }
        }
    }
}

#[test]
fn words_of_wrong_sizes() {
    let random = &mut Random(21);
    for m in (0..=6).chain(ABOVE) {
        let m_byte = m.min(6) as u8;
        for words in sizes(m) {
            let element = random.words(words);
            assert_eq!(act_word(m, 2, &[], &element), due(m, &[words], Ok(vec![0])));
            assert_eq!(act_word(m, 2, &[m_byte + 1], &element), due(m, &[words], Err((4, 0))));
            assert_eq!(act_word(m, 2, &[0; 4097], &element), due(m, &[words], Err((4, 4096))));
            let late = [vec![m_byte.max(1); 5], vec![0, 0]].concat();
            assert_eq!(act_word(m, 2, &late, &element), due(m, &[words], Err((4, if m == 0 { 0 } else { 5 }))));
        }
    }
}

/// The products of rank 5 and 6 that nothing refuses are left to `products_of_ranks_5_and_6`.
#[test]
fn products_of_wrong_sizes() {
    let random = &mut Random(22);
    for m in (0..=6).chain(ABOVE) {
        let room = scratch_size(m);
        let count = if m > 6 { 0 } else { plain::count::of_product(m) };
        for left in sizes(m) {
            for right in sizes(m) {
                for result in sizes(m) {
                    for scratch in [0, room.saturating_sub(1), room, room + 50] {
                        let then = if scratch < room { Err((3, 0)) } else { Ok(vec![count]) };
                        let due = due(m, &[left, right, result], then);
                        if m < 5 || due.is_err() {
                            let (h, g) = (random.words(left), random.words(right));
                            let factors = Factors { m, q: 2, left: &h, right: &g };
                            assert_eq!(product(random, factors, result, scratch), due);
                        }
                    }
                }
            }
        }
    }
}
