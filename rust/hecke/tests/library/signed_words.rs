//! Words of signed letters.

use crate::compare::{act_signed_word, act_word};
use crate::random::{Random, EDGES};
use hecke::size;

/// The mirror word read backwards, which undoes the word.
fn mirror(word: &[i8]) -> Vec<i8> {
    word.iter().rev().map(|&letter| -letter).collect()
}

/// The count of so many letters.
fn count(m: usize, letters: usize) -> Vec<u64> {
    vec![(letters * 3 * size(m) / 2) as u64]
}

/// What is due for a word of letters in range: 15 at the first letter below 0 if q is even, else the count.
fn due(m: usize, q: u64, word: &[i8]) -> Result<Vec<u64>, (u8, u64)> {
    match word.iter().position(|&letter| letter < 0) {
        Some(index) if q % 2 == 0 => Err((15, index as u64)),
        _ => Ok(count(m, word.len())),
    }
}

#[test]
fn words_of_every_rank() {
    let random = &mut Random(51);
    for m in 0..=6 {
        for letters in [0, 1, 2, 3, 10, 50] {
            for _ in 0..if m < 5 { 40 } else { 6 } {
                let word = random.signed_letters(m.max(1), if m == 0 { 0 } else { letters });
                let (q, element) = (random.parameter(), random.element(size(m)));
                for q in [q, q | 1] {
                    assert_eq!(act_signed_word(m, q, &word, &element), due(m, q, &word));
                }
            }
        }
    }
}

/// Letters about the bounds on every basis element; every byte as a letter.
#[test]
fn letters() {
    for m in 0..=4 {
        for q in EDGES {
            for place in 0..size(m) {
                let element: Vec<u64> = (0..size(m)).map(|index| (index == place) as u64).collect();
                for letter in -(m as i8) - 1..=m as i8 + 1 {
                    act_signed_word(m, q, &[letter], &element);
                }
            }
            for letter in i8::MIN..=i8::MAX {
                let good = letter != 0 && letter.unsigned_abs() as usize <= m;
                let due = if good { due(m, q, &[letter]) } else { Err((4, 0)) };
                assert_eq!(act_signed_word(m, q, &[letter], &vec![7; size(m)]), due);
            }
        }
    }
}

/// For odd q a word and then, in a second call, its mirror word read backwards bring any element home.
#[test]
fn mirror_brings_home() {
    let random = &mut Random(52);
    for m in 1..=6 {
        for letters in [1, 2, 5, 20, 100] {
            for _ in 0..if m < 5 { 20 } else { 3 } {
                let (q, word) = (random.parameter() | 1, random.signed_letters(m, letters));
                let start = random.element(size(m));
                let mut element = start.clone();
                assert_eq!(hecke::act_signed_word(m, q, &word, &mut element), Ok(count(m, letters)[0]));
                assert_eq!(hecke::act_signed_word(m, q, &mirror(&word), &mut element), Ok(count(m, letters)[0]));
                assert_eq!(element, start);
            }
        }
    }
}

/// Letters above 0 act as in a plain word, whatever q is.
#[test]
fn plain_letters() {
    let random = &mut Random(53);
    for m in 1..=6 {
        for letters in [0, 1, 10, 50] {
            for _ in 0..if m < 5 { 10 } else { 2 } {
                let (q, word, element) = (random.parameter(), random.letters(m, letters), random.element(size(m)));
                let signed: Vec<i8> = word.iter().map(|&letter| letter as i8).collect();
                assert_eq!(act_signed_word(m, q, &signed, &element), act_word(m, q, &word, &element));
                let (mut one, mut other) = (element.clone(), element.clone());
                hecke::act_word(m, q, &word, &mut one).unwrap();
                hecke::act_signed_word(m, q, &signed, &mut other).unwrap();
                assert_eq!(one, other);
            }
        }
    }
}

/// An inverse letter is q' T_i + (q' - 1) by the library's own sum, scaling and word action.
#[test]
fn inverse_letters_by_other_calls() {
    let random = &mut Random(54);
    for m in 1..=5 {
        for letter in 1..=m as u8 {
            let (q, h) = (random.parameter() | 1, random.words(size(m)));
            let inverse = plain::element::inverse(q).unwrap();
            let (mut acted, mut part, mut rest, mut sum) = (h.clone(), h.clone(), h.clone(), h.clone());
            hecke::act_word(m, q, &[letter], &mut acted).unwrap();
            hecke::scale(m, inverse, &acted, &mut part).unwrap();
            hecke::scale(m, inverse.wrapping_sub(1), &h, &mut rest).unwrap();
            hecke::sum(m, &part, &rest, &mut sum).unwrap();
            let mut element = h.clone();
            hecke::act_signed_word(m, q, &[-(letter as i8)], &mut element).unwrap();
            assert_eq!(element, sum);
        }
    }
}

#[test]
fn words_of_4096_and_4097_letters() {
    let random = &mut Random(55);
    for m in 1..=4 {
        let (element, longest) = (random.words(size(m)), random.signed_letters(m, 4096));
        assert_eq!(act_signed_word(m, 3, &longest, &element), Ok(count(m, 4096)));
        let mut home = element.clone();
        assert_eq!(hecke::act_signed_word(m, 3, &longest, &mut home), Ok(count(m, 4096)[0]));
        assert_eq!(hecke::act_signed_word(m, 3, &mirror(&longest), &mut home), Ok(count(m, 4096)[0]));
        assert_eq!(home, element);
        assert_eq!(act_signed_word(m, 2, &longest, &element), due(m, 2, &longest));
        for (q, letters) in [(3, 4097), (2, 4097), (3, 100_000), (2, 100_000)] {
            let mut word = random.signed_letters(m, letters);
            assert_eq!(act_signed_word(m, q, &word, &element), Err((4, 4096)));
            word[0] = 0;
            assert_eq!(act_signed_word(m, q, &word, &element), Err((4, 4096)));
        }
        let mut last = vec![m as i8; 4096];
        last[4095] = -1;
        assert_eq!(act_signed_word(m, 2, &last, &element), Err((15, 4095)));
        for (q, at) in [(3, 0), (2, 1), (3, 4094), (2, 4095)] {
            for letter in [0, m as i8 + 1, -(m as i8) - 1, i8::MAX, i8::MIN] {
                let mut word = longest.clone();
                word[at] = letter;
                assert_eq!(act_signed_word(m, q, &word, &element), Err((4, at as u64)));
                word[4095] = 0;
                assert_eq!(act_signed_word(m, q, &word, &element), Err((4, at as u64)));
            }
        }
    }
}

/// 1 before 2, 2 before 4, 4 before 15, with all the later faults at once.
#[test]
fn order_of_the_checks() {
    let random = &mut Random(56);
    for q in [2, 3] {
        for m in (0..=6).chain([7, 8, 255, 256, 1 << 32, usize::MAX]) {
            let right = size(m);
            let lengths = if m > 6 { vec![5040, 1, 0] } else { vec![right, right - 1, right + 1, 0] };
            for words in lengths {
                let element = random.words(words);
                for (word, then) in [
                    (vec![], Ok(vec![0])),
                    (vec![0, -1], Err((4, 0))),
                    (vec![i8::MIN, -1], Err((4, 0))),
                    (vec![-1; 4097], Err((4, 4096))),
                ] {
                    let due = match m {
                        7.. => Err((1, 0)),
                        _ if words != right => Err((2, 0)),
                        _ => then,
                    };
                    assert_eq!(act_signed_word(m, q, &word, &element), due);
                }
            }
        }
    }
    for (word, due) in [
        (&[1, -2, 0][..], Err((4, 2))),
        (&[-1, 3], Err((4, 1))),
        (&[-1, -3], Err((4, 1))),
        (&[1, 2, -2, -1], Err((15, 2))),
        (&[-2], Err((15, 0))),
        (&[2, 1], Ok(count(2, 2))),
    ] {
        assert_eq!(act_signed_word(2, 1 << 63, word, &[7; 6]), due);
    }
}
