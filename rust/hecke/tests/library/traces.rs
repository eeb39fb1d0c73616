//! The trace with the parameter z.

use crate::compare::trace;
use crate::random::{Random, EDGES};
use hecke::{scratch_size, size};

/// T_w for the permutation w at a place.
fn basis(m: usize, place: usize) -> Vec<u64> {
    (0..size(m)).map(|index| (index == place) as u64).collect()
}

/// The trace by the library, with the scratch that it asks for.
fn value(m: usize, q: u64, z: u64, element: &[u64]) -> u64 {
    hecke::trace(m, q, z, element, &mut vec![1; scratch_size(m)]).unwrap()
}

/// The product by the library.
fn product(m: usize, q: u64, left: &[u64], right: &[u64]) -> Vec<u64> {
    let (mut result, mut scratch) = (vec![0; size(m)], vec![0; scratch_size(m)]);
    hecke::product(m, q, left, right, &mut result, &mut scratch).unwrap();
    result
}

/// An element of rank m - 1 as one of rank m: its coefficients, then zeros.
fn embedded(m: usize, element: &[u64]) -> Vec<u64> {
    [element, &vec![0; size(m) - element.len()]].concat()
}

/// Of rank 1, (a, b) has the trace a + z b for every q. Of rank 2 the T_w, by place, have 1, z, z, z^2, z^2 and z ((q - 1) z + q).
#[test]
fn ranks_0_to_2() {
    let random = &mut Random(71);
    for q in EDGES.into_iter().chain([random.word(), 10]) {
        for z in EDGES.into_iter().chain([random.word(), 5]) {
            let (a, b, square) = (random.word(), random.word(), z.wrapping_mul(z));
            assert_eq!(trace(random, (0, q, z), &[a], 6), Ok(vec![a]));
            assert_eq!(trace(random, (1, q, z), &[a, b], 14), Ok(vec![a.wrapping_add(z.wrapping_mul(b))]));
            let last = z.wrapping_mul(q.wrapping_sub(1).wrapping_mul(z).wrapping_add(q));
            for (place, due) in [1, z, z, square, square, last].into_iter().enumerate() {
                assert_eq!(trace(random, (2, q, z), &basis(2, place), 48), Ok(vec![due]));
            }
        }
    }
    assert_eq!(trace(random, (2, 3, 5), &[1, 10, 100, 1000, 10_000, 100_000], 48), Ok(vec![6_775_551]));
}

/// The trefoil at q = 3, T_1 cubed: of rank 1 its trace is 6 + 7 z, and closed on three strands, with T_2 after it, z times that.
#[test]
fn trefoils() {
    let random = &mut Random(72);
    for z in EDGES.into_iter().chain([5, random.word()]) {
        let due = 6u64.wrapping_add(z.wrapping_mul(7));
        let (mut two, mut three) = (basis(1, 0), basis(2, 0));
        hecke::act_word(1, 3, &[1, 1, 1], &mut two).unwrap();
        assert_eq!(trace(random, (1, 3, z), &two, 14), Ok(vec![due]));
        hecke::act_word(2, 3, &[1, 1, 1, 2], &mut three).unwrap();
        assert_eq!(trace(random, (2, 3, z), &three, 48), Ok(vec![due.wrapping_mul(z)]));
    }
}

/// Each T_w of ranks 0 to 4.
#[test]
fn basis_elements() {
    let random = &mut Random(73);
    for m in 0..=4 {
        for (q, z) in EDGES.into_iter().zip(EDGES.into_iter().cycle().skip(2)).chain([(3, 5), (10, 7)]) {
            for place in 0..size(m) {
                assert!(trace(random, (m, q, z), &basis(m, place), scratch_size(m)).is_ok());
            }
        }
    }
}

#[test]
fn random_elements() {
    let random = &mut Random(74);
    for (m, times) in [400, 400, 400, 400, 400, 60, 8].into_iter().enumerate() {
        for _ in 0..times {
            let (q, z, element) = (random.parameter(), random.parameter(), random.element(size(m)));
            let scratch = scratch_size(m) + random.pick(&[0, 1, 7, 100]);
            assert!(trace(random, (m, q, z), &element, scratch).is_ok());
        }
        let words = random.words(size(m));
        let (q, z) = (random.word(), random.word());
        assert!(trace(random, (m, q, z), &words, scratch_size(m)).is_ok());
    }
}

/// The unit has the trace 1; with z = 0 the trace is the coefficient of the unit, and with q = 1 and z = 1 the sum of all.
#[test]
fn units_and_edges() {
    let random = &mut Random(75);
    for m in 0..=6 {
        let (q, z, words) = (random.word(), random.word(), random.words(size(m)));
        assert_eq!(value(m, q, z, &basis(m, 0)), 1);
        assert_eq!(value(m, q, 0, &words), words[0]);
        assert_eq!(value(m, 1, 1, &words), words.iter().fold(0, |sum: u64, x| sum.wrapping_add(*x)));
    }
}

/// tr(h + c g) is tr(h) + c tr(g).
#[test]
fn linear() {
    let random = &mut Random(76);
    for (m, times) in [100, 100, 100, 100, 100, 50, 20].into_iter().enumerate() {
        for _ in 0..times {
            let (q, z, c) = (random.parameter(), random.parameter(), random.word());
            let (h, g) = (random.words(size(m)), random.words(size(m)));
            let both: Vec<u64> = h.iter().zip(&g).map(|(x, y)| x.wrapping_add(c.wrapping_mul(*y))).collect();
            assert_eq!(value(m, q, z, &both), value(m, q, z, &h).wrapping_add(c.wrapping_mul(value(m, q, z, &g))));
        }
    }
}

/// tr(x T_m y) is z tr(x y) for x and y of rank m - 1, by the library's own words and products; x of rank m has the trace of x.
#[test]
fn markov_property() {
    let random = &mut Random(77);
    for (m, times) in (1..=6).zip([100, 100, 100, 50, 10, 2]) {
        for _ in 0..times {
            let (q, z) = (random.parameter(), random.parameter());
            let (x, y) = (random.words(size(m - 1)), random.words(size(m - 1)));
            let mut between = embedded(m, &x);
            assert_eq!(value(m, q, z, &between), value(m - 1, q, z, &x));
            hecke::act_word(m, q, &[m as u8], &mut between).unwrap();
            let between = product(m, q, &between, &embedded(m, &y));
            assert_eq!(value(m, q, z, &between), z.wrapping_mul(value(m - 1, q, z, &product(m - 1, q, &x, &y))));
        }
    }
}

/// tr(h g) is tr(g h), for words on the unit and for random elements.
#[test]
fn either_end() {
    let random = &mut Random(78);
    for m in 1..=5 {
        let (q, z) = (random.word(), random.word());
        let (h, g) = (random.words(size(m)), random.words(size(m)));
        assert_eq!(value(m, q, z, &product(m, q, &h, &g)), value(m, q, z, &product(m, q, &g, &h)));
        for letters in [2, 5, 12] {
            let word = random.letters(m, letters);
            let turned = [&word[1..], &word[..1]].concat();
            let [one, other] = [word, turned].map(|word| {
                let mut element = basis(m, 0);
                hecke::act_word(m, q, &word, &mut element).unwrap();
                value(m, q, z, &element)
            });
            assert_eq!(one, other);
        }
    }
}

/// The first (m + 6) M words of the scratch are zero afterwards and the rest as before; where the call is refused, all are.
#[test]
fn scratch() {
    let random = &mut Random(79);
    for m in 0..=6 {
        let (need, element) = (scratch_size(m), random.words(size(m)));
        for more in [0, 1, 1000] {
            let old = random.words(need + more);
            let mut lent = old.clone();
            hecke::trace(m, 3, 5, &element, &mut lent).unwrap();
            assert!(lent[..need].iter().all(|&word| word == 0) && lent[need..] == old[need..]);
            let mut short = old.clone();
            assert!(hecke::trace(m, 3, 5, &element, &mut short[..need - 1]).is_err() && short == old);
        }
    }
}

/// 1 before 2 before 3, with either slice or both of another size.
#[test]
fn wrong_sizes() {
    let random = &mut Random(80);
    for m in (0..=6).chain([7, 8, 255, 256, 1 << 32, usize::MAX]) {
        let (words, room) = (size(m), scratch_size(m));
        let sizes = if m > 6 { vec![5040, 40_320, 1, 0] } else { vec![words, words - 1, words + 1, 0, 2 * words] };
        let rooms = if m > 6 { vec![60_480, 1, 0] } else { vec![room, room - 1, words, 0, room + 1] };
        for (&element, &scratch) in sizes.iter().flat_map(|element| rooms.iter().map(move |scratch| (element, scratch))) {
            let (element, z) = (random.words(element), random.word());
            let answer = trace(random, (m, 2, z), &element, scratch);
            match m {
                7.. => assert_eq!(answer, Err((1, 0))),
                _ if element.len() != words => assert_eq!(answer, Err((2, 0))),
                _ if scratch < room => assert_eq!(answer, Err((3, 0))),
                _ => assert!(answer.is_ok()),
            }
        }
    }
}
