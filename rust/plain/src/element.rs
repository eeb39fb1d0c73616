//! Elements of the Iwahori-Hecke algebra and their product by the plain-list method (document 01, "Elements and their product";
//! formulas 3.1 and 4.1 to 4.4 of source document 000), over permutations and never over towers; inverse letters, the pairing
//! and the trace (document 02, Tickets 1, 2 and 4).

use crate::{count, perm, refuse, refuse_first, Refusal};
use std::mem::swap;
use std::sync::OnceLock;

/// The place of w s_i for a permutation w, and whether w s_i is longer than w.
#[derive(Clone, Copy)]
struct Step {
    place: usize,
    longer: bool,
}

/// The permutations of one rank, each by its place, with what formula 4.1 asks of them.
pub struct Group {
    pub permutations: Vec<Vec<u8>>,
    pub lengths: Vec<u64>,
    /// The places of the inverses.
    pub inverses: Vec<usize>,
    /// `steps[i - 1][p]` leads from the permutation at place p by s_i.
    steps: Vec<Vec<Step>>,
}

/// The number of permutations of rank m, which is M.
pub fn size(m: usize) -> usize {
    (1..=m + 1).product()
}

/// The place of w: the sum of a_j times j!.
pub fn place(w: &[u8]) -> usize {
    (1..).zip(perm::tower(w)).map(|(j, a)| a as usize * size(j - 1)).sum()
}

/// The permutations of rank m, by rising place.
fn permutations(m: usize) -> Vec<Vec<u8>> {
    let mut all = vec![vec![1]];
    for last in 2..=m as u8 + 1 {
        let put = |w: &Vec<u8>, at: usize| [&w[..at], &[last], &w[at..]].concat();
        all = all.iter().flat_map(|w| (0..=w.len()).map(move |at| put(w, at))).collect();
    }
    all.sort_by_cached_key(|w| place(w));
    all
}

/// The inverse of q modulo 2^64, bit by bit from the lowest; even q has none.
pub fn inverse(q: u64) -> Option<u64> {
    let mut x = 0u64;
    for bit in 0..64 {
        x |= (q.wrapping_mul(x) ^ 1) & 1 << bit;
    }
    (q.wrapping_mul(x) == 1).then_some(x)
}

/// What the inverse of T_i makes of h, from h T_i: q' (h T_i) + (q' - 1) h, where q' is the inverse of q.
pub fn undone(q: u64, h: &[u64], acted: &[u64]) -> Vec<u64> {
    let inverse = inverse(q).expect("q is odd");
    let both = h.iter().zip(acted);
    both.map(|(x, y)| inverse.wrapping_mul(*y).wrapping_add(inverse.wrapping_sub(1).wrapping_mul(*x))).collect()
}

impl Group {
    fn new(m: usize) -> Group {
        let permutations = permutations(m);
        let step = |w: &[u8], s: &[u8]| {
            let ws = perm::product(w, s);
            Step { place: place(&ws), longer: perm::length(&ws) > perm::length(w) }
        };
        let by = |i: u8| permutations.iter().map(|w| step(w, &perm::generator(m, i))).collect();
        let steps = (1..=m as u8).map(by).collect();
        let lengths = permutations.iter().map(|w| perm::length(w)).collect();
        let inverses = permutations.iter().map(|w| place(&perm::inverse(w))).collect();
        Group { permutations, lengths, inverses, steps }
    }

    /// The permutations of rank m, up to 6; made once.
    pub fn of_rank(m: usize) -> &'static Group {
        static GROUPS: [OnceLock<Group>; 7] = [const { OnceLock::new() }; 7];
        GROUPS[m].get_or_init(|| Group::new(m))
    }

    /// A shortest word of the permutation at a place.
    pub fn shortest_word(&self, mut place: usize) -> Vec<u8> {
        let mut word = Vec::new();
        while let Some(i) = self.steps.iter().position(|by| !by[place].longer) {
            word.push(i as u8 + 1);
            place = self.steps[i][place].place;
        }
        word.reverse();
        word
    }

    /// h T_i, by formula 4.1.
    fn letter(&self, q: u64, h: &[u64], i: u8, result: &mut [u64]) {
        let r = q.wrapping_sub(1);
        for ((z, &here), step) in result.iter_mut().zip(h).zip(&self.steps[i as usize - 1]) {
            let there = h[step.place];
            *z = if step.longer { q.wrapping_mul(there) } else { there.wrapping_add(r.wrapping_mul(here)) };
        }
    }

    /// The word's generators T_i act on h, left to right.
    pub fn act(&self, q: u64, h: &[u64], word: &[u8]) -> Vec<u64> {
        let (mut old, mut new) = (h.to_vec(), h.to_vec());
        for &i in word {
            self.letter(q, &old, i, &mut new);
            swap(&mut old, &mut new);
        }
        old
    }

    /// The word's letters act on h, left to right: i is T_i, and -i its inverse.
    pub fn act_signed(&self, q: u64, h: &[u64], word: &[i8]) -> Vec<u64> {
        word.iter().fold(h.to_vec(), |h, &i| {
            let acted = self.act(q, &h, &[i.unsigned_abs()]);
            if i < 0 {
                undone(q, &h, &acted)
            } else {
                acted
            }
        })
    }

    /// The product: the sum over all v of b_v h T_v, where T_v acts through a shortest word of v (formula 4.4).
    pub fn times(&self, q: u64, h: &[u64], g: &[u64]) -> Vec<u64> {
        let mut sum = vec![0u64; h.len()];
        for (v, &b) in g.iter().enumerate() {
            let part = self.act(q, h, &self.shortest_word(v));
            for (z, x) in sum.iter_mut().zip(part) {
                *z = z.wrapping_add(b.wrapping_mul(x));
            }
        }
        sum
    }

    /// The pairing, the coefficient of the unit in the product: the sum over all w of q^ℓ(w) h_w times g at the inverse of w.
    pub fn pairing(&self, q: u64, h: &[u64], g: &[u64]) -> u64 {
        let places = self.lengths.iter().zip(&self.inverses);
        h.iter().zip(places).fold(0, |sum: u64, (x, (&length, &inverse))| {
            sum.wrapping_add(q.wrapping_pow(length as u32).wrapping_mul(*x).wrapping_mul(g[inverse]))
        })
    }
}

/// The trace of h, of rank m, with the parameter z: at rank 0 the coefficient; at rank m the trace of h_0, plus z times the sum over
/// k = 1 to m of the trace of h_k T_a, where h_k is block k of h and a is a(m - 1, k - 1).
pub fn markov_trace(m: usize, q: u64, z: u64, h: &[u64]) -> u64 {
    if m == 0 {
        return h[0];
    }
    let mut blocks = h.chunks_exact(size(m - 1));
    let first = markov_trace(m - 1, q, z, blocks.next().expect("there is a block 0"));
    let others = (1..=m).zip(blocks).map(|(k, block)| {
        // a(m - 1, k - 1) is s_(m-1) s_(m-2) .. s_(m-k+1)
        let word: Vec<u8> = (m - k + 1..m).rev().map(|i| i as u8).collect();
        markov_trace(m - 1, q, z, &Group::of_rank(m - 1).act(q, block, &word))
    });
    first.wrapping_add(z.wrapping_mul(others.fold(0, u64::wrapping_add)))
}

/// Refuses a rank above 6, then an element that is not M words; else answers M.
fn check_sizes(m: usize, sizes: &[usize]) -> Result<usize, Refusal> {
    refuse(m > 6, 1, 0)?;
    refuse(sizes.iter().any(|&words| words != size(m)), 2, 0)?;
    Ok(size(m))
}

/// Writes the sum of two elements, and answers its count.
pub fn sum(m: usize, left: &[u64], right: &[u64], result: &mut [u64]) -> Result<u64, Refusal> {
    let size = check_sizes(m, &[left.len(), right.len(), result.len()])?;
    for (z, (x, y)) in result.iter_mut().zip(left.iter().zip(right)) {
        *z = x.wrapping_add(*y);
    }
    Ok(size as u64)
}

/// Writes an element times the word c, and answers its count.
pub fn scale(m: usize, c: u64, element: &[u64], result: &mut [u64]) -> Result<u64, Refusal> {
    let size = check_sizes(m, &[element.len(), result.len()])?;
    for (z, x) in result.iter_mut().zip(element) {
        *z = x.wrapping_mul(c);
    }
    Ok(size as u64)
}

/// Changes an element by a word of generators, left to right, and answers the count.
pub fn act_word(m: usize, q: u64, word: &[u8], element: &mut [u64]) -> Result<u64, Refusal> {
    let size = check_sizes(m, &[element.len()])?;
    refuse(word.len() > 4096, 4, 4096)?;
    refuse_first(word, 4, |_, &i| i == 0 || i as usize > m)?;
    let acted = Group::of_rank(m).act(q, element, word);
    element.copy_from_slice(&acted);
    Ok((word.len() * 3 * size / 2) as u64)
}

/// Changes an element by a word of signed letters, left to right, and answers the count.
pub fn act_signed_word(m: usize, q: u64, word: &[i8], element: &mut [u64]) -> Result<u64, Refusal> {
    let size = check_sizes(m, &[element.len()])?;
    refuse(word.len() > 4096, 4, 4096)?;
    refuse_first(word, 4, |_, &i| i == 0 || i.unsigned_abs() as usize > m)?;
    refuse_first(word, 15, |_, &i| i < 0 && inverse(q).is_none())?;
    let acted = Group::of_rank(m).act_signed(q, element, word);
    element.copy_from_slice(&acted);
    Ok((word.len() * 3 * size / 2) as u64)
}

/// Writes the product of two elements, clears the first (m + 6) M words of the scratch, and answers the count.
pub fn product(m: usize, q: u64, left: &[u64], right: &[u64], result: &mut [u64], scratch: &mut [u64]) -> Result<u64, Refusal> {
    let size = check_sizes(m, &[left.len(), right.len(), result.len()])?;
    refuse(scratch.len() < (m + 6) * size, 3, 0)?;
    result.copy_from_slice(&Group::of_rank(m).times(q, left, right));
    scratch[..(m + 6) * size].fill(0);
    Ok(count::of_product(m))
}

/// The pairing of two elements.
pub fn pairing(m: usize, q: u64, left: &[u64], right: &[u64]) -> Result<u64, Refusal> {
    check_sizes(m, &[left.len(), right.len()])?;
    Ok(Group::of_rank(m).pairing(q, left, right))
}

/// The trace of an element with the parameter z; it clears the first (m + 6) M words of the scratch.
pub fn trace(m: usize, q: u64, z: u64, element: &[u64], scratch: &mut [u64]) -> Result<u64, Refusal> {
    let size = check_sizes(m, &[element.len()])?;
    refuse(scratch.len() < (m + 6) * size, 3, 0)?;
    scratch[..(m + 6) * size].fill(0);
    Ok(markov_trace(m, q, z, element))
}

#[cfg(test)]
mod tests {
    use super::*;

    /// Document 01: rank 2 indices 0 to 5 are 1, s_1, s_2, s_1 s_2, s_2 s_1, s_1 s_2 s_1.
    #[test]
    fn places_of_rank_2() {
        let words: [&[u8]; 6] = [&[], &[1], &[2], &[1, 2], &[2, 1], &[1, 2, 1]];
        for (index, word) in words.iter().enumerate() {
            assert_eq!(place(&perm::of_word(2, word)), index);
            assert_eq!(Group::of_rank(2).shortest_word(index).len(), word.len());
        }
    }

    /// Document 01's products.
    #[test]
    fn cases() {
        let h = [0, 0, 0, 0, 1, 0];
        assert_eq!(Group::of_rank(2).times(2, &h, &h), [0, 0, 0, 2, 0, 1]);
        assert_eq!(Group::of_rank(1).times(0, &[0, 1], &[0, 1]), [0, u64::MAX]);
        assert_eq!(Group::of_rank(1).times(1, &[0, 1], &[0, 1]), [1, 0]);
        assert_eq!(Group::of_rank(1).act(3, &[1, 0], &[1, 1]), [3, 2]);
    }

    #[test]
    fn inverses() {
        assert_eq!(inverse(3), Some(12297829382473034411));
        assert_eq!(inverse(u64::MAX), Some(u64::MAX));
        for q in (1..2000).chain(u64::MAX - 2000..=u64::MAX) {
            assert_eq!(inverse(q).map(|x| x.wrapping_mul(q)), (q % 2 == 1).then_some(1));
        }
    }

    /// At q = 3 the inverse of T_1 is a T_1 + a - 1, where 3 a = 1; it undoes T_1.
    #[test]
    fn signed_words() {
        let group = Group::of_rank(1);
        assert_eq!(group.act_signed(3, &[1, 0], &[-1]), [12297829382473034410, 12297829382473034411]);
        assert_eq!(group.act_signed(3, &[5, 7], &[1, -1]), [5, 7]);
        assert_eq!(group.act_signed(3, &[5, 7], &[-1, 1]), [5, 7]);
        assert_eq!(Group::of_rank(2).act_signed(9, &[1, 2, 3, 4, 5, 6], &[1, -2, 2, -1]), [1, 2, 3, 4, 5, 6]);
    }

    #[test]
    fn refused_signed_words() {
        let mut element = [1; 6];
        let refused = |number, place| Err(Refusal { number, place });
        assert_eq!(act_signed_word(7, 2, &[-1, 0], &mut element), refused(1, 0));
        assert_eq!(act_signed_word(2, 2, &[-1, 0], &mut element[1..]), refused(2, 0));
        assert_eq!(act_signed_word(2, 2, &[-1, 0], &mut element), refused(4, 1));
        assert_eq!(act_signed_word(2, 2, &[-1, -128], &mut element), refused(4, 1));
        assert_eq!(act_signed_word(2, 2, &[-1; 4097], &mut element), refused(4, 4096));
        assert_eq!(act_signed_word(2, 2, &[1, -1, -2], &mut element), refused(15, 1));
        assert_eq!(act_signed_word(2, 2, &[1, 2], &mut element), Ok(18));
        assert_eq!(act_signed_word(2, 3, &[1, -1, -2], &mut element), Ok(27));
    }

    /// Document 02's cases: T of s_1 s_2 paired with itself, and with T of s_2 s_1.
    #[test]
    fn pairings() {
        let (h, g) = ([0, 0, 0, 1, 0, 0], [0, 0, 0, 0, 1, 0]);
        assert_eq!(pairing(2, 2, &h, &h), Ok(0));
        assert_eq!(pairing(2, 2, &h, &g), Ok(4));
        assert_eq!(pairing(2, 2, &g, &h), Ok(4));
        assert_eq!(pairing(1, 3, &[2, 5], &[4, 7]), Ok(2 * 4 + 3 * 5 * 7));
    }

    /// The pairing is the coefficient of the unit in the product, for words of all sizes.
    #[test]
    fn pairings_by_products() {
        let words = |size, seed: u64| (1..).map(move |i: u64| i.wrapping_mul(seed).rotate_left(i as u32)).take(size);
        for (m, q) in (0..=4).flat_map(|m| [0, 1, 2, 3, 10, 1 << 63, u64::MAX].map(|q| (m, q))) {
            let (h, g) = (words(size(m), 0x9e37_79b9_7f4a_7c15), words(size(m), 0x5851_f42d_4c95_7f2d));
            let (h, g): (Vec<u64>, Vec<u64>) = (h.collect(), g.collect());
            assert_eq!(pairing(m, q, &h, &g), Ok(Group::of_rank(m).times(q, &h, &g)[0]));
        }
    }

    #[test]
    fn refused_pairings() {
        let refused = |number| Err(Refusal { number, place: 0 });
        assert_eq!(pairing(7, 2, &[1; 6], &[1; 5]), refused(1));
        assert_eq!(pairing(usize::MAX, 2, &[], &[]), refused(1));
        for (left, right) in [(5, 6), (6, 5), (6, 7), (7, 6), (0, 6), (6, 0), (5, 7), (0, 0)] {
            assert_eq!(pairing(2, 2, &vec![1; left], &vec![1; right]), refused(2));
        }
    }

    /// Of rank 1, (a, b) has the trace a + z b. Of rank 2 the T_w, by place, have 1, z, z, z^2, z^2 and z ((q - 1) z + q).
    #[test]
    fn traces() {
        let scratch = &mut [7; 48];
        assert_eq!(trace(0, 3, 5, &[9], scratch), Ok(9));
        assert_eq!(trace(1, 3, 5, &[2, 3], scratch), Ok(17));
        for (q, z) in [(3, 5), (0, 2), (1, u64::MAX), (u64::MAX, 7), (10, 0)] {
            let last = z.wrapping_mul(q.wrapping_sub(1).wrapping_mul(z).wrapping_add(q));
            let square = z.wrapping_mul(z);
            for (place, due) in [1, z, z, square, square, last].into_iter().enumerate() {
                let basis: Vec<u64> = (0..6).map(|index| (index == place) as u64).collect();
                assert_eq!(trace(2, q, z, &basis, scratch), Ok(due));
            }
        }
        assert_eq!(trace(2, 3, 5, &[1, 10, 100, 1000, 10_000, 100_000], scratch), Ok(6_775_551));
    }

    /// With z = 0 the trace is the coefficient of the unit, and with q = 1 and z = 1 the sum of all coefficients.
    #[test]
    fn traces_at_edges() {
        for m in 0..=6 {
            let words: Vec<u64> = (1..=size(m) as u64).map(|i| i.wrapping_mul(0x9e37_79b9_7f4a_7c15)).collect();
            assert_eq!(markov_trace(m, 3, 0, &words), words[0]);
            assert_eq!(markov_trace(m, 1, 1, &words), words.iter().fold(0, |sum, x| x.wrapping_add(sum)));
        }
    }

    /// tr(x T_m y) is z tr(x y), for x and y of rank m - 1.
    #[test]
    fn markov_property() {
        let words = |size, seed: u64| (1..).map(move |i: u64| i.wrapping_mul(seed).rotate_left(i as u32)).take(size);
        let up = |m, x: &[u64]| [x, &vec![0; size(m) - x.len()]].concat();
        for (m, (q, z)) in (1..=4).flat_map(|m| [(3, 5), (0, 3), (1, 2), (10, u64::MAX), (1 << 63, 9)].map(|p| (m, p))) {
            let (x, y) = (words(size(m - 1), 0x9e37_79b9_7f4a_7c15), words(size(m - 1), 0x5851_f42d_4c95_7f2d));
            let (x, y): (Vec<u64>, Vec<u64>) = (x.collect(), y.collect());
            let group = Group::of_rank(m);
            let between = group.times(q, &group.act(q, &up(m, &x), &[m as u8]), &up(m, &y));
            let product = Group::of_rank(m - 1).times(q, &x, &y);
            assert_eq!(markov_trace(m, q, z, &between), z.wrapping_mul(markov_trace(m - 1, q, z, &product)));
            assert_eq!(markov_trace(m, q, z, &up(m, &x)), markov_trace(m - 1, q, z, &x));
        }
    }

    /// 1 before 2 before 3; the scratch is cleared, or left as it was.
    #[test]
    fn refused_traces() {
        let refused = |number| Err(Refusal { number, place: 0 });
        let scratch = &mut [7; 50];
        assert_eq!(trace(7, 2, 3, &[1; 6], &mut []), refused(1));
        assert_eq!(trace(usize::MAX, 2, 3, &[], scratch), refused(1));
        assert_eq!(trace(2, 2, 3, &[1; 5], &mut scratch[..47]), refused(2));
        assert_eq!(trace(2, 2, 3, &[1; 7], scratch), refused(2));
        assert_eq!(trace(2, 2, 3, &[1; 6], &mut scratch[..47]), refused(3));
        assert_eq!(*scratch, [7; 50]);
        assert!(trace(2, 2, 3, &[1; 6], scratch).is_ok());
        assert!(scratch[..48] == [0; 48] && scratch[48..] == [7; 2]);
    }

    /// Each word of the group's own gives the permutation that it is for, and is as long.
    #[test]
    fn shortest_words() {
        let group = Group::of_rank(4);
        for (index, w) in group.permutations.iter().enumerate() {
            let word = group.shortest_word(index);
            assert_eq!(&perm::of_word(4, &word), w);
            assert_eq!(word.len() as u64, group.lengths[index]);
        }
    }
}
