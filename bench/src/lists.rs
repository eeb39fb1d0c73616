//! Products and words by formula 4.4 on plain lists, as fast as it goes in plain Rust, the pairing and the trace.
//!
//! What formula 4.1 asks of permutations stands in tables, made once: for each s_i the pairs of places of w and w s_i with w s_i
//! longer, and for each place a shortest word. So do the lengths and the places of the inverses.

use crate::nested::inverse;
use plain::element::{place, Group};
use plain::perm;
use std::sync::OnceLock;

/// The tables of one rank.
struct Lists {
    words: Vec<Vec<u8>>,
    /// `pairs[i - 1]` has the places of w and w s_i.
    pairs: Vec<Vec<(u16, u16)>>,
    /// `longer[p]` has the places of the permutations whose word is that of place p and one letter i more, with i.
    longer: Vec<Vec<(u8, u16)>>,
    /// `inverses[p]` has the length of the permutation at place p and the place of its inverse.
    inverses: Vec<(u8, u16)>,
}

impl Lists {
    fn new(m: usize) -> Lists {
        let group = Group::of_rank(m);
        let words: Vec<Vec<u8>> = (0..group.permutations.len()).map(|p| group.shortest_word(p)).collect();
        let pair = |p: usize, i: u8| {
            let other = place(&perm::product(&group.permutations[p], &perm::generator(m, i)));
            (group.lengths[p] < group.lengths[other]).then_some((p as u16, other as u16))
        };
        let pairs = (1..=m as u8).map(|i| (0..words.len()).filter_map(|p| pair(p, i)).collect()).collect();
        let mut longer = vec![Vec::new(); words.len()];
        for (p, word) in words.iter().enumerate() {
            if let Some((&i, rest)) = word.split_last() {
                longer[place(&perm::of_word(m, rest))].push((i, p as u16));
            }
        }
        let inverses = group.lengths.iter().zip(&group.inverses).map(|(&n, &p)| (n as u8, p as u16)).collect();
        Lists { words, pairs, longer, inverses }
    }

    fn of_rank(m: usize) -> &'static Lists {
        static LISTS: [OnceLock<Lists>; 7] = [const { OnceLock::new() }; 7];
        LISTS[m].get_or_init(|| Lists::new(m))
    }

    /// x T_i in the place of x.
    fn letter(&self, q: u64, x: &mut [u64], i: u8) {
        for (short, long) in self.places(i) {
            (x[short], x[long]) = exchanged(q, x[short], x[long]);
        }
    }

    /// x times the inverse of T_i in the place of x, from the inverse of q: w and w s_i change their parts.
    fn inverse_letter(&self, inverse: u64, x: &mut [u64], i: u8) {
        for (short, long) in self.places(i) {
            (x[long], x[short]) = exchanged(inverse, x[long], x[short]);
        }
    }

    /// x T_i in the place of y.
    fn letter_into(&self, q: u64, x: &[u64], i: u8, y: &mut [u64]) {
        for (short, long) in self.places(i) {
            (y[short], y[long]) = exchanged(q, x[short], x[long]);
        }
    }

    fn places(&self, i: u8) -> impl Iterator<Item = (usize, usize)> + '_ {
        self.pairs[i as usize - 1].iter().map(|&(short, long)| (short as usize, long as usize))
    }

    /// Adds g_v x for x = h T_v, and so on for each v that is longer.
    fn collect(&self, q: u64, v: usize, g: &[u64], result: &mut [u64], kept: &mut [u64]) {
        let (x, rest) = kept.split_at_mut(result.len());
        add_multiple(result, g[v], x);
        for &(i, longer) in &self.longer[v] {
            self.letter_into(q, x, i, &mut rest[..x.len()]);
            self.collect(q, longer as usize, g, result, rest);
        }
    }
}

/// By formula 4.1, what stands at w and at the longer w s_i after T_i.
fn exchanged(q: u64, short: u64, long: u64) -> (u64, u64) {
    (q.wrapping_mul(long), short.wrapping_add(q.wrapping_sub(1).wrapping_mul(long)))
}

fn add_multiple(sum: &mut [u64], c: u64, element: &[u64]) {
    for (z, x) in sum.iter_mut().zip(element) {
        *z = z.wrapping_add(c.wrapping_mul(*x));
    }
}

/// The word's generators T_i act on the element of rank m, left to right.
pub fn act_word(m: usize, q: u64, word: &[u8], element: &mut [u64]) {
    for &i in word {
        Lists::of_rank(m).letter(q, element, i);
    }
}

/// The word's signed letters act on the element of rank m, left to right, for odd q.
pub fn act_signed_word(m: usize, q: u64, word: &[i8], element: &mut [u64]) {
    let inverse = inverse(q);
    for &i in word {
        match i {
            1.. => Lists::of_rank(m).letter(q, element, i as u8),
            _ => Lists::of_rank(m).inverse_letter(inverse, element, i.unsigned_abs()),
        }
    }
}

/// The product of two elements of rank m, where each T_v acts through its whole word. The scratch, which is as large as the
/// library asks for, is zero afterwards.
pub fn product(m: usize, q: u64, left: &[u64], right: &[u64], result: &mut [u64], scratch: &mut [u64]) {
    let lists = Lists::of_rank(m);
    result.fill(0);
    let x = &mut scratch[..left.len()];
    for (word, &b) in lists.words.iter().zip(right) {
        x.copy_from_slice(left);
        word.iter().for_each(|&i| lists.letter(q, x, i));
        add_multiple(result, b, x);
    }
    scratch.fill(0);
}

/// The same product, where h T_v is kept for every beginning of the word in hand, in as many lists more as T_v has letters.
pub fn product_kept(m: usize, q: u64, left: &[u64], right: &[u64], result: &mut [u64], scratch: &mut [u64]) {
    let mut kept = vec![0; (m * (m + 1) / 2 + 1) * left.len()];
    kept[..left.len()].copy_from_slice(left);
    result.fill(0);
    Lists::of_rank(m).collect(q, 0, right, result, &mut kept);
    scratch.fill(0);
}

/// The pairing of two elements of rank m, as its sum is written. The powers of q are made once.
pub fn pairing(m: usize, q: u64, left: &[u64], right: &[u64]) -> u64 {
    let mut powers = [1u64; 22];
    for n in 1..=m * (m + 1) / 2 {
        powers[n] = powers[n - 1].wrapping_mul(q);
    }
    left.iter().zip(&Lists::of_rank(m).inverses).fold(0, |sum: u64, (x, &(length, inverse))| {
        sum.wrapping_add(powers[length as usize].wrapping_mul(*x).wrapping_mul(right[inverse as usize]))
    })
}

/// The trace of an element of rank m, as it is defined: each h_k T_a is made in the front of x, and traced by way of the rest.
fn traced(m: usize, q: u64, z: u64, element: &[u64], x: &mut [u64]) -> u64 {
    let Some(lower) = m.checked_sub(1) else { return element[0] };
    let mut blocks = element.chunks_exact(element.len() / (m + 1));
    let first = traced(lower, q, z, blocks.next().expect("there is a block 0"), x);
    let (turned, x) = x.split_at_mut(element.len() / (m + 1));
    let sum = (0..m).zip(blocks).fold(0, |sum: u64, (l, block)| {
        turned.copy_from_slice(block);
        (m - l..m).rev().for_each(|i| Lists::of_rank(lower).letter(q, turned, i as u8));
        sum.wrapping_add(traced(lower, q, z, turned, x))
    });
    first.wrapping_add(z.wrapping_mul(sum))
}

/// The trace of an element of rank m, as it is defined.
pub fn trace(m: usize, q: u64, z: u64, element: &[u64], scratch: &mut [u64]) -> u64 {
    let value = traced(m, q, z, element, scratch);
    scratch.fill(0);
    value
}
