//! The trace in plain Rust: at each level one element of a rank less, which has the same trace, takes the place of the element.

use crate::nested::act_word;

/// Computes the trace of an element of rank m at q with the parameter z, by way of a scratch of (m + 6) M words, which is zero
/// afterwards.
pub type Trace = fn(m: usize, q: u64, z: u64, element: &[u64], scratch: &mut [u64]) -> u64;

/// The letters of a(6, 6); those of a(j, l) are the first l of the last j.
const LETTERS: [u8; 6] = [6, 5, 4, 3, 2, 1];

/// h_0 + z (h_1 + h_2 T_a(m,1) + .. + h_(m+1) T_a(m,m)) in the place of the first of the blocks h_0, h_1, .. of x, of rank m.
fn lower(x: &mut [u64], m: usize, q: u64, z: u64) {
    let (first, others) = x.split_at_mut(x.len() / (m + 2));
    let (sum, turned) = others.split_at_mut(first.len());
    for (l, block) in (1..).zip(turned.chunks_exact_mut(first.len())) {
        act_word(m, q, &LETTERS[6 - m..][..l], block);
        for (s, y) in sum.iter_mut().zip(block) {
            *s = s.wrapping_add(*y);
        }
    }
    for (x, s) in first.iter_mut().zip(sum) {
        *x = x.wrapping_add(z.wrapping_mul(*s));
    }
}

/// The trace of an element of rank m.
pub fn trace(m: usize, q: u64, z: u64, element: &[u64], scratch: &mut [u64]) -> u64 {
    let mut x = &mut scratch[..element.len()];
    x.copy_from_slice(element);
    for l in (0..m).rev() {
        lower(x, l, q, z);
        x = &mut x[..hecke::size(l)];
    }
    let value = x[0];
    scratch.fill(0);
    value
}
