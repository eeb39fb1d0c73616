//! The pairing in plain Rust: w and its inverse go down together through the ranks, as in `c/pairing.c`.

/// Computes the pairing of two elements of rank m at q.
pub type Pairing = fn(m: usize, q: u64, left: &[u64], right: &[u64]) -> u64;

/// n! for n up to 6; an element of rank m has blocks of the size of index m.
const FACTORIAL: [usize; 7] = [1, 1, 2, 6, 24, 120, 720];

/// The tower of a permutation by points: that of the point v is at index v, and that of the point 1 is 0.
type Tower = [usize; 8];

/// The tower of the inverse of u a(l,k), for u of rank l - 1, from that of u: the point x = l + 1 - k comes last, and every point
/// from x on moves up by one and has one more before it.
fn extended(tower: &Tower, l: usize, k: usize) -> Tower {
    let (mut next, x) = (*tower, l + 1 - k);
    next[x] = 0;
    for v in x..=l {
        next[v + 1] = tower[v] + 1;
    }
    next
}

/// The sum over w = u a(m,k) of q^k, left at w and right at the inverse of w, for u of rank m - 1 whose inverse has this tower. The
/// first word of left is that of u.
fn last_level(left: &[u64], right: &[u64], tower: &Tower, m: usize, q: u64) -> u64 {
    let mut place: usize = (1..=m).map(|v| (tower[v] + 1) * FACTORIAL[v]).sum();
    let mut sum = 0u64;
    for v in 1..=m {
        sum = sum.wrapping_mul(q).wrapping_add(left[(m + 1 - v) * FACTORIAL[m]].wrapping_mul(right[place]));
        place -= (tower[v] + 1) * FACTORIAL[v] - tower[v] * FACTORIAL[v - 1];
    }
    sum.wrapping_mul(q).wrapping_add(left[0].wrapping_mul(right[place]))
}

/// The same sum over w = u a(l,k) .. a(m,n), for u of rank l - 1, with q to the power k + .. + n.
fn levels(left: &[u64], right: &[u64], tower: &Tower, l: usize, m: usize, q: u64) -> u64 {
    if l == m {
        return last_level(left, right, tower, m, q);
    }
    (0..=l).rev().fold(0, |sum: u64, k| {
        let part = levels(&left[k * FACTORIAL[l]..], right, &extended(tower, l, k), l + 1, m, q);
        sum.wrapping_mul(q).wrapping_add(part)
    })
}

/// The pairing of two elements of rank m, which is 1 or more.
pub fn pairing(m: usize, q: u64, left: &[u64], right: &[u64]) -> u64 {
    levels(left, right, &[0; 8], 1, m, q)
}
