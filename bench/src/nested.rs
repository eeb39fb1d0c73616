//! The library's own method in plain Rust: Proposition 3.2 block by block, and the product's recursion over the right factor.

/// n! for n up to 7; an element of rank m has the size of index m + 1, and its blocks that of index m.
const FACTORIAL: [usize; 8] = [1, 1, 2, 6, 24, 120, 720, 5040];

/// q and q - 1.
#[derive(Clone, Copy)]
struct Algebra {
    q: u64,
    r: u64,
}

fn scale(result: &mut [u64], c: u64, element: &[u64]) {
    for (z, x) in result.iter_mut().zip(element) {
        *z = c.wrapping_mul(*x);
    }
}

fn add(sum: &mut [u64], element: &[u64]) {
    for (z, x) in sum.iter_mut().zip(element) {
        *z = z.wrapping_add(*x);
    }
}

impl Algebra {
    fn new(q: u64) -> Algebra {
        Algebra { q, r: q.wrapping_sub(1) }
    }

    /// x T_j in the place of x, of rank m; or, with the inverse of q for q, x times the inverse of T_j.
    fn letter<const INVERSE: bool>(self, x: &mut [u64], m: usize, j: usize) {
        let block = FACTORIAL[m];
        let (below, rest) = x.split_at_mut((m - j) * block);
        let (first, rest) = rest.split_at_mut(block);
        let (second, above) = rest.split_at_mut(block);
        for (s, t) in first.iter_mut().zip(second) {
            (*s, *t) = if INVERSE {
                (t.wrapping_add(self.r.wrapping_mul(*s)), self.q.wrapping_mul(*s))
            } else {
                (self.q.wrapping_mul(*t), s.wrapping_add(self.r.wrapping_mul(*t)))
            };
        }
        below.chunks_exact_mut(block).for_each(|x| self.letter::<INVERSE>(x, m - 1, j));
        above.chunks_exact_mut(block).for_each(|x| self.letter::<INVERSE>(x, m - 1, j - 1));
    }

    /// x T_a(j,l) in the place of x, of rank m, for l of at least 1.
    fn act(self, x: &mut [u64], work: &mut [u64], m: usize, j: usize, l: usize) {
        if l == 1 {
            return self.letter::<false>(x, m, j);
        }
        let block = FACTORIAL[m];
        let (below, rest) = x.split_at_mut((m - j) * block);
        let (middle, above) = rest.split_at_mut((l + 1) * block);
        below.chunks_exact_mut(block).for_each(|x| self.act(x, work, m - 1, j, l));
        above.chunks_exact_mut(block).for_each(|x| self.act(x, work, m - 1, j - 1, l));
        self.turn(middle, work, m - 1, j, l);
    }

    /// The action on the l + 1 blocks of x, of rank m, that depend on one another. Each part, once made, is multiplied on.
    fn turn(self, x: &mut [u64], work: &mut [u64], m: usize, j: usize, l: usize) {
        let block = FACTORIAL[m + 1];
        let (first, parts) = x.split_at_mut(block);
        let (sum, work) = work.split_at_mut(block);
        for (i, part) in parts.chunks_exact_mut(block).enumerate() {
            if i == 0 {
                sum.copy_from_slice(part);
            } else {
                self.act(part, work, m, j - 1, i);
                add(sum, part);
            }
            if i + 1 < l {
                self.act(part, work, m, j - 1 - i, l - 1 - i);
            }
        }
        for (s, x) in sum.iter_mut().zip(first) {
            *s = x.wrapping_add(self.r.wrapping_mul(*s));
        }
        for i in 0..l * block {
            x[i] = self.q.wrapping_mul(x[i + block]);
        }
        x[l * block..].copy_from_slice(sum);
    }

    /// h g in the place of result, for h of rank m and g of rank l: the sum of a part for each block of g, from the last block to the
    /// first.
    fn times(self, result: &mut [u64], scratch: &mut [u64], h: &[u64], g: &[u64], m: usize, l: usize) {
        if l == 0 {
            return scale(result, g[0], h);
        }
        let (others, last) = g.split_at(l * FACTORIAL[l]);
        self.times(result, scratch, h, last, m, l - 1);
        self.act(result, scratch, m, l, l);
        let (summand, scratch) = scratch.split_at_mut(h.len());
        for (k, part) in others.chunks_exact(FACTORIAL[l]).enumerate().rev() {
            self.times(summand, scratch, h, part, m, l - 1);
            if k > 0 {
                self.act(summand, scratch, m, l, k);
            }
            add(result, summand);
        }
    }
}

/// The word's generators T_i act on the element of rank m, left to right.
pub fn act_word(m: usize, q: u64, word: &[u8], element: &mut [u64]) {
    for &i in word {
        Algebra::new(q).letter::<false>(element, m, i as usize);
    }
}

/// The inverse of an odd q modulo 2^64: it is right in the lowest 3 bits at first, and in twice as many after each step.
pub fn inverse(q: u64) -> u64 {
    (0..5).fold(q, |x, _| x.wrapping_mul(2u64.wrapping_sub(q.wrapping_mul(x))))
}

/// The word's signed letters act on the element of rank m, left to right, for odd q.
pub fn act_signed_word(m: usize, q: u64, word: &[i8], element: &mut [u64]) {
    let (algebra, turned) = (Algebra::new(q), Algebra::new(inverse(q)));
    for &i in word {
        match i {
            1.. => algebra.letter::<false>(element, m, i as usize),
            _ => turned.letter::<true>(element, m, i.unsigned_abs() as usize),
        }
    }
}

/// The product of two elements of rank m. The scratch, which is as large as the library asks for, is zero afterwards.
pub fn product(m: usize, q: u64, left: &[u64], right: &[u64], result: &mut [u64], scratch: &mut [u64]) {
    Algebra::new(q).times(result, scratch, left, right, m, m);
    scratch.fill(0);
}
