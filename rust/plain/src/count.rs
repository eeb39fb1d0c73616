//! The count of ring operations (document 01, "The count").

use std::sync::OnceLock;

fn factorial(n: u64) -> u64 {
    (1..=n).product()
}

/// c(m, j, l), the operations that multiply an element of rank m by T of a(j, l).
pub fn block(m: u64, j: u64, l: u64) -> u64 {
    if l == 0 {
        return 0;
    }
    let below = if m == j { 0 } else { (m - j) * block(m - 1, j, l) };
    let above = if j == l { 0 } else { (j - l) * block(m - 1, j - 1, l) };
    let between: u64 = (1..=l).map(|i| block(m - 1, j - 1, i - 1) + block(m - 1, j - i, l - i)).sum();
    below + above + between + (2 * l + 1) * factorial(m)
}

/// C(m, l), the operations that multiply an element of rank m by one of rank l.
pub fn mixed(m: u64, l: u64) -> u64 {
    let size = factorial(m + 1);
    if l == 0 {
        return size;
    }
    let blocks: u64 = (0..=l).map(|k| block(m, l, k)).sum();
    (l + 1) * mixed(m, l - 1) + blocks + l * size
}

/// C(m, m), the operations of a product of rank m, up to 6.
pub fn of_product(m: usize) -> u64 {
    static COUNTS: [OnceLock<u64>; 7] = [const { OnceLock::new() }; 7];
    *COUNTS[m].get_or_init(|| mixed(m as u64, m as u64))
}

#[cfg(test)]
mod tests {
    use super::*;

    /// Document 01's cases.
    #[test]
    fn cases() {
        assert_eq!(mixed(2, 1), 27);
        let counts: Vec<u64> = (0..=6).map(of_product).collect();
        assert_eq!(counts, [1, 9, 118, 2_152, 55_840, 2_027_640, 99_518_160]);
    }

    /// Document 01's bound, 4 M squared.
    #[test]
    fn bound() {
        assert!((0..=6).all(|m| of_product(m) <= 4 * factorial(m as u64 + 1).pow(2)));
    }
}
