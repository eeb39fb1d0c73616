//! Permutations and towers (document 01, "Permutations and towers").
//!
//! A permutation w of rank m is its image list: the image of point p stands at index p - 1. Products are read left to right.

use crate::{refuse, refuse_first, Refusal};

/// The descent set of a permutation: s_i at bit i - 1, and the number of set bits.
#[derive(Clone, Copy, Debug, PartialEq, Eq)]
pub struct Descents {
    pub mask: u64,
    pub count: u64,
}

/// The permutation of rank m that moves no point.
pub fn identity(m: usize) -> Vec<u8> {
    (1..=m as u8 + 1).collect()
}

/// s_i, which swaps i and i + 1.
pub fn generator(m: usize, i: u8) -> Vec<u8> {
    let mut w = identity(m);
    w.swap(i as usize - 1, i as usize);
    w
}

/// uv, in which u acts first.
pub fn product(u: &[u8], v: &[u8]) -> Vec<u8> {
    u.iter().map(|&point| v[point as usize - 1]).collect()
}

/// The permutation that undoes w.
pub fn inverse(w: &[u8]) -> Vec<u8> {
    let mut points = vec![0; w.len()];
    for (index, &image) in w.iter().enumerate() {
        points[image as usize - 1] = index as u8 + 1;
    }
    points
}

/// The number of entries of `before` that exceed `image`.
fn larger(before: &[u8], image: u8) -> usize {
    before.iter().filter(|&&other| other > image).count()
}

/// The number of pairs i < j whose images stand in falling order.
pub fn length(w: &[u8]) -> u64 {
    (0..w.len()).map(|j| larger(&w[..j], w[j]) as u64).sum()
}

/// The tower of w: a_j is the number of points before j + 1 whose image exceeds that of j + 1.
pub fn tower(w: &[u8]) -> Vec<u8> {
    (1..w.len()).map(|j| larger(&w[..j], w[j]) as u8).collect()
}

/// The words of a(1, a_1) to a(m, a_m), joined; that of a(j, k) is j, j - 1, ..., j - k + 1.
pub fn word(tower: &[u8]) -> Vec<u8> {
    (1..).zip(tower).flat_map(|(j, &k)| (0..k).map(move |step| j - step)).collect()
}

/// The product of a word's generators, left to right.
pub fn of_word(m: usize, word: &[u8]) -> Vec<u8> {
    let mut w = identity(m);
    for &i in word {
        for image in &mut w {
            *image = swapped(i, *image);
        }
    }
    w
}

/// The image of a point under s_i.
fn swapped(i: u8, point: u8) -> u8 {
    match point {
        _ if point == i => i + 1,
        _ if point == i + 1 => i,
        _ => point,
    }
}

/// The permutation of a tower.
pub fn of_tower(tower: &[u8]) -> Vec<u8> {
    of_word(tower.len(), &word(tower))
}

/// The generators s_i with ℓ(s_i w) < ℓ(w), as a mask with s_i at bit i - 1.
pub fn descents(w: &[u8]) -> u64 {
    let (m, long) = (w.len() - 1, length(w));
    let falls = |&i: &usize| length(&product(&generator(m, i as u8), w)) < long;
    (1..=m).filter(falls).map(|i| 1 << (i - 1)).sum()
}

fn check_images(images: &[u8]) -> Result<(), Refusal> {
    refuse(images.is_empty() || images.len() > 64, 5, 0)?;
    let bad = |index: usize, &image: &u8| image == 0 || image as usize > images.len() || images[..index].contains(&image);
    refuse_first(images, 6, bad)
}

fn check_entries(tower: &[u8]) -> Result<(), Refusal> {
    refuse_first(tower, 7, |index, &entry| entry as usize > index + 1)
}

fn check_tower(tower: &[u8]) -> Result<(), Refusal> {
    refuse(tower.len() > 63, 5, 0)?;
    check_entries(tower)
}

fn write(list: &[u8], result: &mut [u8]) -> Result<(), Refusal> {
    refuse(result.len() != list.len(), 8, 0)?;
    result.copy_from_slice(list);
    Ok(())
}

/// Writes the tower of an image list.
pub fn tower_of_images(images: &[u8], result: &mut [u8]) -> Result<(), Refusal> {
    check_images(images)?;
    write(&tower(images), result)
}

/// Writes the image list of a tower.
pub fn images_of_tower(tower: &[u8], result: &mut [u8]) -> Result<(), Refusal> {
    check_tower(tower)?;
    write(&of_tower(tower), result)
}

/// Writes the tower of the inverse of a tower's permutation.
pub fn tower_inverse(tower: &[u8], result: &mut [u8]) -> Result<(), Refusal> {
    check_tower(tower)?;
    write(&self::tower(&inverse(&of_tower(tower))), result)
}

/// Writes the tower of the product of two towers' permutations, the left of which acts first.
pub fn tower_product(left: &[u8], right: &[u8], result: &mut [u8]) -> Result<(), Refusal> {
    refuse(left.len() > 63 || right.len() > 63 || left.len() != right.len(), 5, 0)?;
    check_entries(left)?;
    check_entries(right)?;
    write(&tower(&product(&of_tower(left), &of_tower(right))), result)
}

/// The length of a tower's permutation.
pub fn tower_length(tower: &[u8]) -> Result<u64, Refusal> {
    check_tower(tower)?;
    Ok(length(&of_tower(tower)))
}

/// Writes the standard shortest word of a tower's permutation at the front of `result`, and answers the number of its letters.
pub fn tower_word(tower: &[u8], result: &mut [u8]) -> Result<u64, Refusal> {
    check_tower(tower)?;
    let word = word(tower);
    refuse(result.len() < word.len(), 8, 0)?;
    result[..word.len()].copy_from_slice(&word);
    Ok(word.len() as u64)
}

/// The descent set of a tower's permutation.
pub fn tower_descents(tower: &[u8]) -> Result<Descents, Refusal> {
    check_tower(tower)?;
    let mask = descents(&of_tower(tower));
    Ok(Descents { mask, count: mask.count_ones() as u64 })
}

#[cfg(test)]
mod tests {
    use super::*;

    /// Document 01: images 2 3 1 have tower (0, 2), and a(2, 2) is s_2 s_1.
    #[test]
    fn three_points() {
        assert_eq!(tower(&[2, 3, 1]), [0, 2]);
        assert_eq!(word(&[0, 2]), [2, 1]);
        assert_eq!(of_tower(&[0, 2]), [2, 3, 1]);
        assert_eq!(product(&generator(2, 2), &generator(2, 1)), [2, 3, 1]);
        assert_eq!(descents(&[2, 3, 1]), 0b10);
    }

    /// Document 01's unmarked case.
    #[test]
    fn ten_points() {
        let (w, a) = ([8, 4, 1, 6, 2, 7, 5, 10, 9, 3], [1, 2, 1, 3, 1, 3, 0, 1, 7]);
        assert_eq!(tower(&w), a);
        assert_eq!(of_tower(&a), w);
        assert_eq!(tower(&inverse(&w)), [0, 0, 3, 1, 3, 2, 7, 1, 2]);
        assert_eq!(length(&w), 19);
    }

    /// Document 01: with a_0 = 0, s_i is in the descent set exactly when a_i > a_{i-1}.
    #[test]
    fn descents_of_towers() {
        let a = [1, 2, 1, 3, 1, 3, 0, 1, 7];
        let rises = (0..a.len()).filter(|&i| a[i] > if i == 0 { 0 } else { a[i - 1] });
        assert_eq!(descents(&of_tower(&a)), rises.map(|i| 1 << i).sum());
    }
}
