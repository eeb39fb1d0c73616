//! Image lists and towers, each made from the other, in plain Rust with the library's checks. All are calls, never inlined,
//! as the library's are. An image x is at bit x - 1 of the mask of those seen.

use hecke::Refusal;

/// The tower of an image list, or the refusal.
pub type ToTower = fn(images: &[u8], tower: &mut [u8]) -> Result<(), Refusal>;

fn refused(number: u8, place: usize) -> Result<(), Refusal> {
    Err(Refusal { number, place: place as u64 })
}

/// Puts for each image the number of larger ones before it, up to the first image that is 0, too large or already seen, and
/// gives the index of that one. The bit of 0 is 255.
fn walk(images: &[u8], entries: &mut [u8; 64]) -> Option<usize> {
    let mut seen = 0u64;
    for (i, (&x, entry)) in images.iter().zip(entries).enumerate() {
        let bit = x.wrapping_sub(1);
        if bit as usize >= images.len() {
            return Some(i);
        }
        let from = seen >> bit;
        if from & 1 == 1 {
            return Some(i);
        }
        *entry = from.count_ones() as u8;
        seen |= 1 << bit;
    }
    None
}

/// The tower of an image list in one pass, by the library's method: each image is vetted and counted before the next is read, and
/// the entries are in an array until all images are good.
#[inline(never)]
pub fn in_one_pass(images: &[u8], tower: &mut [u8]) -> Result<(), Refusal> {
    if images.is_empty() || images.len() > 64 {
        return refused(5, 0);
    }
    let mut entries = [0; 64];
    if let Some(place) = walk(images, &mut entries) {
        return refused(6, place);
    }
    if tower.len() + 1 != images.len() {
        return refused(8, 0);
    }
    tower.copy_from_slice(&entries[1..images.len()]);
    Ok(())
}

/// The index of the first image that is 0, too large or already seen.
fn bad_image(images: &[u8]) -> Option<usize> {
    let mut seen = 0u64;
    images.iter().position(|&x| {
        if x == 0 || x as usize > images.len() || seen >> (x - 1) & 1 == 1 {
            return true;
        }
        seen |= 1 << (x - 1);
        false
    })
}

/// The tower of an image list in two passes, as the library had it formerly: all images are vetted, then all are counted.
#[inline(never)]
pub fn in_two_passes(images: &[u8], tower: &mut [u8]) -> Result<(), Refusal> {
    if images.is_empty() || images.len() > 64 {
        return refused(5, 0);
    }
    if let Some(place) = bad_image(images) {
        return refused(6, place);
    }
    if tower.len() + 1 != images.len() {
        return refused(8, 0);
    }
    let mut seen = 1u64 << (images[0] - 1);
    for (a, &x) in tower.iter_mut().zip(&images[1..]) {
        *a = (seen >> (x - 1)).count_ones() as u8;
        seen |= 1 << (x - 1);
    }
    Ok(())
}

/// The image list of a tower, or the refusal.
#[inline(never)]
pub fn images_of_tower(tower: &[u8], images: &mut [u8]) -> Result<(), Refusal> {
    if tower.len() > 63 {
        return refused(5, 0);
    }
    if let Some(place) = tower.iter().zip(1..).position(|(&a, j)| a > j) {
        return refused(7, place);
    }
    if images.len() != tower.len() + 1 {
        return refused(8, 0);
    }
    images[0] = 1;
    for (&a, j) in tower.iter().zip(1..) {
        let (before, rest) = images.split_at_mut(j);
        let x = j as u8 + 1 - a;
        before.iter_mut().for_each(|y| *y += (x <= *y) as u8);
        rest[0] = x;
    }
    Ok(())
}
