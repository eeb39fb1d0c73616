//! Permutations and towers.

use crate::compare::*;
use crate::random::Random;
use std::collections::BTreeSet;

/// The numbers of refusals that were answered, 0 for none.
fn numbers(answers: impl IntoIterator<Item = crate::lent::Answer>) -> BTreeSet<u8> {
    answers.into_iter().map(|answer| answer.err().map_or(0, |(number, _)| number)).collect()
}

/// Every call on a permutation and its tower.
fn all_calls(random: &mut Random, images: &[u8]) {
    let m = images.len() - 1;
    assert!(tower_of_images(random, images, m).is_ok());
    let tower = plain::perm::tower(images);
    assert!(images_of_tower(random, &tower, m + 1).is_ok());
    assert!(tower_inverse(random, &tower, m).is_ok());
    assert!(tower_descents(&tower).is_ok());
    let letters = tower_length(&tower).expect("a tower is not refused")[0] as usize;
    for room in [letters, letters + random.below(5)] {
        assert!(tower_word(random, &tower, room).is_ok());
    }
    let other = random.tower(m);
    assert!(tower_product(random, &tower, &other, m).is_ok());
}

/// Every list of so many bytes below a bound.
fn lists(size: usize, bound: u8) -> Vec<Vec<u8>> {
    (0..size).fold(vec![vec![]], |all, _| {
        all.iter().flat_map(|list| (0..bound).map(move |last| [&list[..], &[last]].concat())).collect()
    })
}

#[test]
fn every_permutation_up_to_7_points() {
    let random = &mut Random(1);
    for m in 0..=6 {
        for images in &plain::element::Group::of_rank(m).permutations {
            all_calls(random, images);
        }
    }
}

#[test]
fn every_product_up_to_5_points() {
    let random = &mut Random(2);
    for m in 0..=4 {
        let towers: Vec<Vec<u8>> =
            plain::element::Group::of_rank(m).permutations.iter().map(|w| plain::perm::tower(w)).collect();
        for left in &towers {
            for right in &towers {
                assert!(tower_product(random, left, right, m).is_ok());
            }
        }
    }
}

#[test]
fn random_permutations_up_to_64_points() {
    let random = &mut Random(3);
    for points in 1..=64 {
        for _ in 0..20 {
            let images = random.images(points);
            all_calls(random, &images);
        }
    }
}

#[test]
fn longest_permutations() {
    let random = &mut Random(4);
    for points in 1..=64 {
        let falling: Vec<u8> = (1..=points).rev().collect();
        all_calls(random, &falling);
        all_calls(random, &plain::perm::identity(points as usize - 1));
    }
}

/// Every call on a list that may be an image list, a tower or neither, with rooms about the right ones.
fn any_list(random: &mut Random, list: &[u8]) -> BTreeSet<u8> {
    let size = list.len();
    let mut answers = vec![tower_length(list), tower_descents(list)];
    for room in [0, size.saturating_sub(2), size.saturating_sub(1), size, size + 1, size + 2] {
        answers.push(tower_of_images(random, list, room));
        answers.push(images_of_tower(random, list, room));
        answers.push(tower_inverse(random, list, room));
        answers.push(tower_product(random, list, list, room));
        answers.push(tower_word(random, list, room));
    }
    numbers(answers)
}

#[test]
fn every_short_list() {
    let random = &mut Random(5);
    for size in 0..=4 {
        for list in lists(size, 6) {
            any_list(random, &list);
        }
    }
}

#[test]
fn sizes_up_to_70_and_far_above() {
    let random = &mut Random(6);
    for size in (0..=70).chain([127, 128, 255, 256, 257, 300, 100_000]) {
        let small = random.bytes(size).iter().map(|byte| byte % 2).collect::<Vec<u8>>();
        let images = (1..=size).map(|point| point as u8).collect::<Vec<u8>>();
        let found = [&random.bytes(size), &small, &images, &vec![0; size]].map(|list| any_list(random, list));
        let met = found.iter().flatten().copied().collect::<BTreeSet<u8>>();
        let due: &[u8] = match size {
            0 => &[0, 5, 8],
            1..=63 => &[0, 6, 7, 8],
            64 => &[0, 5, 6, 8],
            _ => &[5],
        };
        assert!(met.is_superset(&due.iter().copied().collect()), "size {size} meets {met:?}");
    }
}

/// A permutation or tower with one byte changed, at each index.
#[test]
fn damaged_at_every_byte() {
    let random = &mut Random(7);
    for size in [1, 2, 3, 10, 63, 64] {
        let (images, tower) = (random.images(size), random.tower(size.min(63)));
        for at in 0..size {
            for byte in [0, 1, at as u8 + 1, at as u8 + 2, size as u8, size as u8 + 1, 128, 255] {
                let mut images = images.clone();
                images[at] = byte;
                tower_of_images(random, &images, size - 1);
                let mut tower = tower.clone();
                if let Some(entry) = tower.get_mut(at) {
                    *entry = byte;
                }
                let (other, m) = (random.tower(tower.len()), tower.len());
                images_of_tower(random, &tower, m + 1);
                tower_inverse(random, &tower, m);
                tower_product(random, &tower, &other, m);
                tower_product(random, &other, &tower, m);
                tower_length(&tower);
                tower_descents(&tower);
                tower_word(random, &tower, 2016);
            }
        }
    }
}

/// Images that are bad after those before them: 0, too large, too large by far and, but for the first, already seen.
fn bad_images(before: &[u8], points: usize) -> Vec<u8> {
    [0, points as u8 + 1, 255].iter().chain(before.first()).chain(before.last()).copied().collect()
}

/// Image lists of every size whose first bad image is of each kind at each index: alone, with another bad image after it, and with
/// bad images alone after it. Buffers that do not fit are not named.
#[test]
fn first_bad_image_at_every_index() {
    let random = &mut Random(10);
    for points in 1..=64 {
        let images = random.images(points);
        for at in 0..points {
            for bad in bad_images(&images[..at], points) {
                let mut list = images.clone();
                list[at] = bad;
                let (mut two, mut rest) = (list.clone(), list.clone());
                for index in at + 1..points {
                    rest[index] = random.pick(&bad_images(&list[..=at], points));
                }
                let later = (at + 1 + random.below(points - at)).min(points - 1);
                two[later] = rest[later];
                for list in [list, two, rest] {
                    for room in [points - 1, points, points.saturating_sub(2), 0, 100] {
                        assert_eq!(tower_of_images(random, &list, room), Err((6, at as u64)), "{list:?}");
                    }
                }
            }
        }
    }
}

/// A good image list with a buffer that does not fit; no image and too many, good and bad, with any buffer.
#[test]
fn image_lists_refused_by_size() {
    let random = &mut Random(11);
    for points in 1..=64 {
        for room in (0..=66).filter(|&room| room != points - 1) {
            let images = random.images(points);
            assert_eq!(tower_of_images(random, &images, room), Err((8, 0)));
        }
    }
    for list in [random.images(65), vec![0; 65], vec![255; 65], vec![1; 66], vec![0; 1000], vec![]] {
        for room in [0, 1, 63, 64, 65, list.len()] {
            assert_eq!(tower_of_images(random, &list, room), Err((5, 0)));
        }
    }
}

/// Two towers, each good or bad in its size or an entry, and rooms good and bad, in every combination.
#[test]
fn faults_together() {
    let random = &mut Random(8);
    for m in [0, 1, 2, 5, 63] {
        let good = random.tower(m);
        let mut bad = vec![good.clone(), random.tower(m + 1), vec![0; 64], vec![255; 64], vec![255; 65], vec![]];
        for at in [0, m / 2, m.saturating_sub(1)].into_iter().filter(|&at| at < m) {
            bad.push(good.clone());
            bad.last_mut().unwrap()[at] = at as u8 + 2;
        }
        let mut answers = Vec::new();
        for left in &bad {
            for right in &bad {
                for room in [0, 1, m, m + 1, 64, 65] {
                    answers.push(tower_product(random, left, right, room));
                }
            }
        }
        let due: &[u8] = if m == 0 { &[0, 5, 8] } else { &[0, 5, 7, 8] };
        assert_eq!(numbers(answers).into_iter().collect::<Vec<u8>>(), due);
    }
}

#[test]
fn rooms_for_a_word() {
    let random = &mut Random(9);
    for m in [0, 1, 2, 7, 62, 63] {
        let longest: Vec<u8> = (1..=m as u8).collect();
        for tower in [random.tower(m), longest, vec![0; m]] {
            let letters: usize = tower.iter().map(|&entry| entry as usize).sum();
            for room in [0, letters.saturating_sub(1), letters, letters + 1, letters + 9, 100_000] {
                let due = if room < letters { Err((8, 0)) } else { Ok(vec![letters as u64]) };
                assert_eq!(tower_word(random, &tower, room), due);
            }
        }
    }
}
