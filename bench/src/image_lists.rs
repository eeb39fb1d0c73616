//! Image lists to towers, a million random lists in a row: valid ones, and lists with one bad image.

use crate::before;
use crate::cases::Row;
use crate::clock::race_for;
use crate::random::Random;
use crate::towers::{in_one_pass, in_two_passes, ToTower};
use hecke::Refusal;
use std::hint::black_box;

/// The index of the bad image in a list of so many; a valid list has none.
type Place = Option<fn(points: usize) -> usize>;

const KINDS: [(&str, Place); 4] = [
    ("valid", None),
    ("bad at the front", Some(|_| 0)),
    ("bad in the middle", Some(|points| points / 2)),
    ("bad at the end", Some(|points| points - 1)),
];

/// Makes an image 0, too large or, but for the first, one that is already seen.
fn spoil(random: &mut Random, images: &mut [u8], place: usize) {
    let points = images.len();
    images[place] = match random.below(if place == 0 { 2 } else { 3 }) {
        0 => 0,
        1 => (points + 1 + random.below(255 - points)) as u8,
        _ => images[random.below(place)],
    };
}

/// Random lists, one after another.
fn lists(number: usize, points: usize, place: Option<usize>) -> Vec<u8> {
    let mut random = Random::new();
    let mut lists = (1..=points as u8).collect::<Vec<u8>>().repeat(number);
    for images in lists.chunks_exact_mut(points) {
        random.shuffle(images);
        if let Some(place) = place {
            spoil(&mut random, images, place);
        }
    }
    lists
}

/// Panics unless each contender makes what is due of a list: its tower, or a refusal, with the buffer as it was.
fn agree(contenders: &[(&str, ToTower)], images: &[u8], place: Option<usize>) {
    let blank = vec![170; images.len() - 1];
    let due = match place {
        None => (Ok(()), plain::perm::tower(images)),
        Some(place) => (Err(Refusal { number: 6, place: place as u64 }), blank.clone()),
    };
    for (name, call) in contenders {
        let mut tower = blank.clone();
        assert_eq!((call(images, &mut tower), tower), due, "{name} on {images:?}");
    }
}

/// The contenders on lists of one kind and one size, compared, and timed if they are to be timed.
fn row(timed: bool, kind: &'static str, points: usize, place: Option<usize>) -> Row {
    let by: [(&str, ToTower); 3] =
        [("library", hecke::tower_of_images), ("one pass", in_one_pass), ("two passes", in_two_passes)];
    let contenders: Vec<_> = by.into_iter().chain(before::TO_TOWERS.iter().map(|call| ("before", *call))).collect();
    let number = if timed { 1_000_000 } else { 10_000 };
    let lists = &lists(number, points, place);
    lists.chunks_exact(points).for_each(|images| agree(&contenders, images, place));
    let runs = contenders.iter().map(|&(_, call)| {
        move |_, tower: &mut Vec<u8>| {
            let refused = lists.chunks_exact(points).filter(|images| call(images, black_box(tower)).is_err()).count();
            assert_eq!(refused, if place.is_some() { number } else { 0 });
        }
    });
    let times = if timed { race_for(&mut runs.collect::<Vec<_>>(), &vec![170; points - 1], 2e9, 9) } else { Vec::new() };
    let names = contenders.iter().map(|(name, _)| *name);
    let times = names.zip(times.iter().map(|times| times.over(number))).collect();
    Row { call: kind, size: format!("{points} points"), times }
}

/// Lists of every kind and size, timed or only compared.
pub fn rows(timed: bool) -> Vec<Row> {
    let of_kind = |(kind, place): (&'static str, Place)| {
        [4, 8, 16, 32, 64].map(|points| row(timed, kind, points, place.map(|place| place(points))))
    };
    KINDS.into_iter().flat_map(of_kind).collect()
}
