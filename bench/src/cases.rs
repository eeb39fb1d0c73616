//! The cases: the library beside the other contenders, on random inputs and on sheets.

use crate::clock::{agree, race, Times, INPUTS};
use crate::pairing::{self, Pairing};
use crate::random::Random;
use crate::trace::{self, Trace};
use crate::{before, image_lists, lists, nested, sheet, towers, tuned};
use plain::sheet::{Action, Product};
use std::iter::repeat;
use std::path::Path;
use std::process::Command;

/// One line of the table: the times of each contender, by the name of its column. The C is there by each compiler.
pub struct Row {
    pub call: &'static str,
    pub size: String,
    pub times: Vec<(&'static str, Times)>,
}

/// The times of two of the library's calls on the same inputs, or of a call and a part of it, at one rank.
pub struct Both {
    pub m: usize,
    pub one: Times,
    pub other: Times,
}

/// All that is timed.
pub struct Measured {
    pub rows: Vec<Row>,
    /// A word of 100 signed letters and the same letters without their signs.
    pub signs: Vec<Both>,
    /// A pairing and a product.
    pub shares: Vec<Both>,
    /// A trace and the clearing of its scratch.
    pub clearings: Vec<Both>,
    /// Image lists to towers, a million at a time.
    pub image_lists: Vec<Row>,
}

type Conversion = fn(&[u8], &mut [u8]);

/// Changes an element of rank m at an odd q by a word of signed letters, left to right.
type SignedAction = fn(m: usize, q: u64, word: &[i8], element: &mut [u64]);

/// Inputs made from the same random words in each case.
fn inputs<T>(make: impl Fn(&mut Random) -> T) -> [T; INPUTS] {
    let mut random = Random::new();
    [(); INPUTS].map(|_| make(&mut random))
}

impl Row {
    /// Compares the contenders on the first inputs, and times them if they are to be timed.
    fn new<O: Clone + PartialEq, F: FnMut(usize, &mut O)>(
        timed: bool,
        (call, size): (&'static str, String),
        contenders: impl Iterator<Item = (&'static str, F)>,
        inputs: usize,
        blank: O,
    ) -> Row {
        let (names, mut contenders): (Vec<&str>, Vec<F>) = contenders.unzip();
        agree(&mut contenders, inputs, &blank, &format!("{call}, {size}"));
        let times = if timed { race(&mut contenders, &blank) } else { Vec::new() };
        Row { call, size, times: names.into_iter().zip(times).collect() }
    }
}

/// The contenders, those in C and that of an older archive.
fn with_others<F: Copy, const N: usize>(
    by: [(&'static str, F); N],
    tuned: &'static [F],
    before: &'static [F],
) -> impl Iterator<Item = (&'static str, F)> {
    let others = repeat("C").zip(tuned).chain(repeat("before").zip(before));
    by.into_iter().chain(others.map(|(name, f)| (name, *f)))
}

fn product(timed: bool, m: usize) -> Row {
    let library: Product = |m, q, left, right, result, scratch| {
        hecke::product(m, q, left, right, result, scratch).unwrap();
    };
    let inputs = &inputs(|random| (random.word(), random.element(m), random.element(m)));
    let by: [(&str, Product); 4] =
        [("library", library), ("(a)", nested::product), ("(b)", lists::product), ("(c)", lists::product_kept)];
    let contenders = with_others(by, tuned::PRODUCTS, before::PRODUCTS).map(|(name, product)| {
        let run = move |i: usize, (result, scratch): &mut (Vec<u64>, Vec<u64>)| {
            let (q, left, right) = &inputs[i];
            product(m, *q, left, right, result, scratch);
        };
        (name, run)
    });
    let blank = (vec![1; hecke::size(m)], vec![1; hecke::scratch_size(m)]);
    Row::new(timed, ("product", format!("rank {m}")), contenders, INPUTS, blank)
}

fn word(timed: bool, m: usize) -> Row {
    let library: Action = |m, q, word, element| {
        hecke::act_word(m, q, word, element).unwrap();
    };
    let letters = |random: &mut Random| (0..100).map(|_| random.below(m) as u8 + 1).collect::<Vec<u8>>();
    let inputs = &inputs(|random| (random.word(), letters(random), random.element(m)));
    let by: [(&str, Action); 3] = [("library", library), ("(a)", nested::act_word), ("(b)", lists::act_word)];
    let contenders = with_others(by, tuned::ACTIONS, before::ACTIONS).map(|(name, act)| {
        let run = move |i: usize, element: &mut Vec<u64>| {
            let (q, word, start) = &inputs[i];
            element.copy_from_slice(start);
            act(m, *q, word, element);
        };
        (name, run)
    });
    Row::new(timed, ("word of 100 letters", format!("rank {m}")), contenders, INPUTS, vec![1; hecke::size(m)])
}

/// The library's word of signed letters.
const SIGNED: SignedAction = |m, q, word, element| {
    hecke::act_signed_word(m, q, word, element).unwrap();
};

fn signed_word(timed: bool, m: usize) -> Row {
    let inputs = &inputs(|random| (random.word() | 1, random.signed_word(m), random.element(m)));
    let by: [(&str, SignedAction); 3] =
        [("library", SIGNED), ("(a)", nested::act_signed_word), ("(b)", lists::act_signed_word)];
    let contenders = by.into_iter().map(|(name, act)| {
        let run = move |i: usize, element: &mut Vec<u64>| {
            let (q, word, start) = &inputs[i];
            element.copy_from_slice(start);
            act(m, *q, word, element);
        };
        (name, run)
    });
    Row::new(timed, ("word of 100 signed letters", format!("rank {m}")), contenders, INPUTS, vec![1; hecke::size(m)])
}

/// Times a word of signed letters, about half of them inverses, and the same letters without their signs, in turn.
fn signs(m: usize) -> Both {
    let inputs = &inputs(|random| {
        let word = random.signed_word(m);
        let plain: Vec<u8> = word.iter().map(|letter| letter.unsigned_abs()).collect();
        (random.word() | 1, word, plain, random.element(m))
    });
    let mut contenders = [true, false].map(|signed| {
        move |i: usize, element: &mut Vec<u64>| {
            let (q, word, plain, start) = &inputs[i];
            element.copy_from_slice(start);
            if signed {
                SIGNED(m, *q, word, element);
            } else {
                hecke::act_word(m, *q, plain, element).unwrap();
            }
        }
    });
    let times = race(&mut contenders, &vec![1; hecke::size(m)]);
    Both { m, one: times[0], other: times[1] }
}

/// The library's pairing.
const PAIRING: Pairing = |m, q, left, right| hecke::pairing(m, q, left, right).unwrap();

fn pairing(timed: bool, m: usize) -> Row {
    let inputs = &inputs(|random| (random.word(), random.element(m), random.element(m)));
    let by: [(&str, Pairing); 3] = [("library", PAIRING), ("(a)", pairing::pairing), ("(b)", lists::pairing)];
    let contenders = with_others(by, tuned::PAIRINGS, &[]).map(|(name, pairing)| {
        let run = move |i: usize, value: &mut u64| {
            let (q, left, right) = &inputs[i];
            *value = pairing(m, *q, left, right);
        };
        (name, run)
    });
    Row::new(timed, ("pairing", format!("rank {m}")), contenders, INPUTS, 1)
}

/// Times a pairing and a product of the same elements, in turn.
fn shares(m: usize) -> Both {
    let inputs = &inputs(|random| (random.word(), random.element(m), random.element(m)));
    let mut contenders = [true, false].map(|paired| {
        move |i: usize, (result, scratch): &mut (Vec<u64>, Vec<u64>)| {
            let (q, left, right) = &inputs[i];
            if paired {
                result[0] = PAIRING(m, *q, left, right);
            } else {
                hecke::product(m, *q, left, right, result, scratch).unwrap();
            }
        }
    });
    let times = race(&mut contenders, &(vec![1; hecke::size(m)], vec![1; hecke::scratch_size(m)]));
    Both { m, one: times[0], other: times[1] }
}

/// The library's trace.
const TRACE: Trace = |m, q, z, element, scratch| hecke::trace(m, q, z, element, scratch).unwrap();

fn trace(timed: bool, m: usize) -> Row {
    let inputs = &inputs(|random| (random.word(), random.word(), random.element(m)));
    let by: [(&str, Trace); 3] = [("library", TRACE), ("(a)", trace::trace), ("(b)", lists::trace)];
    let contenders = by.into_iter().map(|(name, trace)| {
        let run = move |i: usize, (value, scratch): &mut (u64, Vec<u64>)| {
            let (q, z, element) = &inputs[i];
            *value = trace(m, *q, *z, element, scratch);
        };
        (name, run)
    });
    Row::new(timed, ("trace", format!("rank {m}")), contenders, INPUTS, (1, vec![1; hecke::scratch_size(m)]))
}

/// Times a trace and the clearing of its scratch by itself, in turn.
fn clearings(m: usize) -> Both {
    let inputs = &inputs(|random| (random.word(), random.word(), random.element(m)));
    let mut contenders = [true, false].map(|traced| {
        move |i: usize, (value, scratch): &mut (u64, Vec<u64>)| {
            let (q, z, element) = &inputs[i];
            if traced {
                *value = TRACE(m, *q, *z, element, scratch);
            } else {
                scratch.fill(0);
            }
        }
    });
    let times = race(&mut contenders, &(1, vec![1; hecke::scratch_size(m)]));
    Both { m, one: times[0], other: times[1] }
}

fn conversion(timed: bool, call: &'static str, points: usize, given: [Vec<u8>; INPUTS], by: [Conversion; 2]) -> Row {
    let blank = vec![255; 2 * points - 1 - given[0].len()];
    let given = &given;
    let contenders = by.map(|convert| move |i: usize, result: &mut Vec<u8>| convert(&given[i], result));
    let contenders = ["library", "(a)"].into_iter().zip(contenders);
    let size = if points == 1 { "1 point".to_string() } else { format!("{points} points") };
    Row::new(timed, (call, size), contenders, INPUTS, blank)
}

fn tower_of_images(timed: bool, points: usize) -> Row {
    let given = inputs(|random| plain::perm::of_tower(&random.tower(points)));
    let library = |images: &[u8], tower: &mut [u8]| hecke::tower_of_images(images, tower).unwrap();
    let other = |images: &[u8], tower: &mut [u8]| towers::in_one_pass(images, tower).unwrap();
    conversion(timed, "image list to tower", points, given, [library, other])
}

fn images_of_tower(timed: bool, points: usize) -> Row {
    let given = inputs(|random| random.tower(points));
    let library = |tower: &[u8], images: &mut [u8]| hecke::images_of_tower(tower, images).unwrap();
    let other = |tower: &[u8], images: &mut [u8]| towers::images_of_tower(tower, images).unwrap();
    conversion(timed, "tower to image list", points, given, [library, other])
}

/// A sheet through three programs, each a process of its own.
fn whole_sheet(timed: bool, name: &str) -> Row {
    let top = Path::new(env!("CARGO_MANIFEST_DIR")).join("..");
    let sheet = &std::fs::read(top.join("examples").join(name)).expect("the sheet is there");
    let own = std::env::current_exe().unwrap();
    let programs = [(top.join("crates/run_sheet/out/run_sheet"), None), (own.clone(), Some("nested")), (own, Some("lists"))];
    let contenders = ["library", "(a)", "(b)"].into_iter().zip(programs).map(|(name, (path, method))| {
        let run = move |_, output: &mut Vec<u8>| {
            let words = method.map(|method| ["--sheet", method]);
            sheet::output_of(Command::new(&path).args(words.iter().flatten()), sheet, output);
        };
        (name, run)
    });
    Row::new(timed, ("whole sheet", name.to_string()), contenders, 1, Vec::new())
}

/// All cases, timed or only compared.
pub fn rows(timed: bool) -> Vec<Row> {
    let ranks = 3..=6;
    let points = [1, 4, 8, 16, 32, 64];
    let mut rows: Vec<Row> = ranks.clone().map(|m| product(timed, m)).collect();
    rows.extend(ranks.clone().map(|m| word(timed, m)));
    rows.extend(ranks.clone().map(|m| signed_word(timed, m)));
    rows.extend(ranks.clone().map(|m| pairing(timed, m)));
    rows.extend(ranks.map(|m| trace(timed, m)));
    rows.extend(points.map(|n| tower_of_images(timed, n)));
    rows.extend(points.map(|n| images_of_tower(timed, n)));
    rows.extend(["square.sheet", "products.sheet"].map(|name| whole_sheet(timed, name)));
    rows
}

/// All cases timed; signed letters beside plain ones, the pairing beside the product, and the trace beside the clearing of its
/// scratch, at each rank; runs over image lists.
pub fn measured() -> Measured {
    Measured {
        rows: rows(true),
        signs: (3..=6).map(signs).collect(),
        shares: (3..=6).map(shares).collect(),
        clearings: (3..=6).map(clearings).collect(),
        image_lists: image_lists::rows(true),
    }
}
