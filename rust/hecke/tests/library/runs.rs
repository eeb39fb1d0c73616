//! The run of whole sheets on lent registers, which hold random words before.

use crate::compare::run_sheet;
use crate::lent::Answer;
use crate::random::Random;
use crate::sheets::{faulty, sheet};
use std::collections::BTreeSet;
use std::path::{Path, PathBuf};

/// The words of all four registers.
const REGISTERS: usize = 4 * 720;

/// The run of a sheet, also on registers of other sizes, which are judged after the sheet.
fn run(random: &mut Random, sheet: &[u8]) -> Answer {
    let answer = run_sheet(random, sheet, REGISTERS);
    for room in [0, 1, 720, REGISTERS - 1, REGISTERS + 1, 2 * REGISTERS] {
        assert_eq!(run_sheet(random, sheet, room), answer.clone().and(Err((8, 0))));
    }
    answer
}

/// The number of the refusal, 0 for none.
fn number(answer: Answer) -> u8 {
    answer.err().map_or(0, |(number, _)| number)
}

/// The sheets of a folder of this repository, by name.
fn stored(folder: &str) -> Vec<PathBuf> {
    let folder = Path::new(env!("CARGO_MANIFEST_DIR")).join("../..").join(folder);
    let files = std::fs::read_dir(folder).unwrap().map(|entry| entry.unwrap().path());
    let mut sheets: Vec<PathBuf> = files.filter(|path| path.extension().is_some_and(|end| end == "sheet")).collect();
    assert!(!sheets.is_empty());
    sheets.sort();
    sheets
}

/// Document 01's example.
#[test]
fn document_example() {
    let random = &mut Random(41);
    let sheet = [0x10, 1, 3, 0, 0, 0, 0, 0, 0, 0, 0x20, 0, 0x30, 0, 1, 0x30, 0, 1, 0x40, 0, 0];
    assert_eq!(run(random, &sheet), Ok(vec![6]));
    let mut registers = random.words(REGISTERS);
    assert_eq!(hecke::run_sheet(&sheet, &mut registers), Ok(6));
    assert_eq!(registers, [&[3, 2][..], &[0; REGISTERS - 2]].concat());
}

#[test]
fn examples() {
    let random = &mut Random(42);
    for path in stored("examples") {
        assert!(run(random, &std::fs::read(path).unwrap()).is_ok());
    }
}

/// The sheets of the conformance kit, for which `plain` prints what the kit expects.
#[test]
fn conformance_sheets() {
    let random = &mut Random(43);
    for path in stored("conformance/sheets") {
        let sheet = std::fs::read(&path).unwrap();
        let expected = std::fs::read(path.with_extension("expected")).unwrap();
        assert_eq!(plain::sheet::printed(&sheet), expected, "{path:?}");
        let refused = expected.starts_with(b"E");
        assert_eq!(run(random, &sheet).is_err(), refused, "{path:?}");
    }
}

#[test]
fn random_sheets() {
    let random = &mut Random(44);
    for m in 0..=5 {
        for bytes in [11, 13, 20, 50, 100, 200] {
            for _ in 0..if m < 4 { 30 } else { 4 } {
                let sheet = sheet(random, m, bytes);
                assert!(run(random, &sheet).is_ok());
            }
        }
    }
}

#[test]
fn longest_sheets() {
    let random = &mut Random(45);
    for m in 0..=5 {
        let (longest, longer) = (sheet(random, m, 4096), sheet(random, m, 4097));
        assert!(run(random, &longest).is_ok());
        assert_eq!(run(random, &longer), Err((9, 0)));
    }
}

#[test]
fn cut_at_every_byte() {
    let random = &mut Random(46);
    for (m, bytes) in [(0, 11), (5, 50), (3, 500)] {
        let whole = sheet(random, m, bytes);
        for size in 0..bytes {
            assert!(run(random, &whole[..size]).is_err());
        }
    }
}

/// Each bit of a sheet changed in turn; of ranks 4 and 5 one bit of each byte.
#[test]
fn damaged_at_every_byte() {
    let random = &mut Random(47);
    let mut met = BTreeSet::new();
    for m in 0..=5 {
        let whole = sheet(random, m, 60);
        for at in 0..60 {
            let one = random.below(8);
            for bit in if m < 4 { 0..8 } else { one..one + 1 } {
                let mut damaged = whole.clone();
                damaged[at] ^= 1 << bit;
                met.insert(number(run(random, &damaged)));
            }
        }
    }
    assert_eq!(met.into_iter().collect::<Vec<u8>>(), [0, 10, 11, 12, 13, 14, 15]);
}

#[test]
fn faults_together() {
    let random = &mut Random(48);
    let mut met = BTreeSet::new();
    for _ in 0..2000 {
        let sheet = faulty(random);
        met.insert(number(run(random, &sheet)));
    }
    assert_eq!(met.into_iter().collect::<Vec<u8>>(), [0, 9, 10, 11, 12, 13, 14, 15]);
}
