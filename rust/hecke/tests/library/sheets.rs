//! The check of run sheets.

use crate::compare::sheet_check;
use crate::random::Random;
use hecke::size;

/// The codes, and the widths of their operands.
const COMMANDS: [(u8, usize); 13] = [
    (0x00, 0),
    (0x10, 9),
    (0x20, 1),
    (0x21, 11),
    (0x30, 2),
    (0x31, 3),
    (0x32, 3),
    (0x33, 9),
    (0x34, 2),
    (0x40, 1),
    (0x41, 2),
    (0x42, 2),
    (0x43, 9),
];

fn begin(random: &mut Random, m: usize) -> Vec<u8> {
    [vec![0x10, m as u8], random.bytes(8)].concat()
}

/// A command between begin and end, each operand in its range; an inverse letter only where there may be one.
fn command(random: &mut Random, m: usize, inverses: bool) -> Vec<u8> {
    let mut registers = random.bytes(3);
    registers.iter_mut().for_each(|r| *r %= 4);
    let (code, width) = random.pick(&COMMANDS[2..]);
    let operands = match code {
        0x21 => [&registers[..1], &(random.below(size(m)) as u16).to_le_bytes()[..], &random.bytes(8)].concat(),
        0x30 if m == 0 => return command(random, m, inverses),
        0x34 if m == 0 || !inverses => return command(random, m, inverses),
        0x30 | 0x34 => vec![registers[0], random.below(m) as u8 + 1],
        0x33 | 0x43 => [&registers[..1], &random.bytes(8)].concat(),
        _ => registers[..width].to_vec(),
    };
    [&[code], &operands[..]].concat()
}

/// A sheet of rank m and of exactly so many bytes, 11 or from 13 on, that nothing refuses but its size. With odd q it may have
/// inverse letters.
pub fn sheet(random: &mut Random, m: usize, bytes: usize) -> Vec<u8> {
    let mut sheet = begin(random, m);
    let odd = sheet[2] % 2 == 1;
    while sheet.len() + 1 < bytes {
        let (next, rest) = (command(random, m, odd), bytes - 1 - sheet.len());
        // No command has one byte.
        if next.len() == rest || next.len() + 2 <= rest {
            sheet.extend(next);
        }
    }
    sheet.push(0);
    sheet
}

#[test]
fn sheets_that_nothing_refuses() {
    let random = &mut Random(31);
    for m in 0..=5 {
        for bytes in [11, 13, 14, 15, 100, 1000, 4095, 4096] {
            let sheet = sheet(random, m, bytes);
            assert_eq!(sheet_check(&sheet), Ok(vec![]));
            assert_eq!(sheet_check(&[&sheet[..], &[0]].concat()), Err(if bytes == 4096 { (9, 0) } else { (14, bytes as u64) }));
        }
        assert_eq!(sheet_check(&sheet(random, m, 4097)), Err((9, 0)));
        assert_eq!(sheet_check(&sheet(random, m, 4098)), Err((9, 0)));
    }
}

#[test]
fn every_sheet_of_two_bytes() {
    assert_eq!(sheet_check(&[]), Err((9, 0)));
    for first in 0..=255 {
        sheet_check(&[first]);
        for second in 0..=255 {
            sheet_check(&[first, second]);
        }
    }
}

#[test]
fn cut_at_every_byte() {
    let random = &mut Random(32);
    for bytes in [11, 50, 500, 4096] {
        let sheet = sheet(random, 3, bytes);
        for size in 1..bytes {
            let number = sheet_check(&sheet[..size]).unwrap_err().0;
            assert!([11, 14].contains(&number), "cut to {size} bytes, refused with {number}");
        }
    }
}

#[test]
fn damaged_at_every_byte() {
    let random = &mut Random(33);
    for m in 0..=5 {
        let short = sheet(random, m, 60);
        for at in 0..60 {
            for byte in 0..=255 {
                let mut damaged = short.clone();
                damaged[at] = byte;
                sheet_check(&damaged);
            }
        }
    }
    let long = sheet(random, 5, 4096);
    for at in 0..4096 {
        let mut damaged = long.clone();
        damaged[at] ^= 1 << random.below(8);
        sheet_check(&damaged);
    }
}

#[test]
fn bytes_of_every_size() {
    let random = &mut Random(34);
    let codes = COMMANDS.map(|(code, _)| code);
    for size in 0..=4100 {
        sheet_check(&random.bytes(size));
        let m = random.below(7);
        let codes: Vec<u8> = (0..size).map(|_| random.pick(&codes)).collect();
        sheet_check(&[begin(random, m), codes].concat());
    }
    sheet_check(&random.bytes(100_000));
}

/// Each operand at the ends of its range and just outside, after a begin command of each rank.
#[test]
fn operands_at_the_ends_of_their_ranges() {
    let random = &mut Random(35);
    for m in 0..=7 {
        let start = begin(random, m);
        for (code, width) in COMMANDS {
            for _ in 0..100 {
                let mut operands: Vec<u8> = (0..width).map(|_| random.pick(&[0, 1, 3, 4, m as u8, m as u8 + 1, 255])).collect();
                if code == 0x21 {
                    let index = size(m.min(5)) as u16 - 1 + random.below(2) as u16;
                    operands[1..3].copy_from_slice(&index.to_le_bytes());
                }
                sheet_check(&[&start[..], &[code], &operands, &[0]].concat());
            }
        }
    }
}

/// A sheet in which each command may be damaged, so that faults meet in every order.
pub fn faulty(random: &mut Random) -> Vec<u8> {
    let m = random.below(6);
    let mut sheet = if random.below(9) == 0 { vec![] } else { begin(random, m) };
    for _ in 0..random.below(6) {
        sheet.extend(match random.below(16) {
            0 => vec![random.pick(&[0x01, 0x11, 0x22, 0x35, 0x44, 0xff])],
            1 => begin(random, m),
            2 => vec![random.pick(&[0x20, 0x40]), 4],
            3 => vec![0],
            _ => command(random, m, true),
        });
    }
    sheet.extend(random.pick(&[&[0][..], &[], &[0, 0], &[0x33, 0]]));
    sheet
}

#[test]
fn faults_together() {
    let random = &mut Random(36);
    let mut met = std::collections::BTreeMap::new();
    for _ in 0..20_000 {
        let number = sheet_check(&faulty(random)).map_or_else(|(number, _)| number, |_| 0);
        *met.entry(number).or_insert(0) += 1;
    }
    assert_eq!(met.keys().copied().collect::<Vec<u8>>(), [0, 9, 10, 11, 12, 13, 14, 15]);
    assert!(met.values().all(|&times| times > 20), "{met:?}");
}
