//! Run sheets: the check of a whole sheet, its run, and what the program prints (document 01, "Run sheets"; document 02, Tickets 1,
//! 2 and 4).

use crate::element::{inverse, markov_trace, size, undone, Group};
use crate::{count, refuse, Refusal};
use std::fmt::Write;

/// A command with its operands, in document 01's order.
#[derive(Clone, Copy, Debug, PartialEq, Eq)]
enum Command {
    Begin { m: usize, q: u64 },
    Unit { r: usize },
    Coefficient { r: usize, i: usize, v: u64 },
    Generator { r: usize, i: u8 },
    Product { d: usize, a: usize, b: usize },
    Sum { d: usize, a: usize, b: usize },
    Scale { r: usize, v: u64 },
    Inverse { r: usize, i: u8 },
    Show { r: usize },
    Pairing { a: usize, b: usize },
    Equal { a: usize, b: usize },
    Trace { r: usize, z: u64 },
    End,
}

/// The widths of a command's operands, for a known code.
fn widths(code: u8) -> Option<&'static [usize]> {
    match code {
        0x00 => Some(&[]),
        0x10 => Some(&[1, 8]),
        0x20 | 0x40 => Some(&[1]),
        0x21 => Some(&[1, 2, 8]),
        0x30 | 0x34 | 0x41 | 0x42 => Some(&[1, 1]),
        0x31 | 0x32 => Some(&[1, 1, 1]),
        0x33 | 0x43 => Some(&[1, 8]),
        _ => None,
    }
}

/// The operands of these widths, lowest byte first.
fn operands(bytes: &[u8], widths: &[usize]) -> Vec<u64> {
    let mut rest = bytes;
    let mut numbers = Vec::new();
    for &width in widths {
        let (number, after) = rest.split_at(width);
        numbers.push(number.iter().rev().fold(0, |high, &byte| high << 8 | byte as u64));
        rest = after;
    }
    numbers
}

/// The command of a known code, from its operands.
fn command(code: u8, x: &[u64]) -> Command {
    let at = |index: usize| x[index] as usize;
    match code {
        0x10 => Command::Begin { m: at(0), q: x[1] },
        0x20 => Command::Unit { r: at(0) },
        0x21 => Command::Coefficient { r: at(0), i: at(1), v: x[2] },
        0x30 => Command::Generator { r: at(0), i: x[1] as u8 },
        0x31 => Command::Product { d: at(0), a: at(1), b: at(2) },
        0x32 => Command::Sum { d: at(0), a: at(1), b: at(2) },
        0x33 => Command::Scale { r: at(0), v: x[1] },
        0x34 => Command::Inverse { r: at(0), i: x[1] as u8 },
        0x40 => Command::Show { r: at(0) },
        0x41 => Command::Pairing { a: at(0), b: at(1) },
        0x42 => Command::Equal { a: at(0), b: at(1) },
        0x43 => Command::Trace { r: at(0), z: x[1] },
        _ => Command::End,
    }
}

impl Command {
    /// Whether every operand is in its range, for a sheet of rank m.
    fn in_range(self, m: usize) -> bool {
        let registers = |list: &[usize]| list.iter().all(|&r| r < 4);
        match self {
            Command::Begin { m, .. } => m <= 5,
            Command::Unit { r } | Command::Scale { r, .. } | Command::Show { r } | Command::Trace { r, .. } => registers(&[r]),
            Command::Coefficient { r, i, .. } => registers(&[r]) && i < size(m),
            Command::Generator { r, i } | Command::Inverse { r, i } => registers(&[r]) && i >= 1 && i as usize <= m,
            Command::Product { d, a, b } | Command::Sum { d, a, b } => registers(&[d, a, b]),
            Command::Pairing { a, b } | Command::Equal { a, b } => registers(&[a, b]),
            Command::End => true,
        }
    }
}

/// The commands of a sheet, the end command among them, or its refusal.
fn commands(sheet: &[u8]) -> Result<Vec<Command>, Refusal> {
    refuse(sheet.is_empty() || sheet.len() > 4096, 9, 0)?;
    let (mut list, mut offset, mut rank, mut invertible) = (Vec::new(), 0, 0, false);
    while offset < sheet.len() {
        let (code, rest) = (sheet[offset], &sheet[offset + 1..]);
        let Some(widths) = widths(code) else {
            return Err(Refusal { number: 10, place: offset as u64 });
        };
        let width = widths.iter().sum();
        refuse(rest.len() < width, 11, offset)?;
        refuse((code == 0x10) != (offset == 0), 12, offset)?;
        let command = command(code, &operands(rest, widths));
        if let Command::Begin { m, q } = command {
            (rank, invertible) = (m, inverse(q).is_some());
        }
        refuse(!command.in_range(rank), 13, offset)?;
        refuse(code == 0x34 && !invertible, 15, offset)?;
        list.push(command);
        offset += 1 + width;
        if command == Command::End {
            refuse(offset < sheet.len(), 14, offset)?;
            return Ok(list);
        }
    }
    Err(Refusal { number: 14, place: sheet.len() as u64 })
}

/// The check of a whole sheet.
pub fn check(sheet: &[u8]) -> Result<(), Refusal> {
    commands(sheet).map(|_| ())
}

/// Writes the product of two elements of rank m at q, by way of a scratch of (m + 6) M words.
pub type Product = fn(m: usize, q: u64, left: &[u64], right: &[u64], result: &mut [u64], scratch: &mut [u64]);

/// Changes an element of rank m at q by a word of generators, left to right.
pub type Action = fn(m: usize, q: u64, word: &[u8], element: &mut [u64]);

/// How a run multiplies.
#[derive(Clone, Copy)]
pub struct Method {
    pub product: Product,
    pub act: Action,
}

/// The plain-list method.
const LISTS: Method = Method {
    product: |m, q, left, right, result, _| result.copy_from_slice(&Group::of_rank(m).times(q, left, right)),
    act: |m, q, word, element| element.copy_from_slice(&Group::of_rank(m).act(q, element, word)),
};

/// The state of a run: method, rank, q, registers of M words each, scratch, the ring operations so far, and the text so far.
struct Run {
    method: Method,
    m: usize,
    q: u64,
    registers: [Vec<u64>; 4],
    scratch: Vec<u64>,
    count: u64,
    text: String,
}

impl Run {
    fn begin(method: Method, m: usize, q: u64) -> Run {
        let registers = [(); 4].map(|_| vec![0; size(m)]);
        let scratch = vec![0; (m + 6) * size(m)];
        Run { method, m, q, registers, scratch, count: 0, text: format!("H {m} {q}\n") }
    }

    fn obey(&mut self, command: Command) {
        let size = size(self.m) as u64;
        match command {
            Command::Unit { r } => {
                self.registers[r].fill(0);
                self.registers[r][0] = 1;
            }
            Command::Coefficient { r, i, v } => self.registers[r][i] = v,
            Command::Generator { r, i } => {
                (self.method.act)(self.m, self.q, &[i], &mut self.registers[r]);
                self.count += 3 * size / 2;
            }
            Command::Inverse { r, i } => {
                let mut acted = self.registers[r].clone();
                (self.method.act)(self.m, self.q, &[i], &mut acted);
                self.write(r, undone(self.q, &self.registers[r], &acted), 3 * size / 2);
            }
            Command::Product { d, a, b } => {
                let mut words = vec![0; size as usize];
                let (left, right) = (&self.registers[a], &self.registers[b]);
                (self.method.product)(self.m, self.q, left, right, &mut words, &mut self.scratch);
                self.write(d, words, count::of_product(self.m));
            }
            Command::Sum { d, a, b } => self.write(d, self.pairs(a, b).map(|(x, y)| x.wrapping_add(y)).collect(), size),
            Command::Scale { r, v } => self.write(r, self.pairs(r, r).map(|(x, _)| x.wrapping_mul(v)).collect(), size),
            Command::Show { r } => self.show(r),
            Command::Pairing { a, b } => self.text += &format!("P {}\n", self.pairing(a, b)),
            Command::Equal { a, b } => self.text += &format!("Q {}\n", (self.registers[a] == self.registers[b]) as u8),
            Command::Trace { r, z } => self.text += &format!("T {}\n", markov_trace(self.m, self.q, z, &self.registers[r])),
            Command::End => self.text += &format!("N {}\n", self.count),
            Command::Begin { .. } => {}
        }
    }

    fn write(&mut self, r: usize, words: Vec<u64>, count: u64) {
        self.registers[r] = words;
        self.count += count;
    }

    /// The coefficients of two registers, side by side.
    fn pairs(&self, a: usize, b: usize) -> impl Iterator<Item = (u64, u64)> + '_ {
        self.registers[a].iter().copied().zip(self.registers[b].iter().copied())
    }

    fn show(&mut self, r: usize) {
        self.text += &format!("R {r}\n");
        for (index, value) in self.registers[r].iter().enumerate().filter(|(_, &value)| value != 0) {
            writeln!(self.text, "{index} {value}").unwrap();
        }
    }

    /// The pairing of two registers.
    fn pairing(&self, a: usize, b: usize) -> u64 {
        Group::of_rank(self.m).pairing(self.q, &self.registers[a], &self.registers[b])
    }
}

/// The run of a whole sheet by a given method, or its refusal.
fn run_by(method: Method, sheet: &[u8]) -> Result<Run, Refusal> {
    match commands(sheet)?[..] {
        [Command::Begin { m, q }, ref rest @ ..] => {
            let mut run = Run::begin(method, m, q);
            rest.iter().for_each(|&command| run.obey(command));
            Ok(run)
        }
        _ => unreachable!("a sheet that is not refused begins with 0x10"),
    }
}

/// Runs a sheet on four registers of 720 words, which are zero past M afterwards, and answers the count.
pub fn run(sheet: &[u8], registers: &mut [u64]) -> Result<u64, Refusal> {
    check(sheet)?;
    refuse(registers.len() != 4 * 720, 8, 0)?;
    let run = run_by(LISTS, sheet)?;
    registers.fill(0);
    for (register, words) in registers.chunks_exact_mut(720).zip(&run.registers) {
        register[..words.len()].copy_from_slice(words);
    }
    Ok(run.count)
}

/// What the program prints for a sheet.
pub fn printed(sheet: &[u8]) -> Vec<u8> {
    printed_by(LISTS, sheet)
}

/// What the program prints for a sheet, by a given method.
pub fn printed_by(method: Method, sheet: &[u8]) -> Vec<u8> {
    let text = match run_by(method, sheet) {
        Ok(run) => run.text,
        Err(refusal) => format!("E {} {}\n", refusal.number, refusal.place),
    };
    text.into_bytes()
}

#[cfg(test)]
mod tests {
    use super::*;

    /// Document 01's example.
    #[test]
    fn example() {
        let sheet = [0x10, 1, 3, 0, 0, 0, 0, 0, 0, 0, 0x20, 0, 0x30, 0, 1, 0x30, 0, 1, 0x40, 0, 0];
        assert_eq!(check(&sheet), Ok(()));
        assert_eq!(printed(&sheet), b"H 1 3\nR 0\n0 3\n1 2\nN 6\n");
        let mut registers = [7; 2880];
        assert_eq!(run(&sheet, &mut registers), Ok(6));
        assert_eq!(registers[..2], [3, 2]);
        assert!(registers[2..].iter().all(|&word| word == 0));
    }

    /// A letter, its inverse and again its inverse, at q = 3, where a is the inverse of 3: the last leaves a T_1 + a - 1.
    #[test]
    fn inverse_letters() {
        let mut sheet = [0x10, 1, 3, 0, 0, 0, 0, 0, 0, 0, 0x20, 0, 0x30, 0, 1, 0x34, 0, 1, 0x40, 0, 0x34, 0, 1, 0x40, 0, 0];
        let expected = b"H 1 3\nR 0\n0 1\nR 0\n0 12297829382473034410\n1 12297829382473034411\nN 9\n";
        assert_eq!(printed(&sheet), expected);
        sheet[2] = 2;
        assert_eq!(printed(&sheet), b"E 15 15\n");
        sheet[17] = 2;
        assert_eq!(printed(&sheet), b"E 13 15\n");
    }

    /// Document 02's cases at rank 2 with q = 2: the chain s_1 s_2 paired with itself, and with the reversed chain.
    #[test]
    fn pairings() {
        let begin = [0x10, 2, 2, 0, 0, 0, 0, 0, 0, 0];
        let chains = [0x20, 0, 0x30, 0, 1, 0x30, 0, 2, 0x20, 1, 0x30, 1, 2, 0x30, 1, 1];
        let sheet = [&begin[..], &chains, &[0x41, 0, 0, 0x41, 0, 1, 0]].concat();
        assert_eq!(printed(&sheet), b"H 2 2\nP 0\nP 4\nN 36\n");
    }

    /// The trefoil at q = 3, T_1 cubed, is 6 + 7 T_1: its trace is 6 + 7 z, and adds nothing to the count.
    #[test]
    fn traces() {
        let begin = [0x10, 1, 3, 0, 0, 0, 0, 0, 0, 0, 0x20, 0, 0x30, 0, 1, 0x30, 0, 1, 0x30, 0, 1];
        let trace = |r: u8, z: u64| [&[0x43, r][..], &z.to_le_bytes()].concat();
        let sheet = [&begin[..], &trace(0, 5), &trace(0, u64::MAX), &trace(3, 5), &[0]].concat();
        assert_eq!(printed(&sheet), b"H 1 3\nT 41\nT 18446744073709551615\nT 0\nN 9\n");
        let other = [&begin[..], &trace(4, 5), &[0]].concat();
        assert_eq!(printed(&other), b"E 13 21\n");
        assert_eq!(printed(&other[..30]), b"E 11 21\n");
        assert_eq!(printed(&trace(0, 5)), b"E 12 0\n");
    }

    #[test]
    fn refused() {
        assert_eq!(printed(&[]), b"E 9 0\n");
        assert_eq!(printed(&[0]), b"E 12 0\n");
        assert_eq!(printed(&[0x10, 6, 0, 0, 0, 0, 0, 0, 0, 0, 0]), b"E 13 0\n");
        assert_eq!(printed(&[0x10, 5, 0, 0, 0, 0, 0, 0, 0, 0]), b"E 14 10\n");
    }
}
