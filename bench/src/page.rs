//! The table of times, and the page that it stands on.

use crate::cases::{Both, Measured, Row};
use crate::clock::Times;
use std::fmt::Write;
use std::process::Command;

const HEAD: &str = "\
# Benchmarks

The library's calls beside plain Rust and C, all in one run on one machine. `cargo run --release --offline -p bench -- --write`
makes this page; without `--write` it prints the tables, and with `--check` it compares all results and times nothing. With the
variable HECKE_BEFORE set to the full path of an older `libhecke_c.a`, its products, its words and its towers of image lists take part
too, as `before`: for this page that of the landing before.
";

const TERMS: &str = "
## What is compared

- **library**: the call through the wrapper `rust/hecke`, with all its checks. A sheet goes through the program `run_sheet`.
- **(a)**: the same nested method in plain Rust, `bench/src/nested.rs`, with the machine's own wrapping multiplication and with the
  parts of a product added in the library's order, from k = l down to 0. It has no case of its own for ranks 1 to 4, as the library
  has; this is why the library is the faster of the two. For towers, plain Rust with the same checks, where larger images are
  counted in a mask of those seen, `bench/src/towers.rs`; an image list is read in one pass, by the library's method. For the
  pairing, `bench/src/pairing.rs`: w and its inverse go down together through the ranks, so that the place of the inverse takes a
  step for each w and no table; the library's walk is another, which carries weights and ends at rank 1. For the trace,
  `bench/src/trace.rs`: at each level one element of a rank less, by the library's method, with the letters of
  `bench/src/nested.rs`. For sheets, the runner of `rust/plain` by this method.
- **C**: the same nested method in C tuned by hand, `bench/c/nested.c`, in the library's order of parts and with its cases of their
  own (letters in place; letters at ranks 1 to 3, and T_a(2,2) at rank 2; a right factor of rank 1), but that for letters at rank 4,
  and with no checks. It is compiled by cc and by clang with -O3 for any x86-64 processor, as the archive is; both take part, and the
  faster is shown. It has no signed letters. The pairing, `bench/c/pairing.c`, goes as in (a).
- **(b)**: formula 4.4 on plain lists, `bench/src/lists.rs`: each T_v acts through its whole word, as source document 000
  counts. The places of w and ws, and the words, are in tables made before the clock starts; `rust/plain`, written to be read,
  makes words and lists anew for each v. For the pairing, its sum as document 02 writes it, with lengths and inverses in such tables.
  For the trace, its recursion as document 02 writes it: each summand is turned and traced by itself.
  For sheets (b) is `rust/plain` as it is, its tables timed.
- **(c)**: formula 4.4 with h T_v kept for each beginning of a word, so that each T_v costs one letter: (7/2) M² operations,
  and m (m + 1) / 2 + 1 lists of M words beside the scratch.
- **one pass**: (a) for image lists. Each image is vetted and counted before the next is read; its entry goes into an array, which is
  copied to the tower when all images are good and the buffer fits.
- **two passes**: the library's former method in plain Rust, `bench/src/towers.rs`: all images are vetted, then read again and counted.

All results, and the scratch after a product or a trace, are compared before the clock starts. The contenders take turns, round by
round, on the same of eight random inputs; a time is the mean over a batch of calls, the least over all rounds with the median in
brackets. Result slices hold what the call before left: nothing is cleared for a call. Every product and every trace clears the first
(m + 6) M words of its scratch at its end, as documents 01 and 02 ask, and this is timed. A word's element is copied from the input first, which
is timed too. A signed word has an odd q and letters with random signs; the inverse of q, which the library counts as free, is
found in each call and timed. In the table of letters both ways the library's two calls take turns on the same letters, and in that
of the pairing on the same elements. In that of the trace the clearing is the same words set to zero by Rust's `fill`. A sheet is
one process: its start and both pipes are timed. Ratios are those of the least times.

Towers: of one point nothing is converted, and these rows are what a call costs by itself, its checks and its returned word. Up
to 8 points it is a large part of the time, and the ratios there change with the layout of both programs: builds before this
page gave 1.2 to 1.8 for tower to image list at 4 points, at 9 to 12 ns for (a).

Image lists: a run is a million random lists, which stand one after another in memory, and its time is shown for one list. A bad
list of n images has one bad image, at index 0, n / 2 or n - 1: it is 0, too large or, but for the first, already seen, as chance has
it. The contenders take turns, run by run, on the same lists, for 2 seconds and at least 9 runs each. Before the clock starts, each answer is held
to what is due: the tower, or number 6 with the place and the buffer as it was. Whether the walk stops at the first bad image is judged by
lists that are bad at the front, whose time must not grow with their size, and in the middle, whose time must be well below that of
valid ones. Two passes count nothing in a bad list, and one pass has counted up to the bad image: where that comes late, two passes
are the faster.

## What the inner loops compile to

Read off the archive, which is for any x86-64 processor:

- No loop has a bounds check, and `ring::mul`, written by halves of 32 bits, is one multiplication instruction.
- Of the recursion six functions are left, `letter`, `letter_of_rank_three`, `letter_of_rank_four`, `by_blocks`, `level` and
  `times`; all others stand in the places where they are called.
- One letter at rank 2, on which most of the recursion ends, is straight code of six multiplications and three additions for
  each way, in loops over the blocks of rank 2 of an element of rank 3. On larger blocks the loop has two multiplications and one addition for each pair of words, and
  no call. T_a(2,2) at rank 2 is straight code too.
- Sums of blocks and of elements go up through their slices and become vector code, two words at a time. Scaling, and the move of a
  block times q, go down and take one multiplication a word.
- The walk over an image list is one loop in the call itself. For each image it has one load from the list, one comparison for
  both 0 and too large, the test of a bit for already seen, a shift, the count, one store into an array of 64 bytes on the
  stack, and one instruction that sets the bit; an addition goes along, which keeps the word of a refusal ready. The set bits
  are counted by shifts, masks and a multiplication, since not every such processor has an instruction for it. The array is set
  to zero by four stores of 16 bytes before the loop, and copied to the tower by a call of `memcpy` after it. Plain Rust in one
  pass has such a loop too, with the same four stores and the same call; in two passes the first loop has a load and the tests
  for each image, and the second another load and the count.
- The images of a tower are made by vector code, 16 bytes at a time.
- A slice passes through memory, as an address and a length, and so does what finds no register. Loops over two slices are made
  twice by the compiler, for slices that overlap and for those that do not, since it is not told that they do not. The size of a
  block is a jump at each level of `level`.
- Where a product's sum over three blocks or more begins, the library makes the first summand, which is part l, in the result and
  copies it to the scratch, and C makes it there. With the same copy in C, with parts added from 0 up to l and before there was a case
  for letters at rank 3, the ratios at ranks 3 to 6 were 1.06, 1.01, 1.03 and 1.00 in a run on another processor: the copy was most of
  what the library took longer. To save it, two parts of one slice would have to be lent at the same time.
";

fn time(times: Option<&Times>) -> String {
    let Some(times) = times else { return "–".to_string() };
    let (unit, name) = match times.least {
        least if least < 1e3 => (1.0, "ns"),
        least if least < 1e6 => (1e3, "µs"),
        _ => (1e6, "ms"),
    };
    format!("{:.1} ({:.1}) {name}", times.least / unit, times.median / unit)
}

/// A ratio with two decimals, or four below a tenth.
fn decimals(ratio: f64) -> String {
    if ratio < 0.1 {
        format!("{ratio:.4}")
    } else {
        format!("{ratio:.2}")
    }
}

/// The columns of a table of rows: what a row is, the contenders and the ratios. `before` is there where an older archive is.
struct Columns {
    row: [&'static str; 2],
    times: &'static [&'static str],
    ratios: &'static [(&'static str, &'static str)],
}

const TIMES: Columns = Columns {
    row: ["call", "size"],
    times: &[
        "library",
        "(a)",
        "C",
        "(b)",
        "(c)",
        #[cfg(before)]
        "before",
    ],
    ratios: &[
        ("library", "(a)"),
        ("library", "C"),
        ("(b)", "library"),
        ("(c)", "library"),
        #[cfg(before)]
        ("library", "before"),
    ],
};

const IMAGE_LISTS: Columns = Columns {
    row: ["lists", "size"],
    times: &[
        "library",
        "one pass",
        "two passes",
        #[cfg(before)]
        "before",
    ],
    ratios: &[
        ("library", "one pass"),
        ("library", "two passes"),
        #[cfg(before)]
        ("library", "before"),
    ],
};

impl Row {
    /// The times of a contender, where it is there; of several by one name, the fastest.
    fn of(&self, name: &str) -> Option<&Times> {
        let times = self.times.iter().filter(|(own, _)| *own == name).map(|(_, times)| times);
        times.min_by(|x, y| x.least.total_cmp(&y.least))
    }

    /// The ratio of the least times of two contenders, where both are there.
    fn ratio(&self, upper: &str, lower: &str) -> Option<f64> {
        Some(self.of(upper)?.least / self.of(lower)?.least)
    }

    fn line(&self, columns: &Columns) -> String {
        let times = columns.times.iter().map(|name| time(self.of(name)));
        let ratio = |ratio: Option<f64>| ratio.map_or("–".to_string(), decimals);
        let ratios = columns.ratios.iter().map(|(upper, lower)| ratio(self.ratio(upper, lower)));
        joined([self.call.to_string(), self.size.clone()].into_iter().chain(times).chain(ratios))
    }
}

/// A line of a table.
fn joined(cells: impl Iterator<Item = String>) -> String {
    format!("| {} |\n", cells.collect::<Vec<_>>().join(" | "))
}

/// At which sizes of valid lists the library takes at most so many times the time of another, and at which it takes more.
fn holding(rows: &[Row], lower: &str, most: f64) -> String {
    let valid: Vec<&Row> = rows.iter().filter(|row| row.call == "valid").collect();
    let sizes = |holds: bool| {
        let those = valid.iter().filter(|row| row.ratio("library", lower).is_some_and(|ratio| (ratio <= most) == holds));
        let sizes: Vec<&str> = those.map(|row| row.size.trim_end_matches(" points")).collect();
        if sizes.is_empty() {
            "no size".to_string()
        } else {
            format!("{} points", sizes.join(", "))
        }
    };
    format!("Valid lists: library / {lower} is at most {most} at {}, and above at {}.\n", sizes(true), sizes(false))
}

/// The table of the runs over image lists, and at which sizes of valid lists each of two ratios is kept.
fn image_lists(rows: &[Row]) -> String {
    let (two, one) = (holding(rows, "two passes", 1.0), holding(rows, "one pass", 1.15));
    format!("{}\n{two}{one}", table(&IMAGE_LISTS, rows))
}

/// A table of times and ratios.
fn table(columns: &Columns, rows: &[Row]) -> String {
    let names = columns.row.iter().chain(columns.times).map(|name| name.to_string());
    let heads = names.chain(columns.ratios.iter().map(|(upper, lower)| format!("{upper} / {lower}")));
    let rule = "|---".repeat(2 + columns.times.len() + columns.ratios.len());
    let lines: String = rows.iter().map(|row| row.line(columns)).collect();
    format!("{}{rule}|\n{lines}", joined(heads))
}

impl Both {
    /// The ratio of the least times.
    fn ratio(&self) -> f64 {
        self.one.least / self.other.least
    }
}

/// A table of two calls, with the heads of its columns of times and of ratios.
fn both(heads: [&str; 3], all: &[Both]) -> String {
    let mut text = format!("| size | {} |\n|---|---|---|---|\n", heads.join(" | "));
    for both in all {
        let (one, other) = (time(Some(&both.one)), time(Some(&both.other)));
        writeln!(text, "| rank {} | {one} | {other} | {} |", both.m, decimals(both.ratio())).unwrap();
    }
    text
}

/// The table of signed letters beside plain ones.
fn signs(all: &[Both]) -> String {
    both(["100 signed letters", "100 plain letters", "signed / plain"], all)
}

/// The table of the pairing beside the product.
fn shares(all: &[Both]) -> String {
    both(["pairing", "product", "pairing / product"], all)
}

/// The table of the trace beside the clearing of its scratch.
fn clearings(all: &[Both]) -> String {
    both(["trace", "clearing", "trace / clearing"], all)
}

/// The aims of the runs over image lists.
fn of_image_lists(rows: &[Row]) -> Vec<(&'static str, f64, bool)> {
    let row =
        |kind: &str, points: usize| rows.iter().find(|row| row.call == kind && row.size == format!("{points} points")).unwrap();
    let largest = |sizes: &[usize], lower: &str| {
        sizes.iter().filter_map(|&points| row("valid", points).ratio("library", lower)).fold(0.0, f64::max)
    };
    let least = |kind: &str, points: usize| row(kind, points).of("library").unwrap().least;
    let (former, one) = (largest(&[8, 16, 32, 64], "two passes"), largest(&[4, 8, 16, 32, 64], "one pass"));
    let front = least("bad at the front", 64) / least("bad at the front", 4);
    let middle = least("bad in the middle", 64) / least("valid", 64);
    let mut aims = vec![
        ("valid image lists from 8 points on: library / two passes at most 1", former, former <= 1.0),
        ("valid image lists: library / one pass at most 1.15 at each size", one, one <= 1.15),
        ("image lists bad at the front: 64 points / 4 points at most 1.25", front, front <= 1.25),
        ("image lists of 64 points: bad in the middle / valid at most 0.6", middle, middle <= 0.6),
    ];
    if cfg!(before) {
        let before = largest(&[8, 16, 32, 64], "before");
        aims.push(("valid image lists from 8 points on: library / before at most 1", before, before <= 1.0));
    }
    aims
}

/// The aims, each with what was measured and whether it holds.
fn judged(all: &Measured) -> Vec<(&'static str, f64, bool)> {
    let row = |call: &str, size: &str| all.rows.iter().find(|row| (row.call, row.size.as_str()) == (call, size)).unwrap();
    let largest = |call: &str, lower: &str| {
        let ratios = all.rows.iter().filter(|row| row.call == call).filter_map(|row| row.ratio("library", lower));
        ratios.fold(0.0, f64::max)
    };
    let product = row("product", "rank 6");
    let (same, lists) = (product.ratio("library", "(a)").unwrap(), product.ratio("(b)", "library").unwrap());
    let (to_tower, to_images) = (largest("image list to tower", "(a)"), largest("tower to image list", "(a)"));
    let beside_c = |size: &str| row("product", size).ratio("library", "C").unwrap();
    let (three, high) = (beside_c("rank 3"), beside_c("rank 5").max(beside_c("rank 6")));
    let signed = all.signs.iter().map(Both::ratio).fold(0.0, f64::max);
    let share = all.shares.iter().find(|both| both.m == 5).unwrap().ratio();
    let trace = largest("trace", "(a)");
    let mut aims = vec![
        ("product of rank 6: library / (a) at most 1.5", same, same <= 1.5),
        ("product of rank 6: (b) / library at least 2", lists, lists >= 2.0),
        ("image list to tower: library / (a) at most 1.5 at each size", to_tower, to_tower <= 1.5),
        ("tower to image list: library / (a) at most 1.5 at each size", to_images, to_images <= 1.5),
        ("product of rank 3: library / C at most 1.15", three, three <= 1.15),
        ("product of ranks 5 and 6: library / C at most 1.03", high, high <= 1.03),
        ("signed / plain letters at most 1.05 at ranks 3 to 6", signed, signed <= 1.05),
        ("pairing / product below 0.1 at rank 5", share, share < 0.1),
        ("trace: library / (a) at most 1.2 at each rank", trace, trace <= 1.2),
    ];
    aims.extend(of_image_lists(&all.image_lists));
    if cfg!(before) {
        let (product, word) = (largest("product", "before"), largest("word of 100 letters", "before"));
        aims.push(("product: library / before at most 1.02 at each rank", product, product <= 1.02));
        aims.push(("word of 100 letters: library / before at most 1.02 at each rank", word, word <= 1.02));
    }
    aims
}

/// The table of the aims.
fn aims(all: &Measured) -> String {
    let mut text = String::from("| aim | measured | holds |\n|---|---|---|\n");
    for (aim, measured, holds) in judged(all) {
        writeln!(text, "| {aim} | {} | {} |", decimals(measured), if holds { "yes" } else { "no" }).unwrap();
    }
    text
}

/// The first line that a program prints, if it is there.
fn first_line(program: &str, word: &str) -> Option<String> {
    let output = Command::new(program).arg(word).output().ok()?;
    Some(String::from_utf8_lossy(&output.stdout).lines().next()?.to_string())
}

/// The processor, the number of cores and the compilers.
fn machine() -> String {
    let cpuinfo = std::fs::read_to_string("/proc/cpuinfo").unwrap_or_default();
    let name = cpuinfo.lines().find_map(|line| line.strip_prefix("model name")?.split(": ").nth(1)).unwrap_or("unknown");
    let cores = std::thread::available_parallelism().map_or(1, |cores| cores.get());
    let programs = [("rustc", "--version"), ("cc", "--version"), ("clang", "--version"), ("rt", "version")];
    let compilers: Vec<String> = programs.iter().filter_map(|(program, word)| first_line(program, word)).collect();
    let missing = if cfg!(clang) { "" } else { " There is no clang here: the C is by cc alone." };
    format!("Processor: {name}, {cores} cores. Compilers: {}.{missing}\n", compilers.join("; "))
}

/// The tables, each with its title.
pub fn tables(all: &Measured) -> [(&'static str, String); 6] {
    [
        ("Times", table(&TIMES, &all.rows)),
        ("Letters both ways", signs(&all.signs)),
        ("The pairing beside the product", shares(&all.shares)),
        ("The trace beside the clearing of its scratch", clearings(&all.clearings)),
        ("Image lists, a million at a time", image_lists(&all.image_lists)),
        ("Aims", aims(all)),
    ]
}

/// The whole page.
pub fn page(all: &Measured) -> String {
    let tables = tables(all).map(|(title, table)| format!("\n## {title}\n\n{table}")).concat();
    format!("{HEAD}\n{}{tables}{TERMS}", machine())
}
