//! Times of the library's calls beside plain Rust and C: `bench [--write | --check]`.

mod before;
mod cases;
mod clock;
mod image_lists;
mod lists;
mod nested;
mod page;
mod pairing;
mod random;
mod sheet;
mod towers;
mod trace;
mod tuned;

use std::io::{self, Read, Write};
use std::path::Path;

/// Runs the sheet on standard input by the named method.
fn run_sheet(method: &str) -> io::Result<()> {
    let mut sheet = Vec::new();
    io::stdin().take(4097).read_to_end(&mut sheet)?;
    let text = if method == "nested" { sheet::printed(&sheet) } else { plain::sheet::printed(&sheet) };
    io::stdout().write_all(&text)
}

fn main() -> io::Result<()> {
    let words: Vec<String> = std::env::args().skip(1).collect();
    match words.iter().map(String::as_str).collect::<Vec<_>>()[..] {
        ["--sheet", method] => run_sheet(method)?,
        ["--check"] => {
            let cases = cases::rows(false).len() + image_lists::rows(false).len();
            println!("{cases} cases: all contenders agree");
        }
        [] => println!("{}", page::tables(&cases::measured()).map(|(_, table)| table).join("\n")),
        ["--write"] => {
            let page = page::page(&cases::measured());
            print!("{page}");
            std::fs::write(Path::new(env!("CARGO_MANIFEST_DIR")).join("../docs/BENCHMARKS.md"), page)?;
        }
        _ => {
            eprintln!("usage: bench [--write | --check]");
            std::process::exit(2);
        }
    }
    Ok(())
}
