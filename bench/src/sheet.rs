//! Whole sheets: by the nested method in plain Rust, and through programs that run a sheet from standard input.

use crate::nested;
use plain::sheet::{printed_by, Method};
use std::io::{Read, Write};
use std::process::{Command, Stdio};

/// What the program prints for a sheet, by the nested method.
pub fn printed(sheet: &[u8]) -> Vec<u8> {
    printed_by(Method { product: nested::product, act: nested::act_word }, sheet)
}

/// What a program prints for the sheet on its standard input.
pub fn output_of(program: &mut Command, sheet: &[u8], output: &mut Vec<u8>) {
    let mut child = program.stdin(Stdio::piped()).stdout(Stdio::piped()).spawn().expect("the program starts");
    child.stdin.take().unwrap().write_all(sheet).unwrap();
    output.clear();
    child.stdout.take().unwrap().read_to_end(output).unwrap();
    assert!(child.wait().unwrap().success());
}
