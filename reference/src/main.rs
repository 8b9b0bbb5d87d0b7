//! Reads a log from standard input and writes the verdict to standard output; with the word
//! `balance` as first argument, a piece and its balances; with the word `join` and the paths
//! of two logs, the verdict on both in one drawing.
#![forbid(unsafe_code)]

use std::ffi::OsString;
use std::io::{stdin, stdout};

fn main() -> std::io::Result<()> {
    let arguments: Vec<OsString> = std::env::args_os().skip(1).collect();
    reference::run_arguments(&arguments, &mut stdin().lock(), &mut stdout().lock())
}
