//! A capture on standard input, its report on standard output: the library's capture program,
//! written in ordinary Rust.

use std::io::{self, Write};

fn main() -> io::Result<()> {
    let text = yardstick::report::report(io::stdin().lock())?;
    io::stdout().write_all(text.as_bytes())
}
