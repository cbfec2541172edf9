//! The line program from standard input to standard output.

use reference::lines;
use std::io::{self, Read, Write};

fn main() -> io::Result<()> {
    let mut input = Vec::new();
    io::stdin()
        .lock()
        .take(lines::INPUT_MAX as u64)
        .read_to_end(&mut input)?;
    io::stdout().lock().write_all(&lines::run(&input))
}
