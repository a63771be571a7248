//! The bench program of document 01 over the independent engine.

use std::io::{self, Read, Write};

use runs::engine;

/// One byte past the limit is enough to see that an input is too long.
const READ_LIMIT: u64 = 65_537;

fn main() -> io::Result<()> {
    let mut input = Vec::new();
    io::stdin().lock().take(READ_LIMIT).read_to_end(&mut input)?;
    io::stdout().lock().write_all(&engine::bench(&input))
}
