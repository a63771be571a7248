//! A stand-in for the proved bench program: that of the independent engine, over the stand-in's own copy of it.

#[path = "../src/engine.rs"]
mod engine;

use std::io::{stdin, stdout, Read, Write};

fn main() -> std::io::Result<()> {
    let mut input = Vec::new();
    stdin().lock().take(65_537).read_to_end(&mut input)?;
    stdout().lock().write_all(&engine::bench(&input))
}
