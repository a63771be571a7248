//! The bench program as a process: input goes in through a pipe, piece by piece, and the lines come out.

use std::io::Write;
use std::path::{Path, PathBuf};
use std::process::{Command, Stdio};
use std::thread;

use crate::arguments;

/// The proved bench program, or the one that CHHUTIROK_BENCH names.
pub fn bench() -> PathBuf {
    arguments::path("CHHUTIROK_BENCH", "target/bin/bench")
}

/// What the program writes to standard output. It must write nothing else and exit with 0, whatever the input.
pub fn run(program: &Path, input: &[u8], piece: usize) -> Result<Vec<u8>, String> {
    let mut child = Command::new(program)
        .stdin(Stdio::piped())
        .stdout(Stdio::piped())
        .stderr(Stdio::piped())
        .spawn()
        .map_err(|error| format!("{}: {error}", program.display()))?;
    let mut stdin = child.stdin.take().ok_or("no standard input")?;
    let output = thread::scope(|scope| {
        scope.spawn(move || {
            // A program that has seen enough may close its end: that is not a fault.
            for part in input.chunks(piece) {
                if stdin.write_all(part).is_err() {
                    break;
                }
            }
        });
        child.wait_with_output()
    });
    let output = output.map_err(|error| error.to_string())?;
    if !output.status.success() || !output.stderr.is_empty() {
        let words = String::from_utf8_lossy(&output.stderr);
        return Err(format!("{}, standard error: {words}", output.status));
    }
    Ok(output.stdout)
}

/// Compares two outputs line by line; the line ends count.
pub fn same_lines(expected: &[u8], found: &[u8]) -> Result<(), String> {
    if expected == found {
        return Ok(());
    }
    let text = |bytes: &[u8]| String::from_utf8_lossy(bytes).into_owned();
    let mut lines = expected.split_inclusive(|&byte| byte == b'\n');
    let mut found_lines = found.split_inclusive(|&byte| byte == b'\n');
    for number in 1.. {
        let (line, found_line) = (lines.next(), found_lines.next());
        if line != found_line {
            return Err(format!("line {number}: expected {:?}, found {:?}", line.map(text), found_line.map(text)));
        }
    }
    unreachable!("outputs that differ have a line that differs")
}
