//! The arguments of the test programs: `--seed S --count N`, each with a usual value.

use std::env;
use std::path::PathBuf;

/// The value behind an argument of that name.
pub fn number(name: &str, usual: u64) -> u64 {
    let mut arguments = env::args();
    match arguments.find(|argument| argument == name) {
        None => usual,
        Some(_) => {
            let value = arguments.next().and_then(|value| value.parse().ok());
            value.unwrap_or_else(|| panic!("{name} needs a number"))
        }
    }
}

/// A path below the top of the repository, unless the environment names another.
pub fn path(variable: &str, below_top: &str) -> PathBuf {
    match env::var_os(variable) {
        Some(path) => PathBuf::from(path),
        None => PathBuf::from(env!("CARGO_MANIFEST_DIR")).join("../..").join(below_top),
    }
}
