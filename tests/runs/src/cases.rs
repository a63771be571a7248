//! Cases with stored expectations (cases/*.txt). A case is a run of records, one on a line, and behind `|` the line that the
//! bench program prints for it:
//!
//!     case NAME
//!     EE 17=01 OTP=C3*64 | image            664 zeros but for these: positions decimal, bytes hexadecimal
//!     WK                 | wake 04113343    so ID and SL
//!     BK 07 30 00*3 03 5D | block 070000000003AD    a block; its random bytes are A0 to BF
//!     raw 58 58          | bad 668          bytes that need not be a record
//!     8 * BK ..          | ..               the same record eight times
//!
//! `11*32` is 32 bytes 11. A `raw` line without `|` prints nothing. Lines that start with # are comments.

use std::fs;

use crate::arguments;
use crate::generate::Step;
use crate::layout::IMAGE_LENGTH;

pub struct Case {
    pub name: String,
    pub input: Vec<u8>,
    pub output: Vec<u8>,
    /// The records and their lines; empty where the case has bytes that need not be a record.
    pub steps: Vec<(Step, String)>,
}

/// The cases of a file of the folder cases/.
pub fn read(file: &str) -> Vec<Case> {
    let path = arguments::path("CHHUTIROK_CASES", "tests/runs/cases").join(file);
    let text = fs::read_to_string(&path).unwrap_or_else(|error| panic!("{}: {error}", path.display()));
    let mut cases: Vec<Case> = Vec::new();
    let mut raw = false;
    for (number, line) in text.lines().enumerate() {
        let at = || format!("{file}, line {}", number + 1);
        if line.is_empty() || line.starts_with('#') {
            continue;
        }
        if let Some(name) = line.strip_prefix("case ") {
            raw = false;
            cases.push(Case { name: format!("{file}: {name}"), input: vec![], output: vec![], steps: vec![] });
            continue;
        }
        let case = cases.last_mut().unwrap_or_else(|| panic!("{}: no case begun", at()));
        let (times, line) = repeated(line);
        let (record, shown) = line.split_once('|').map_or((line, None), |(record, shown)| (record, Some(shown.trim())));
        let (bytes, step) = parsed(record.trim()).unwrap_or_else(|| panic!("{}: no record", at()));
        for _ in 0..times {
            case.input.extend_from_slice(&bytes);
            if let Some(shown) = shown {
                case.output.extend_from_slice(format!("{shown}\n").as_bytes());
            }
            if let Some(step) = &step {
                case.steps.push((step.clone(), shown.unwrap_or_default().to_string()));
            }
        }
        raw |= step.is_none();
        if raw {
            case.steps.clear();
        }
    }
    cases
}

/// `8 * record`, or once.
fn repeated(line: &str) -> (usize, &str) {
    let times = line.split_once(" * ").and_then(|(times, rest)| Some((times.parse().ok()?, rest)));
    times.unwrap_or((1, line))
}

/// The bytes of a line, and the step where it is a record.
fn parsed(record: &str) -> Option<(Vec<u8>, Option<Step>)> {
    let (mark, rest) = record.split_once(' ').unwrap_or((record, ""));
    let step = match mark {
        "raw" => return Some((bytes(rest)?, None)),
        "EE" => Step::Image(Box::new(image(rest)?)),
        "WK" => Step::Wake,
        "ID" => Step::Idle,
        "SL" => Step::Sleep,
        "BK" => Step::Block { bytes: bytes(rest)?, random: std::array::from_fn(|i| 0xA0 + i as u8) },
        _ => return None,
    };
    Some((step.record(), Some(step)))
}

/// `11*32 3C F4`.
fn bytes(text: &str) -> Option<Vec<u8>> {
    let mut bytes = Vec::new();
    for word in text.split_whitespace() {
        let (byte, times) = word.split_once('*').unwrap_or((word, "1"));
        let byte = u8::from_str_radix(byte, 16).ok()?;
        bytes.extend(std::iter::repeat_n(byte, times.parse().ok()?));
    }
    Some(bytes)
}

/// Changes to 664 zeros: a position of the configuration, or OTP or data from its start; several bytes are joined by commas.
fn image(text: &str) -> Option<[u8; IMAGE_LENGTH]> {
    let mut image = [0; IMAGE_LENGTH];
    for change in text.split_whitespace() {
        let (place, value) = change.split_once('=')?;
        let start = match place {
            "OTP" => 88,
            "data" => 152,
            _ => place.parse().ok()?,
        };
        let value = bytes(&value.replace(',', " "))?;
        image.get_mut(start..start + value.len())?.copy_from_slice(&value);
    }
    Some(image)
}
