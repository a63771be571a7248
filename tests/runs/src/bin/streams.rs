//! The first run: record streams through the bench program, compared line by line with the independent bench.
//! `--seed S --count N`: N generated streams of up to 65,536 bytes.

use std::path::{Path, PathBuf};
use std::process::ExitCode;

use runs::engine;
use runs::generate::{seed_of, Generator, Step};
use runs::host;
use runs::random::Random;
use runs::table::Table;
use runs::tally::Tally;
use runs::{arguments, program};

const LONGEST_INPUT: usize = 65_536;

fn main() -> ExitCode {
    let (seed, count) = (arguments::number("--seed", 1), arguments::number("--count", 800));
    let mut run = Run { program: program::bench(), tally: Tally::default(), lines: 0 };
    let mut table = Table::EMPTY;
    run.limits();
    run.cuts();
    for round in 0..count {
        let (stream, met) = generated(seed_of(seed, round), round as usize % 8);
        run.compare(&format!("seed {seed}, round {round}"), &stream.bytes, stream.piece);
        if let Some(met) = met {
            table.add(&met);
        }
    }
    println!("{} lines through {}, seed {seed}", run.lines, shown(&run.program));
    table.report(&mut run.tally);
    run.tally.end()
}

/// A path of the usual place as the repository says it.
fn shown(program: &Path) -> String {
    let path = program.display().to_string();
    path.rsplit_once("../../").map_or(path.clone(), |(_, below)| below.to_string())
}

struct Run {
    program: PathBuf,
    tally: Tally,
    lines: usize,
}

impl Run {
    fn compare(&mut self, name: &str, input: &[u8], piece: usize) {
        let expected = engine::bench(input);
        self.lines += expected.iter().filter(|&&byte| byte == b'\n').count();
        let found = program::run(&self.program, input, piece);
        let result = found.and_then(|found| program::same_lines(&expected, &found));
        self.tally.result(result.map_err(|why| format!("{name}, {} bytes: {why}", input.len())));
    }

    /// Nothing, one letter, and the longest input and beyond, whole records or not.
    fn limits(&mut self) {
        let wakes: Vec<u8> = [b"EE", &[0; 664][..], &b"WK".repeat(33_000)].concat();
        for length in [0, 1, 2, 665, 666, 667, 668, LONGEST_INPUT - 1, LONGEST_INPUT, LONGEST_INPUT + 1, LONGEST_INPUT + 2] {
            self.compare("wakes", &wakes[..length], LONGEST_INPUT);
        }
        for length in [LONGEST_INPUT, LONGEST_INPUT + 1, 70_000, 1_000_000] {
            self.compare("zeros", &vec![0; length], LONGEST_INPUT);
        }
    }

    /// A short stream cut at each of its bytes behind the image, and with each of its marks spoilt.
    fn cuts(&mut self) {
        let random = [0x3C; 32];
        let [whole, long] = [host::block(0x30, 0, 0, &[]), vec![0x55; 255]].map(|bytes| Step::Block { bytes, random });
        let image = Step::Image(Box::new([0; 664]));
        let steps = [image.clone(), Step::Wake, whole.clone(), Step::Idle, image, Step::Wake, long, Step::Sleep, whole];
        let stream: Vec<u8> = steps.iter().flat_map(Step::record).collect();
        for length in (0..8).chain(660..780).chain(1370..=stream.len()) {
            self.compare("cut", &stream[..length], LONGEST_INPUT);
        }
        let mut at = 0;
        for step in &steps {
            for small in [[0x20, 0x00], [0x00, 0x20], [0x20, 0x20]] {
                let mut spoilt = stream.clone();
                spoilt[at] ^= small[0];
                spoilt[at + 1] ^= small[1];
                self.compare("a mark in small letters", &spoilt, LONGEST_INPUT);
            }
            at += step.record().len();
        }
        self.compare("no image first", &stream[666..], LONGEST_INPUT);
    }
}

struct Stream {
    bytes: Vec<u8>,
    /// Bytes written at a time.
    piece: usize,
}

/// A stream, and what its blocks met where all of it is run.
fn generated(seed: u64, kind: usize) -> (Stream, Option<Table>) {
    let mut generator = Generator::new(seed);
    let mut random = Random::new(!seed);
    let limit = if random.once_in(4) { random.below(LONGEST_INPUT) } else { LONGEST_INPUT };
    let (mut bytes, mut starts) = (Vec::new(), Vec::new());
    while let Some(step) = generator.step(limit - bytes.len()) {
        starts.push(bytes.len());
        bytes.extend(step.record());
    }
    match kind {
        // The longest input there is, its last record whole or cut.
        4 => fill(&mut bytes, LONGEST_INPUT),
        5 => fill(&mut bytes, LONGEST_INPUT + 1 + random.below(3)),
        6 => bytes.truncate(random.below(bytes.len() + 1)),
        7 if !starts.is_empty() => spoil(&mut bytes, random.pick(&starts), &mut random),
        _ => {}
    }
    let piece = random.pick(&[LONGEST_INPUT, 4096, 1000, 97]);
    (Stream { bytes, piece }, (kind < 5).then_some(generator.table))
}

fn fill(bytes: &mut Vec<u8>, length: usize) {
    bytes.extend(b"WK".repeat(LONGEST_INPUT / 2 + 2));
    bytes.truncate(length);
}

/// At the start of a record: one bit of its mark, a byte too many or too few, or a record that is none.
fn spoil(bytes: &mut Vec<u8>, at: usize, random: &mut Random) {
    match random.below(4) {
        0 => bytes[at + random.below(2)] ^= 1 << random.below(8),
        1 => bytes.insert(at, random.pick(b"EWISB\n\0")),
        2 => drop(bytes.remove(at)),
        _ => drop(bytes.splice(at..at, random.pick(&[*b"XX", *b"bk", *b"KB", *b"EW"]))),
    }
    bytes.truncate(LONGEST_INPUT);
}
