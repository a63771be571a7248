//! Events a second through the C interface and through the independent engine, and lines a second of the two bench programs.
//! A benchmark, no test: the two take turns, and the best turn of each counts, so that what else the machine does matters less.

use std::hint::black_box;
use std::path::{Path, PathBuf};
use std::time::{Duration, Instant};

use runs::engine::{Power, Token};
use runs::generate::{Generator, Step};
use runs::host;
use runs::layout::bytes_of;
use runs::{arguments, desk, program};

const RANDOM: [u8; 32] = [0xA5; 32];

/// What one event is timed on. Where the event changes the token, each turn puts the token back, on both sides.
struct Subject {
    name: &'static str,
    token: Token,
    step: Step,
}

fn main() {
    let rounds = arguments::number("--count", 40);
    println!("events a second, best of {rounds} turns; a ratio above 1 means that the proved engine is faster");
    println!("{:<28}{:>12}{:>14}{:>8}", "event", "proved", "independent", "ratio");
    for subject in subjects() {
        let [proved, independent] = times(&subject, rounds);
        println!("{:<28}{:>12.0}{:>14.0}{:>8.2}", subject.name, 1.0 / proved, 1.0 / independent, independent / proved);
    }
    bench_lines(rounds);
}

// ===== Events =====

/// Seconds for one event: proved, independent.
fn times(subject: &Subject, rounds: u64) -> [f64; 2] {
    let Some((event, _)) = subject.step.event() else { unreachable!("every subject is an event") };
    let (before, mut output) = (bytes_of(&subject.token), [0; 35]);
    let outcome = subject.token.event(event, &RANDOM, &mut output);
    let resets = outcome.token != subject.token;
    let (mut state, mut found) = (before, [0; 35]);
    let reply = desk::event(event, &mut state, &RANDOM, &mut found);
    assert_eq!((reply.number, found, state), (0, output, bytes_of(&outcome.token)), "{}: the engines differ", subject.name);
    let refused = output[0] == 4 && ![0x00, 0x11].contains(&output[1]);
    assert!(!refused || subject.name.starts_with("refused"), "{}: status {:02X}", subject.name, output[1]);

    let mut proved = |turns: u32| {
        let mut state = before;
        let start = Instant::now();
        for _ in 0..turns {
            if resets {
                state = *black_box(&before);
            }
            black_box(desk::event(black_box(event), &mut state, &RANDOM, &mut output));
        }
        start.elapsed()
    };
    let independent = |turns: u32| {
        let (mut token, mut output) = (subject.token, [0; 35]);
        let start = Instant::now();
        for _ in 0..turns {
            if resets {
                token = *black_box(&subject.token);
            }
            token = black_box(token.event(black_box(event), &RANDOM, &mut output)).token;
        }
        start.elapsed()
    };
    // About two milliseconds a turn.
    let turns = (2e-3 / (proved(1000) + independent(1000)).as_secs_f64() * 2000.0) as u32 + 1;
    let mut best = [Duration::MAX; 2];
    for _ in 0..rounds {
        best[0] = best[0].min(proved(turns));
        best[1] = best[1].min(independent(turns));
    }
    best.map(|time| time.as_secs_f64() / f64::from(turns))
}

/// A locked token whose slots open every command, awake: 0 is open, 1 a key, 2 read and written encrypted by key 1, 3 rolls,
/// 4 is created from 1 with a MAC. CheckMacConfig asks for SourceFlag 1.
fn locked() -> Token {
    let mut image: [u8; 664] = std::array::from_fn(|i| (i * 7) as u8);
    image[17] = 0xFF;
    image[18..20].copy_from_slice(&[0x55, 0x00]);
    for (slot, config) in [0x0000_u16, 0x0080, 0x41C1, 0x2080, 0xB180].into_iter().enumerate() {
        image[20 + 2 * slot..][..2].copy_from_slice(&config.to_le_bytes());
    }
    image[84..88].fill(0);
    Token { power: Power::Awake, ..Token::fresh(&image).0 }
}

fn block(opcode: u8, param1: u8, param2: u16, data: &[u8]) -> Step {
    Step::Block { bytes: host::block(opcode, param1, param2, data), random: RANDOM }
}

fn subjects() -> Vec<Subject> {
    let base = locked();
    let nonce = block(0x16, 3, 0, &[0x11; 32]);
    let challenged = nonce.taken(base).0;
    let keyed = block(0x15, 2, 1, &[]).taken(challenged).0;
    let asleep = Token { power: Power::Asleep, ..base };
    let mut values_open = base;
    values_open.configuration[86] = 0x55;
    let mut blank = values_open;
    blank.configuration[87] = 0x55;
    let other = [0x61; 13];
    let answered = |token: &Token, param1: u8| {
        let response = host::check_mac_response(token, param1, 1, &[0x33; 32], &other);
        [&[0x33; 32][..], &response, &other].concat()
    };
    let mut damaged = host::block(0x30, 0, 0, &[]);
    damaged[6] ^= 1;
    let subject = |name, token, step| Subject { name, token, step };
    vec![
        subject("wake", asleep, Step::Wake),
        subject("Read, 4 bytes", base, block(0x02, 0x00, 5, &[])),
        subject("Read, 32 bytes", base, block(0x02, 0x82, 0, &[])),
        subject("Read, encrypted", keyed, block(0x02, 0x82, 16, &[])),
        subject("MAC, bytes in", base, block(0x08, 0, 1, &[0x33; 32])),
        subject("MAC, TempKey", challenged, block(0x08, 5, 1, &[])),
        subject("Write, 4 bytes", base, block(0x12, 0x02, 0, &[1, 2, 3, 4])),
        subject("Write, 32 bytes", base, block(0x12, 0x82, 0, &[0x44; 32])),
        subject("Write, encrypted", keyed, block(0x12, 0x82, 16, &host::encrypted(&keyed, 0x82, 16, &[0x44; 32]))),
        subject("GenDig", challenged, block(0x15, 2, 1, &[])),
        subject("Nonce 0", base, block(0x16, 0, 0, &[0x22; 20])),
        subject("Nonce 3", base, nonce),
        subject("Lock, configuration", blank, block(0x17, 0, host::summary(&blank, false), &[])),
        subject("Lock, values", values_open, block(0x17, 1, host::summary(&values_open, true), &[])),
        subject("Random", base, block(0x1B, 0, 0, &[])),
        subject("DeriveKey", challenged, block(0x1C, 4, 3, &[])),
        subject("DeriveKey, with MAC", challenged, block(0x1C, 4, 4, &host::derive_key_mac(&base, 4, 4))),
        subject("UpdateExtra", base, block(0x20, 0, 0, &[])),
        subject("CheckMac, bytes in", base, block(0x28, 0, 1, &answered(&base, 0))),
        subject("CheckMac, with TempKey", challenged, block(0x28, 5, 1, &answered(&challenged, 5))),
        subject("DevRev", base, block(0x30, 0, 0, &[])),
        subject("refused: a damaged block", base, Step::Block { bytes: damaged, random: RANDOM }),
        subject("refused: unknown opcode", base, block(0x47, 0, 0, &[])),
    ]
}

// ===== The bench programs =====

const LONGEST_INPUT: usize = 65_536;

fn bench_lines(rounds: u64) {
    let proved = program::bench();
    let independent =
        std::env::current_exe().map_or_else(|_| PathBuf::from("independent"), |path| path.with_file_name("independent"));
    let dev_rev = block(0x30, 0, 0, &[]).record();
    let image = Step::Image(Box::new([0; 664])).record();
    let many = [&image[..], b"WK", &dev_rev.repeat((LONGEST_INPUT - 668) / dev_rev.len())].concat();
    println!("\nbench lines a second, a process for each input of up to 65,536 bytes, its start included");
    println!("{:<28}{:>12}{:>14}{:>8}", "input", "proved", "independent", "ratio");
    for (name, input) in [("DevRev blocks", many), ("generated records", generated())] {
        let lines = runs::engine::bench(&input).iter().filter(|&&byte| byte == b'\n').count();
        let [ours, theirs] = best_process([&proved, &independent], &input, rounds);
        println!("{:<28}{:>12.0}{:>14.0}{:>8.2}", name, lines as f64 / ours, lines as f64 / theirs, theirs / ours);
    }
    let [ours, theirs] = best_process([&proved, &independent], &[], rounds).map(|seconds| seconds * 1e3);
    println!("{:<28}{ours:>9.2} ms{theirs:>11.2} ms{:>8.2}", "no input: the start alone", theirs / ours);
}

fn generated() -> Vec<u8> {
    let mut generator = Generator::new(1);
    let mut input = Vec::new();
    while let Some(step) = generator.step(LONGEST_INPUT - input.len()) {
        input.extend(step.record());
    }
    input
}

/// Seconds of the best run of each, by turns.
fn best_process(programs: [&Path; 2], input: &[u8], rounds: u64) -> [f64; 2] {
    let mut best = [f64::MAX; 2];
    for _ in 0..rounds {
        for (best, program) in best.iter_mut().zip(programs) {
            let start = Instant::now();
            program::run(program, input, LONGEST_INPUT).unwrap_or_else(|why| panic!("{}: {why}", program.display()));
            *best = best.min(start.elapsed().as_secs_f64());
        }
    }
    best
}
