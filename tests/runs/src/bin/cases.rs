//! The cases with stored expectations, each through the independent engine, the bench program and the C interface; and the
//! numbers that only buffers bring about, which no record can.

use std::process::ExitCode;

use runs::cases::{self, Case};
use runs::desk::{self, Reply};
use runs::engine::{self, Event};
use runs::generate::Step;
use runs::layout::{IMAGE_LENGTH, STATE_LENGTH};
use runs::program;
use runs::tally::Tally;

fn main() -> ExitCode {
    let mut tally = Tally::default();
    let bench = program::bench();
    for file in ["document01.txt", "bench.txt", "readings.txt", "fitted.txt"] {
        let cases = cases::read(file);
        println!("{file}: {} cases", cases.len());
        for case in &cases {
            let mut holds = |by: &str, result: Result<(), String>| {
                tally.result(result.map_err(|why| format!("{}, by {by}: {why}", case.name)));
            };
            holds("the independent engine", program::same_lines(&case.output, &engine::bench(&case.input)));
            let found = program::run(&bench, &case.input, case.input.len().max(1));
            holds("the bench program", found.and_then(|found| program::same_lines(&case.output, &found)));
            if !case.steps.is_empty() {
                holds("the C interface", through_desk(case));
            }
        }
    }
    buffers(&mut tally);
    tally.end()
}

fn through_desk(case: &Case) -> Result<(), String> {
    let mut state = [0; STATE_LENGTH];
    for (number, (step, expected)) in case.steps.iter().enumerate() {
        let line = match (step, step.event()) {
            (Step::Image(image), _) => match desk::fresh(&image[..], &mut state) {
                0 => "image".to_string(),
                number => format!("number {number}"),
            },
            (_, Some((event, random))) => line(event, random, &mut state),
            (_, None) => unreachable!("only an image is no event"),
        };
        if line != *expected {
            return Err(format!("record {}: expected {expected:?}, found {line:?}", number + 1));
        }
    }
    Ok(())
}

fn line(event: Event, random: &[u8], state: &mut [u8]) -> String {
    let mut output = [0; 35];
    let reply = desk::event(event, state, random, &mut output);
    let name = match event {
        Event::Wake => "wake",
        Event::Idle => "idle",
        Event::Sleep => "sleep",
        Event::Block(_) => "block",
    };
    let answer: String = engine::front(&output, reply.length).iter().map(|byte| format!("{byte:02X}")).collect();
    format!("{name} {}", if reply.number == 0 { &answer } else { "none" })
}

// ===== Numbers that buffers bring about =====

const DEV_REV: [u8; 7] = [0x07, 0x30, 0x00, 0x00, 0x00, 0x03, 0x5D];

/// Bytes of output, random bytes, a byte of the state and its value, and the number.
type Odd = (usize, usize, Option<(usize, u8)>, u32);

/// Numbers 1, 2 and 40, for each event.
const ODD: [Odd; 18] = [
    (0, 32, None, 1),
    (34, 32, None, 1),
    (34, 31, None, 1),
    (0, 0, None, 1),
    (35, 0, None, 2),
    (35, 31, None, 2),
    (40, 33, None, 2),
    (35, 32, Some((696, 16)), 40),
    (35, 32, Some((696, 255)), 40),
    (35, 32, Some((697, 2)), 40),
    (35, 32, Some((698, 2)), 40),
    (35, 32, Some((699, 2)), 40),
    (35, 32, Some((700, 2)), 40),
    (35, 32, Some((700, 255)), 40),
    (35, 32, Some((701, 3)), 40),
    (35, 32, Some((701, 255)), 40),
    (34, 32, Some((701, 3)), 40),
    (35, 31, Some((697, 2)), 40),
];

fn buffers(tally: &mut Tally) {
    // Awake, with a TempKey: 11*32, SourceFlag 1, Valid.
    let mut awake = [0; STATE_LENGTH];
    awake[664..696].fill(0x11);
    (awake[697], awake[700], awake[701]) = (1, 1, 2);
    let events = [Event::Wake, Event::Idle, Event::Sleep, Event::Block(&DEV_REV)];
    for event in events {
        for (room, random, change, number) in ODD {
            let mut state = awake;
            if let Some((at, value)) = change {
                state[at] = value;
            }
            unchanged(tally, event, &state, random, room, number);
        }
        for length in [0, IMAGE_LENGTH, STATE_LENGTH - 1] {
            unchanged(tally, event, &awake[..length], 32, 35, 40);
        }
        unchanged(tally, event, &[&awake[..], &[0]].concat(), 32, 35, 40);
    }
    // R18: a block when not Awake with 31 random bytes is 2. R101: with buffers as they should be, 3.
    let mut asleep = awake;
    asleep[701] = 0;
    unchanged(tally, Event::Block(&DEV_REV), &asleep, 31, 35, 2);
    unchanged(tally, Event::Block(&DEV_REV), &asleep, 32, 35, 3);
    unchanged(tally, Event::Wake, &awake, 32, 40, 3);
    behind_the_answer(tally);
    fresh(tally);
}

/// The call gives that number, length 0, and leaves state and output.
fn unchanged(tally: &mut Tally, event: Event, state: &[u8], random: usize, room: usize, number: u32) {
    let (mut after, mut output) = (state.to_vec(), vec![9; room]);
    let reply = desk::event(event, &mut after, &vec![7; random], &mut output);
    let expected = Reply { number, length: 0 };
    tally.case((reply, &after[..], &output[..]) == (expected, state, &vec![9; room][..]), || {
        format!(
            "{event:02X?}, {} bytes of state, {random} random, {room} of output: {reply:?}, expected number {number}",
            state.len()
        )
    });
}

/// R117: bytes behind the answer stay.
fn behind_the_answer(tally: &mut Tally) {
    let (mut state, mut output) = ([0; STATE_LENGTH], [9; 40]);
    let reply = desk::event(Event::Wake, &mut state, &[0; 32], &mut output);
    let mut expected = [9; 40];
    expected[..4].copy_from_slice(&[0x04, 0x11, 0x33, 0x43]);
    tally.case((reply, output) == (Reply { number: 0, length: 4 }, expected), || format!("wake: {reply:?}, {output:02X?}"));
}

/// R19: number 4 and the state of 664 zeros from other images; 40 and no change where the state has another length.
fn fresh(tally: &mut Tally) {
    for length in [0, 663, 665, 702] {
        let mut state = [9; STATE_LENGTH];
        let number = desk::fresh(&vec![1; length], &mut state);
        tally.case((number, state) == (4, [0; STATE_LENGTH]), || {
            format!("fresh from {length} bytes: {number}, expected 4 and zeros")
        });
    }
    for (image, length) in [(664, 0), (664, 701), (664, 703), (663, 701)] {
        let mut state = vec![9; length];
        let number = desk::fresh(&vec![1; image], &mut state);
        tally.case((number, &state) == (40, &vec![9; length]), || {
            format!("fresh from {image} bytes into {length}: {number}, expected 40")
        });
    }
    let mut state = [9; STATE_LENGTH];
    let number = desk::fresh(&[7; IMAGE_LENGTH], &mut state);
    let expected: Vec<u8> = [&[7; IMAGE_LENGTH][..], &[0; STATE_LENGTH - IMAGE_LENGTH]].concat();
    tally.case(number == 0 && state[..] == expected, || format!("fresh from 664 bytes: {number}, expected 0 and the image"));
}
