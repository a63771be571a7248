//! The second run: event by event through the C interface, with the whole state and the whole output buffer compared with the
//! independent engine's, buffers of every kind included. `--seed S --count N`: N rounds of a thousand steps.

use std::process::ExitCode;

use runs::arguments;
use runs::desk;
use runs::engine::{Event, Token};
use runs::generate::{seed_of, Generator, Step};
use runs::layout::{bytes_of, token_of, IMAGE_LENGTH, NO_STATE, STATE_LENGTH};
use runs::random::Random;
use runs::table::Table;
use runs::tally::Tally;

const STEPS: usize = 1000;

fn main() -> ExitCode {
    let (seed, count) = (arguments::number("--seed", 1), arguments::number("--count", 1500));
    let mut tally = Tally::default();
    let mut table = Table::EMPTY;
    for round in 0..count {
        let mut run = Run::new(seed_of(seed, round));
        let result = run.play();
        tally.result(result.map_err(|why| format!("seed {seed}, round {round}, {why}")));
        table.add(&run.generator.table);
    }
    println!("{} steps through the C interface, seed {seed}", count as usize * STEPS);
    table.report(&mut tally);
    tally.end()
}

struct Run {
    generator: Generator,
    /// For what the generator does not know of: buffers.
    random: Random,
    state: Vec<u8>,
}

impl Run {
    fn new(seed: u64) -> Run {
        let (generator, random) = (Generator::new(seed), Random::new(!seed));
        Run { generator, random, state: Vec::new() }
    }

    fn play(&mut self) -> Result<(), String> {
        for number in 0..STEPS {
            if number > 0 && self.random.once_in(8) {
                if let Some(token) = self.generator.plant() {
                    self.state = bytes_of(&token).to_vec();
                }
            }
            let step = self.generator.step(usize::MAX).ok_or("no step")?;
            self.step(&step).map_err(|why| format!("step {number}: {why}"))?;
        }
        Ok(())
    }

    fn step(&mut self, step: &Step) -> Result<(), String> {
        match (step, step.event()) {
            (Step::Image(image), _) => self.fresh(&image[..]),
            (_, Some((event, random))) => {
                if self.random.once_in(4) {
                    self.odd_call(event, random)?;
                }
                let room = 35 + self.random.below(6);
                let output = self.random.bytes(room);
                self.state = same_event(&self.state, event, random, &output)?;
                Ok(())
            }
            (_, None) => unreachable!("only an image is no event"),
        }
    }

    /// An image, after images and state buffers of other lengths. What the state buffer held before is of no account.
    fn fresh(&mut self, image: &[u8]) -> Result<(), String> {
        for _ in 0..3 {
            let other = self.random.pick(&[0, 1, 88, 663, 664, 665, 702, 1400]);
            let length = self.random.pick(&[0, 1, 663, 664, 701, 702, 703, 1024]);
            let (other, state) = (self.random.bytes(other), self.random.bytes(length));
            same_fresh(&other, &state)?;
        }
        let state = self.random.bytes(STATE_LENGTH);
        self.state = same_fresh(image, &state)?;
        Ok(())
    }

    /// The same event with buffers that are not as they should be. It leaves the token as it is, unless nothing was odd after all.
    fn odd_call(&mut self, event: Event, random: &[u8]) -> Result<(), String> {
        let mut state = self.state.clone();
        let mut random = random.to_vec();
        let mut room = 35;
        let long_block = self.long_block();
        let mut event = event;
        match self.random.below(8) {
            0 => room = self.random.below(35),
            1 => random = self.any_random(),
            2 => (room, random) = (self.random.below(41), self.any_random()),
            3 => self.other_length(&mut state),
            4 => self.other_value(&mut state),
            5 => {
                self.other_value(&mut state);
                (room, random) = (self.random.below(41), self.any_random());
            }
            6 => {
                self.other_length(&mut state);
                (room, random) = (self.random.below(41), self.any_random());
            }
            _ => event = Event::Block(&long_block),
        }
        let output = self.random.bytes(room);
        same_event(&state, event, &random, &output).map(|_| ())
    }

    fn any_random(&mut self) -> Vec<u8> {
        let length = self.random.below(41);
        self.random.bytes(length)
    }

    /// Longer than a record's length byte can say, its own count and check value as right as they can be.
    fn long_block(&mut self) -> Vec<u8> {
        let length = self.random.pick(&[256, 263, 256 + 39, 256 + 84, 512 + 7, 1000]);
        let mut block = self.random.bytes(length);
        block[1..5].copy_from_slice(&[0x30, 0, 0, 0]);
        runs::host::refit(&mut block);
        block
    }

    fn other_length(&mut self, state: &mut Vec<u8>) {
        let length = self.random.pick(&[0, 1, 35, IMAGE_LENGTH, 696, 701, 703, 1024]);
        state.resize(length, 0);
    }

    /// A value that no state has.
    fn other_value(&mut self, state: &mut [u8]) {
        let (at, least) = self.random.pick(&[(696, 16), (697, 2), (698, 2), (699, 2), (700, 2), (701, 3)]);
        state[at] = self.random.pick(&[least, least + 1, 0x55, 0x80, 0xFF]);
    }
}

// ===== Comparisons =====

/// Bytes lent out with guard bytes on both sides, so that a store beside them is seen.
struct Lent {
    bytes: Vec<u8>,
}

/// Odd, so that the bytes do not stand where a word would.
const GUARD: usize = 13;

impl Lent {
    fn new(bytes: &[u8]) -> Lent {
        let guard = [0xC5; GUARD];
        Lent { bytes: [&guard[..], bytes, &guard].concat() }
    }

    fn part(&mut self) -> &mut [u8] {
        let end = self.bytes.len() - GUARD;
        &mut self.bytes[GUARD..end]
    }

    /// Err where the bytes are others than expected, or a guard is touched.
    fn same(&mut self, what: &str, expected: &[u8]) -> Result<(), String> {
        let [front, back] = [&self.bytes[..GUARD], &self.bytes[self.bytes.len() - GUARD..]];
        if front != [0xC5; GUARD] || back != [0xC5; GUARD] {
            return Err(format!("a byte beside the {what} was changed"));
        }
        let found = self.part();
        match expected.iter().zip(&*found).position(|(expected, found)| expected != found) {
            None => Ok(()),
            Some(at) => Err(format!("{what} byte {at}: expected {:02X}, found {:02X}", expected[at], found[at])),
        }
    }
}

/// The state after a fresh one, where both sides agree.
fn same_fresh(image: &[u8], state: &[u8]) -> Result<Vec<u8>, String> {
    let (number, after) = if state.len() == STATE_LENGTH {
        let (token, number) = Token::fresh(image);
        (number, bytes_of(&token).to_vec())
    } else {
        (NO_STATE, state.to_vec())
    };
    let mut lent = Lent::new(state);
    let found = desk::fresh(image, lent.part());
    let says = |why: String| format!("fresh from {} bytes into {}: {why}", image.len(), state.len());
    if found != u32::from(number) {
        return Err(says(format!("expected number {number}, found {found}")));
    }
    lent.same("state", &after).map_err(says)?;
    Ok(after)
}

/// The state after an event, where both sides agree.
fn same_event(state: &[u8], event: Event, random: &[u8], output: &[u8]) -> Result<Vec<u8>, String> {
    let mut after_output = output.to_vec();
    let (number, length, after) = match token_of(state) {
        Some(token) => {
            let outcome = token.event(event, random, &mut after_output);
            (outcome.number, outcome.length, bytes_of(&outcome.token).to_vec())
        }
        // Bytes that are no state hold no token, so there is no event for numbers 1 and 2 to apply to: 40 comes first.
        None => (NO_STATE, 0, state.to_vec()),
    };
    let (mut lent_state, mut lent_output) = (Lent::new(state), Lent::new(output));
    let reply = desk::event(event, lent_state.part(), random, lent_output.part());
    let says = |why: String| {
        let (room, given) = (output.len(), random.len());
        format!("{event:02X?} of {} bytes of state, {given} random, {room} of output: {why}", state.len())
    };
    if (reply.number, reply.length) != (u32::from(number), length) {
        return Err(says(format!("expected number {number} and length {length}, found {reply:?}")));
    }
    lent_output.same("output", &after_output).map_err(says)?;
    lent_state.same("state", &after).map_err(says)?;
    Ok(after)
}
