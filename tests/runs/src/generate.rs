//! The generator: an endless run of steps, made for a token whose state it keeps beside it. It goes by chains (chains.rs), many
//! of them spoilt in one place (near.rs), and counts what the steps meet (table.rs).

use std::collections::VecDeque;

use crate::chains::Scene;
use crate::engine::{front, Event, Power, Slot, TempKey, Token};
use crate::layout::IMAGE_LENGTH;
use crate::random::Random;
use crate::table::Table;
use crate::{images, near};

#[derive(Clone)]
pub enum Step {
    Image(Box<[u8; IMAGE_LENGTH]>),
    Wake,
    Idle,
    Sleep,
    Block { bytes: Vec<u8>, random: [u8; 32] },
}

/// The random bytes of events that use none.
const NO_RANDOM: [u8; 32] = [0; 32];

impl Step {
    /// The event and its random bytes; None for an image.
    pub fn event(&self) -> Option<(Event<'_>, &[u8; 32])> {
        match self {
            Step::Image(_) => None,
            Step::Wake => Some((Event::Wake, &NO_RANDOM)),
            Step::Idle => Some((Event::Idle, &NO_RANDOM)),
            Step::Sleep => Some((Event::Sleep, &NO_RANDOM)),
            Step::Block { bytes, random } => Some((Event::Block(bytes), random)),
        }
    }

    /// The step as a record of the bench program.
    pub fn record(&self) -> Vec<u8> {
        match self {
            Step::Image(image) => [b"EE", &image[..]].concat(),
            Step::Wake => b"WK".to_vec(),
            Step::Idle => b"ID".to_vec(),
            Step::Sleep => b"SL".to_vec(),
            Step::Block { bytes, random } => [&b"BK"[..], &[bytes.len() as u8], bytes, random].concat(),
        }
    }

    /// The token after it, and the answer.
    pub fn taken(&self, token: Token) -> (Token, Vec<u8>) {
        let Some((event, random)) = self.event() else {
            let Step::Image(image) = self else { unreachable!("only an image is no event") };
            return (Token::fresh(&image[..]).0, Vec::new());
        };
        let mut output = [0; 35];
        let outcome = token.event(event, random, &mut output);
        (outcome.token, front(&output, outcome.length).to_vec())
    }
}

pub struct Generator {
    pub random: Random,
    pub table: Table,
    token: Token,
    waiting: VecDeque<Step>,
}

impl Generator {
    /// The first step is an image.
    pub fn new(seed: u64) -> Generator {
        let mut random = Random::new(seed);
        let image = images::image(&mut random);
        Generator {
            random,
            table: Table::EMPTY,
            token: Token::fresh(&image).0,
            waiting: VecDeque::from([Step::Image(Box::new(image))]),
        }
    }

    /// The next step, unless its record is longer than the room for it.
    pub fn step(&mut self, room: usize) -> Option<Step> {
        while self.waiting.is_empty() {
            let steps = self.chain();
            self.waiting.extend(steps);
        }
        if self.waiting[0].record().len() > room {
            return None;
        }
        let step = self.waiting.pop_front()?;
        let (token, answer) = step.taken(self.token);
        if let Step::Block { bytes, .. } = &step {
            self.table.count(&self.token, bytes, &answer, &token);
        }
        self.token = token;
        Some(step)
    }

    /// A new image now and then, else a chain for the token as it is.
    fn chain(&mut self) -> Vec<Step> {
        if self.random.once_in(24) {
            return vec![Step::Image(Box::new(images::image(&mut self.random)))];
        }
        let mut scene = Scene::new(self.token, &mut self.random);
        scene.play();
        let mut steps = scene.steps;
        if self.random.flag() {
            near::spoil(&mut steps, &mut self.random);
        }
        steps
    }

    /// Between two chains: the token with a TempKey and a power that no event need have left, as a caller may hand them in.
    /// A use of that TempKey comes next.
    pub fn plant(&mut self) -> Option<Token> {
        if !self.waiting.is_empty() {
            return None;
        }
        self.token.temp_key = TempKey {
            bytes: self.random.array(),
            slot_id: Slot(self.random.below(16) as u8),
            source_flag: self.random.flag(),
            gen_data: self.random.flag(),
            check_flag: self.random.once_in(4),
            valid: !self.random.once_in(4),
        };
        self.token.power = if self.random.once_in(8) { self.random.pick(&[Power::Idle, Power::Asleep]) } else { Power::Awake };
        let mut scene = Scene::new(self.token, &mut self.random);
        scene.use_temp_key();
        self.waiting.extend(scene.steps);
        Some(self.token)
    }
}

/// The generator's seed in one round of a run.
pub fn seed_of(seed: u64, round: u64) -> u64 {
    seed.wrapping_mul(1 << 32).wrapping_add(round)
}
