//! An independent token engine: the rules of document 01 (01-scope.md) in plain Rust, std only.
//!
//! It shares no code with the proved engine and exists to be held against it. Where document 01
//! leaves room for more than one reading, docs/DECISIONS.md says which one is taken; a mark such as
//! [R59] names the entry there.
//!
//! Use: `Token::fresh` makes a state from an image, `Token::event` takes it through one event, and
//! `front` gives the answer. `bench` is the record loop of the bench program.

use std::ops::Range;

// ===== Digest (FIPS 180-4) =====

const ROUND_CONSTANTS: [u32; 64] = [
    0x428a2f98, 0x71374491, 0xb5c0fbcf, 0xe9b5dba5, 0x3956c25b, 0x59f111f1, 0x923f82a4, 0xab1c5ed5,
    0xd807aa98, 0x12835b01, 0x243185be, 0x550c7dc3, 0x72be5d74, 0x80deb1fe, 0x9bdc06a7, 0xc19bf174,
    0xe49b69c1, 0xefbe4786, 0x0fc19dc6, 0x240ca1cc, 0x2de92c6f, 0x4a7484aa, 0x5cb0a9dc, 0x76f988da,
    0x983e5152, 0xa831c66d, 0xb00327c8, 0xbf597fc7, 0xc6e00bf3, 0xd5a79147, 0x06ca6351, 0x14292967,
    0x27b70a85, 0x2e1b2138, 0x4d2c6dfc, 0x53380d13, 0x650a7354, 0x766a0abb, 0x81c2c92e, 0x92722c85,
    0xa2bfe8a1, 0xa81a664b, 0xc24b8b70, 0xc76c51a3, 0xd192e819, 0xd6990624, 0xf40e3585, 0x106aa070,
    0x19a4c116, 0x1e376c08, 0x2748774c, 0x34b0bcb5, 0x391c0cb3, 0x4ed8aa4a, 0x5b9cca4f, 0x682e6ff3,
    0x748f82ee, 0x78a5636f, 0x84c87814, 0x8cc70208, 0x90befffa, 0xa4506ceb, 0xbef9a3f7, 0xc67178f2,
];

const START_WORDS: [u32; 8] = [
    0x6a09e667, 0xbb67ae85, 0x3c6ef372, 0xa54ff53a, 0x510e527f, 0x9b05688c, 0x1f83d9ab, 0x5be0cd19,
];

pub fn sha256(message: &[u8]) -> [u8; 32] {
    let mut words = START_WORDS;
    for block in padded(message).chunks_exact(64) {
        words = compress(words, block);
    }
    let mut digest = [0; 32];
    for (bytes, word) in digest.chunks_exact_mut(4).zip(words) {
        bytes.copy_from_slice(&word.to_be_bytes());
    }
    digest
}

/// The message, 80, zeros, and its length in bits as eight bytes.
fn padded(message: &[u8]) -> Vec<u8> {
    let mut padded = message.to_vec();
    padded.push(0x80);
    while padded.len() % 64 != 56 {
        padded.push(0);
    }
    padded.extend_from_slice(&(8 * message.len() as u64).to_be_bytes());
    padded
}

fn schedule(block: &[u8]) -> [u32; 64] {
    let mut w = [0u32; 64];
    for (word, bytes) in w.iter_mut().zip(block.chunks_exact(4)) {
        *word = u32::from_be_bytes(array(bytes));
    }
    for t in 16..64 {
        let s0 = w[t - 15].rotate_right(7) ^ w[t - 15].rotate_right(18) ^ (w[t - 15] >> 3);
        let s1 = w[t - 2].rotate_right(17) ^ w[t - 2].rotate_right(19) ^ (w[t - 2] >> 10);
        w[t] = sum(&[s1, w[t - 7], s0, w[t - 16]]);
    }
    w
}

/// Addition modulo 2 to the 32.
fn sum(words: &[u32]) -> u32 {
    words.iter().copied().fold(0, u32::wrapping_add)
}

fn compress(words: [u32; 8], block: &[u8]) -> [u32; 8] {
    let [mut a, mut b, mut c, mut d, mut e, mut f, mut g, mut h] = words;
    for (k, w) in ROUND_CONSTANTS.into_iter().zip(schedule(block)) {
        let sum1 = e.rotate_right(6) ^ e.rotate_right(11) ^ e.rotate_right(25);
        let choice = (e & f) ^ (!e & g);
        let t1 = sum(&[h, sum1, choice, k, w]);
        let sum0 = a.rotate_right(2) ^ a.rotate_right(13) ^ a.rotate_right(22);
        let majority = (a & b) ^ (a & c) ^ (b & c);
        let t2 = sum0.wrapping_add(majority);
        (h, g, f, e) = (g, f, e, d.wrapping_add(t1));
        (d, c, b, a) = (c, b, a, t1.wrapping_add(t2));
    }
    let mut next = words;
    for (word, round) in next.iter_mut().zip([a, b, c, d, e, f, g, h]) {
        *word = word.wrapping_add(round);
    }
    next
}

// ===== Check value =====

/// 16 bits, polynomial 8005, start 0, each byte's lowest bit first. The register shifts left.
pub fn check_value(bytes: &[u8]) -> u16 {
    let mut register = 0u16;
    for byte in bytes {
        for position in 0..8 {
            let differs = u16::from(byte >> position & 1) != register >> 15;
            register <<= 1;
            if differs {
                register ^= 0x8005;
            }
        }
    }
    register
}

/// An answer: count, 1, 4 or 32 bytes, check value.
fn framed(bytes: &[u8]) -> Vec<u8> {
    let mut answer = vec![bytes.len() as u8 + 3];
    answer.extend_from_slice(bytes);
    let check = check_value(&answer);
    answer.extend_from_slice(&check.to_le_bytes());
    answer
}

// ===== State =====

const IMAGE_LENGTH: usize = 664;
const UNLOCKED: u8 = 0x55;

// Positions in the configuration.
const REV_NUM: Range<usize> = 4..8;
const CHECK_MAC_CONFIG: usize = 17;
const OTP_MODE: usize = 18;
const SELECTOR_MODE: usize = 19;
const SLOT_CONFIG: usize = 20;
const USE_FLAG: usize = 52;
const UPDATE_COUNT: usize = 53;
const LAST_KEY_USE: Range<usize> = 68..84;
const USER_EXTRA: usize = 84;
const SELECTOR: usize = 85;
const LOCK_VALUE: usize = 86;
const LOCK_CONFIG: usize = 87;

#[derive(Clone, Copy, Debug, PartialEq, Eq)]
pub enum Power {
    Asleep,
    Idle,
    Awake,
}

/// A slot number, 0 to 15.
#[derive(Clone, Copy, Debug, PartialEq, Eq)]
pub struct Slot(pub u8);

impl Slot {
    fn index(self) -> usize {
        usize::from(self.0)
    }

    /// Its 32 bytes of the data zone.
    fn bytes(self) -> Range<usize> {
        32 * self.index()..32 * self.index() + 32
    }
}

#[derive(Clone, Copy, Debug, PartialEq, Eq)]
pub struct TempKey {
    pub bytes: [u8; 32],
    pub slot_id: Slot,
    /// False: random; true: input.
    pub source_flag: bool,
    pub gen_data: bool,
    pub check_flag: bool,
    pub valid: bool,
}

impl TempKey {
    pub const EMPTY: TempKey = TempKey {
        bytes: [0; 32],
        slot_id: Slot(0),
        source_flag: false,
        gen_data: false,
        check_flag: false,
        valid: false,
    };

    /// What Nonce and a copy leave: valid, SlotID and the other flags 0.
    fn plain(bytes: [u8; 32], source_flag: bool) -> TempKey {
        TempKey {
            bytes,
            source_flag,
            valid: true,
            ..TempKey::EMPTY
        }
    }
}

#[derive(Clone, Copy, Debug, PartialEq, Eq)]
pub struct Token {
    pub configuration: [u8; 88],
    pub otp: [u8; 64],
    pub data: [u8; 512],
    pub temp_key: TempKey,
    pub power: Power,
}

/// SlotConfig of one slot.
#[derive(Clone, Copy)]
struct SlotConfig(u16);

impl SlotConfig {
    fn bit(self, position: u32) -> bool {
        self.0 >> position & 1 == 1
    }
    fn write_key(self) -> Slot {
        Slot((self.0 >> 8 & 15) as u8)
    }
    fn is_secret(self) -> bool {
        self.bit(7)
    }
    fn encrypt_read(self) -> bool {
        self.bit(6)
    }
    fn limited_use(self) -> bool {
        self.bit(5)
    }
    fn check_only(self) -> bool {
        self.bit(4)
    }
    fn read_key(self) -> Slot {
        Slot((self.0 & 15) as u8)
    }
}

impl Token {
    /// A fresh state and its number: 0, or 4 where the image is not 664 bytes.
    pub fn fresh(image: &[u8]) -> (Token, u8) {
        let zeros = Token {
            configuration: [0; 88],
            otp: [0; 64],
            data: [0; 512],
            temp_key: TempKey::EMPTY,
            power: Power::Asleep,
        };
        if image.len() != IMAGE_LENGTH {
            return (zeros, WRONG_IMAGE);
        }
        let token = Token {
            configuration: array(&image[..88]),
            otp: array(&image[88..152]),
            data: array(&image[152..]),
            ..zeros
        };
        (token, ANSWERED)
    }

    fn with_power(self, power: Power) -> Token {
        Token { power, ..self }
    }

    fn with_temp_key(self, temp_key: TempKey) -> Token {
        Token { temp_key, ..self }
    }

    fn config_locked(&self) -> bool {
        self.configuration[LOCK_CONFIG] != UNLOCKED
    }

    fn values_locked(&self) -> bool {
        self.configuration[LOCK_VALUE] != UNLOCKED
    }

    fn both_locked(&self) -> bool {
        self.config_locked() && self.values_locked()
    }

    fn slot_config(&self, slot: Slot) -> SlotConfig {
        let at = SLOT_CONFIG + 2 * slot.index();
        SlotConfig(u16::from_le_bytes(array(&self.configuration[at..at + 2])))
    }

    fn slot(&self, slot: Slot) -> [u8; 32] {
        array(&self.data[slot.bytes()])
    }

    /// CheckMacConfig bit slot/2.
    fn check_mac_bit(&self, slot: Slot) -> bool {
        self.configuration[CHECK_MAC_CONFIG] >> (slot.0 / 2) & 1 == 1
    }

    /// SN0 to SN8.
    fn serial_number(&self) -> [u8; 9] {
        let mut sn = [0; 9];
        sn[..4].copy_from_slice(&self.configuration[0..4]);
        sn[4..].copy_from_slice(&self.configuration[8..13]);
        sn
    }

    /// SN8, SN0, SN1, as most messages hold them.
    fn serial_tail(&self) -> [u8; 3] {
        let sn = self.serial_number();
        [sn[8], sn[0], sn[1]]
    }

    // ----- Uses -----

    /// Slots 8-14 are unlimited whatever LimitedUse says.
    fn limited(&self, slot: Slot) -> bool {
        self.slot_config(slot).limited_use() && !(8..=14).contains(&slot.0)
    }

    /// The configuration byte that the slot's next use clears a bit of, where one is left.
    fn use_byte(&self, slot: Slot) -> Option<usize> {
        let mut counters = match slot.0 {
            0..=7 => USE_FLAG + 2 * slot.index()..USE_FLAG + 2 * slot.index() + 1,
            15 => LAST_KEY_USE,
            _ => return None,
        };
        counters.find(|&at| self.configuration[at] != 0)
    }

    fn use_left(&self, slot: Slot) -> bool {
        !self.limited(slot) || self.use_byte(slot).is_some()
    }

    fn spend(&mut self, slot: Slot) {
        if !self.limited(slot) {
            return;
        }
        if let Some(at) = self.use_byte(slot) {
            let highest = 0x80 >> self.configuration[at].leading_zeros();
            self.configuration[at] &= !highest;
        }
    }
}

// ===== Events =====

// The numbers of document 01's table.
pub const ANSWERED: u8 = 0;
pub const SHORT_OUTPUT: u8 = 1;
pub const WRONG_RANDOM: u8 = 2;
pub const NO_ANSWER: u8 = 3;
pub const WRONG_IMAGE: u8 = 4;

const LONGEST_ANSWER: usize = 35;

#[derive(Clone, Copy, Debug, PartialEq, Eq)]
pub enum Event<'a> {
    Wake,
    Idle,
    Sleep,
    Block(&'a [u8]),
}

/// What an event gives: its number, the new state and the answer's length.
#[derive(Clone, Copy, Debug, PartialEq, Eq)]
pub struct Outcome {
    pub number: u8,
    pub token: Token,
    pub length: usize,
}

impl Outcome {
    /// No answer: the output is left as it was.
    fn silent(number: u8, token: Token) -> Outcome {
        Outcome {
            number,
            token,
            length: 0,
        }
    }
}

impl Token {
    /// Numbers 1 and 2 apply to every event and precede all else, 1 first.
    pub fn event(self, event: Event, random: &[u8], output: &mut [u8]) -> Outcome {
        if output.len() < LONGEST_ANSWER {
            return Outcome::silent(SHORT_OUTPUT, self);
        }
        let Ok(random) = <[u8; 32]>::try_from(random) else {
            return Outcome::silent(WRONG_RANDOM, self);
        };
        let (token, answer) = match event {
            Event::Wake => self.wake(),
            Event::Idle => (self.idle(), None),
            Event::Sleep => (self.sleep(), None),
            Event::Block(block) => self.block(block, random),
        };
        let Some(bytes) = answer else {
            return Outcome::silent(NO_ANSWER, token);
        };
        let answer = framed(&bytes);
        output[..answer.len()].copy_from_slice(&answer);
        Outcome {
            number: ANSWERED,
            token,
            length: answer.len(),
        }
    }

    fn wake(self) -> (Token, Option<Vec<u8>>) {
        match self.power {
            Power::Awake => (self, None),
            Power::Asleep | Power::Idle => (self.with_power(Power::Awake), Some(vec![0x11])),
        }
    }

    fn idle(self) -> Token {
        match self.power {
            Power::Awake => self.with_power(Power::Idle),
            Power::Asleep | Power::Idle => self,
        }
    }

    fn sleep(self) -> Token {
        self.with_power(Power::Asleep).with_temp_key(TempKey::EMPTY)
    }

    fn block(self, block: &[u8], random: [u8; 32]) -> (Token, Option<Vec<u8>>) {
        if self.power != Power::Awake {
            return (self, None);
        }
        let Some(command) = Command::parse(block) else {
            return (self, Some(vec![0xFF]));
        };
        let mut token = self;
        match token.execute(&command, random) {
            Ok(done) => (token.with_temp_key(done.temp_key), Some(done.answer)),
            // A refusal keeps nothing of what the command may have done so far.
            Err(refusal) => {
                let emptied = self.with_temp_key(TempKey::EMPTY);
                (emptied, Some(vec![refusal.status()]))
            }
        }
    }
}

/// The answer: the front part of the output; a length beyond it gives the empty part.
pub fn front(output: &[u8], length: usize) -> &[u8] {
    output.get(..length).unwrap_or(&[])
}

// ===== Blocks and statuses =====

/// A block that is whole: right length, count and check value.
struct Command<'a> {
    opcode: u8,
    param1: u8,
    param2: u16,
    data: &'a [u8],
}

impl<'a> Command<'a> {
    /// None where the answer is FF.
    fn parse(block: &'a [u8]) -> Option<Command<'a>> {
        let length = block.len();
        if !(7..=84).contains(&length) || usize::from(block[0]) != length {
            return None;
        }
        let (body, check) = block.split_at(length - 2);
        if check != check_value(body).to_le_bytes() {
            return None;
        }
        Some(Command {
            opcode: body[1],
            param1: body[2],
            param2: u16::from_le_bytes([body[3], body[4]]),
            data: &body[5..],
        })
    }

    /// A bit of Param1.
    fn bit(&self, position: u32) -> bool {
        self.param1 >> position & 1 == 1
    }

    /// The low four bits of Param2.
    fn key(&self) -> Slot {
        Slot((self.param2 & 15) as u8)
    }

    /// Opcode, Param1 and Param2 as sent, the way messages hold them.
    fn header(&self) -> [u8; 4] {
        let [low, high] = self.param2.to_le_bytes();
        [self.opcode, self.param1, low, high]
    }

    /// Bits of Param1 outside the mask must be zero.
    fn only_bits(&self, mask: u8) -> Result<(), Refusal> {
        shape(self.param1 & !mask == 0)
    }

    fn data_length(&self, length: usize) -> Result<(), Refusal> {
        shape(self.data.len() == length)
    }
}

enum Refusal {
    /// 03: a field or data length outside the command's stated shape.
    Shape,
    /// 0F: any remaining stated condition not met.
    Condition,
}

impl Refusal {
    fn status(&self) -> u8 {
        match self {
            Refusal::Shape => 0x03,
            Refusal::Condition => 0x0F,
        }
    }
}

fn shape(holds: bool) -> Result<(), Refusal> {
    holds.then_some(()).ok_or(Refusal::Shape)
}

fn condition(holds: bool) -> Result<(), Refusal> {
    holds.then_some(()).ok_or(Refusal::Condition)
}

/// What an accepted command answers, and the TempKey it leaves.
struct Accepted {
    answer: Vec<u8>,
    temp_key: TempKey,
}

type Reply = Result<Accepted, Refusal>;

/// The rule for most commands: TempKey is emptied.
fn answer(bytes: &[u8]) -> Reply {
    answer_leaving(bytes, TempKey::EMPTY)
}

/// Nonce, GenDig and a CheckMac that copies.
fn answer_leaving(bytes: &[u8], temp_key: TempKey) -> Reply {
    let answer = bytes.to_vec();
    Ok(Accepted { answer, temp_key })
}

// ===== Commands =====
//
// Each command tests its shape (03) first, then its conditions (0F), then acts on the zones.
// No command touches `temp_key` itself; its reply says what TempKey becomes.

impl Token {
    fn execute(&mut self, c: &Command, random: [u8; 32]) -> Reply {
        match c.opcode {
            0x02 => self.read(c),
            0x08 => self.mac(c),
            0x12 => self.write(c),
            0x15 => self.gen_dig(c),
            0x16 => self.nonce(c, random),
            0x17 => self.lock(c),
            0x1B => self.random(c, random),
            0x1C => self.derive_key(c),
            0x20 => self.update_extra(c),
            0x28 => self.check_mac(c),
            0x30 => self.dev_rev(c),
            _ => Err(Refusal::Shape),
        }
    }

    // ----- Nonce and Random -----

    fn nonce(&self, c: &Command, random: [u8; 32]) -> Reply {
        shape(matches!(c.param1, 0 | 1 | 3))?;
        shape(c.param2 == 0)?;
        c.data_length(if c.param1 == 3 { 32 } else { 20 })?;

        if c.param1 == 3 {
            return answer_leaving(&[0x00], TempKey::plain(array(c.data), true));
        }
        let random = self.usable_random(random);
        let [opcode, param1, low, _] = c.header();
        let message = [&random[..], c.data, &[opcode, param1, low]].concat();
        answer_leaving(&random, TempKey::plain(sha256(&message), false))
    }

    fn random(&self, c: &Command, random: [u8; 32]) -> Reply {
        shape(c.param1 <= 1)?;
        shape(c.param2 == 0)?;
        c.data_length(0)?;

        answer(&self.usable_random(random))
    }

    /// FF FF 00 00 eight times while the configuration is unlocked.
    fn usable_random(&self, random: [u8; 32]) -> [u8; 32] {
        if self.config_locked() {
            random
        } else {
            std::array::from_fn(|i| if i % 4 < 2 { 0xFF } else { 0x00 })
        }
    }

    // ----- MAC and CheckMac -----

    fn mac(&mut self, c: &Command) -> Reply {
        c.only_bits(0b0111_0111)?;
        c.data_length(if c.bit(0) { 0 } else { 32 })?;

        condition(self.both_locked())?;
        self.temp_key_fits(c)?;
        if uses_temp_key(c) {
            condition(!self.temp_key.check_flag)?;
        }
        if draws_key(c) {
            condition(!self.slot_config(c.key()).check_only())?;
            condition(self.use_left(c.key()))?;
        }

        let digest = sha256(&self.mac_message(c));
        if draws_key(c) {
            self.spend(c.key());
        }
        answer(&digest)
    }

    fn mac_message(&self, c: &Command) -> Vec<u8> {
        let sn = self.serial_number();
        [
            &self.first_32(c)[..],
            self.second_32(c, c.data),
            &c.header(),
            &included(c.bit(4) || c.bit(5), &self.otp[0..8]),
            &included(c.bit(4), &self.otp[8..11]),
            &sn[8..9],
            &included(c.bit(6), &sn[4..8]),
            &sn[0..2],
            &included(c.bit(6), &sn[2..4]),
        ]
        .concat()
    }

    fn check_mac(&mut self, c: &Command) -> Reply {
        c.only_bits(0b0010_0111)?;
        c.data_length(77)?;

        condition(self.both_locked())?;
        self.temp_key_fits(c)?;
        if draws_key(c) {
            condition(self.use_left(c.key()))?;
        }

        let response = &c.data[32..64];
        let equal = sha256(&self.check_mac_message(c)) == response;
        if draws_key(c) {
            self.spend(c.key());
        }
        match (equal, self.copy_target(c)) {
            (false, _) => answer(&[0x01]),
            (true, None) => answer(&[0x00]),
            (true, Some(target)) => {
                answer_leaving(&[0x00], TempKey::plain(self.slot(target), true))
            }
        }
    }

    fn check_mac_message(&self, c: &Command) -> Vec<u8> {
        let (challenge, other) = (&c.data[..32], &c.data[64..]);
        let sn = self.serial_number();
        [
            &self.first_32(c)[..],
            self.second_32(c, challenge),
            &other[0..4],
            &included(c.bit(5), &self.otp[0..8]),
            &other[4..7],
            &sn[8..9],
            &other[7..11],
            &sn[0..2],
            &other[11..13],
        ]
        .concat()
    }

    /// The slot that an equal CheckMac copies, where the copy conditions hold.
    fn copy_target(&self, c: &Command) -> Option<Slot> {
        let target = Slot(c.key().0 | 1);
        let copies = matches!(c.param1, 0x01 | 0x05)
            && self.slot_config(target).read_key() == Slot(0)
            && self.check_mac_bit(target) == c.bit(2);
        copies.then_some(target)
    }

    /// For MAC and CheckMac: TempKey, if used, is Valid and its SourceFlag is bit 2.
    fn temp_key_fits(&self, c: &Command) -> Result<(), Refusal> {
        let fits = self.temp_key.valid && self.temp_key.source_flag == c.bit(2);
        condition(!uses_temp_key(c) || fits)
    }

    fn first_32(&self, c: &Command) -> [u8; 32] {
        if c.bit(1) {
            self.temp_key.bytes
        } else {
            self.slot(c.key())
        }
    }

    fn second_32<'a>(&'a self, c: &Command, sent: &'a [u8]) -> &'a [u8] {
        if c.bit(0) {
            &self.temp_key.bytes
        } else {
            sent
        }
    }

    // ----- GenDig and DeriveKey -----

    fn gen_dig(&mut self, c: &Command) -> Reply {
        let from_data = c.param1 == 2;
        shape(c.param1 <= 2)?;
        shape(from_data || c.param2 <= 1)?;
        // The low four bits name the key at any Param2, also from 8000 up. [R34]
        let check_only = from_data && self.slot_config(c.key()).check_only();
        c.data_length(if check_only { 4 } else { 0 })?;

        condition(self.config_locked())?;
        condition(self.temp_key.valid)?;
        if from_data {
            condition(c.param2 < 0x8000)?;
            condition(self.use_left(c.key()))?;
        }

        let header = if check_only {
            array(c.data)
        } else {
            c.header()
        };
        let bytes = self.digest_96(self.gen_dig_value(c), header, self.temp_key.bytes);
        if from_data {
            self.spend(c.key());
        }
        let named = from_data && c.param2 <= 15;
        let temp_key = TempKey {
            bytes,
            slot_id: if named { c.key() } else { Slot(0) },
            gen_data: named,
            check_flag: check_only || self.temp_key.check_flag,
            ..self.temp_key
        };
        answer_leaving(&[0x00], temp_key)
    }

    fn gen_dig_value(&self, c: &Command) -> [u8; 32] {
        let block = usize::from(c.param2 & 1);
        match c.param1 {
            0 => array(&self.configuration[32 * block..][..32]),
            1 => array(&self.otp[32 * block..][..32]),
            _ => self.slot(c.key()),
        }
    }

    fn derive_key(&mut self, c: &Command) -> Reply {
        c.only_bits(0b0000_0100)?;
        shape(matches!(c.data.len(), 0 | 32))?;

        let target = c.key();
        let config = self.slot_config(target);
        let parent = config.write_key();
        let source = if config.bit(12) { parent } else { target };
        let with_mac = config.bit(15);
        let parent_drawn = config.bit(12) || with_mac;

        condition(self.both_locked())?;
        condition(config.bit(13))?;
        condition(self.temp_key.valid && !self.temp_key.gen_data && !self.temp_key.check_flag)?;
        condition(self.temp_key.source_flag == c.bit(2))?;
        condition((c.data.len() == 32) == with_mac)?;
        condition(!self.slot_config(source).check_only())?;
        if parent_drawn {
            condition(!self.slot_config(parent).check_only())?;
            condition(self.use_left(parent))?;
        }
        if with_mac {
            let message = [&self.slot(parent)[..], &c.header(), &self.serial_tail()].concat();
            condition(sha256(&message) == c.data)?;
        }

        let rolled = self.digest_96(self.slot(source), c.header(), self.temp_key.bytes);
        if parent_drawn {
            self.spend(parent);
        }
        self.data[target.bytes()].copy_from_slice(&rolled);
        self.refill(target);
        answer(&[0x00])
    }

    /// Slots 0-7 of a rolled target: UseFlag FF, UpdateCount plus one.
    fn refill(&mut self, target: Slot) {
        if target.0 < 8 {
            self.configuration[USE_FLAG + 2 * target.index()] = 0xFF;
            let count = &mut self.configuration[UPDATE_COUNT + 2 * target.index()];
            *count = count.wrapping_add(1);
        }
    }

    /// The 96-byte layout of GenDig, DeriveKey and an encrypted Write's MAC.
    fn digest_96(&self, first: [u8; 32], header: [u8; 4], last: [u8; 32]) -> [u8; 32] {
        sha256(&[&first[..], &header, &self.serial_tail(), &[0; 25], &last].concat())
    }

    // ----- Read and Write -----

    fn read(&self, c: &Command) -> Reply {
        c.only_bits(0b1000_0011)?;
        let place = Place::named_by(c)?;
        c.data_length(0)?;

        match place.zone {
            Zone::Configuration => answer(&self.configuration[place.bytes()]),
            Zone::Otp => self.read_otp(&place),
            Zone::Data => self.read_data(&place),
        }
    }

    fn read_otp(&self, place: &Place) -> Reply {
        condition(self.both_locked())?;
        condition(match self.configuration[OTP_MODE] {
            0xAA | 0x55 => true,
            0x00 => place.length == 4 && place.word >= Word(2),
            _ => false,
        })?;
        answer(&self.otp[place.bytes()])
    }

    fn read_data(&self, place: &Place) -> Reply {
        condition(self.both_locked())?;
        let stored = &self.data[place.bytes()];
        let slot = place.word.slot();
        let config = self.slot_config(slot);
        match (config.is_secret(), config.encrypt_read()) {
            (false, false) => answer(stored),
            (true, true) => {
                condition(place.length == 32)?;
                self.fits_encryption()?;
                self.fits_slot(slot, config.read_key())?;
                answer(&xor(array(stored), self.temp_key.bytes))
            }
            _ => Err(Refusal::Condition),
        }
    }

    fn write(&mut self, c: &Command) -> Reply {
        c.only_bits(0b1100_0011)?;
        let place = Place::named_by(c)?;
        shape(match place.length {
            4 => c.data.len() == 4,
            _ => matches!(c.data.len(), 32 | 64),
        })?;

        let kind = self.write_kind(c, &place)?;
        condition((c.data.len() == 64) == (kind == WriteKind::Encrypted))?;
        let value = match kind {
            WriteKind::Encrypted => self.decrypted(c, &place)?.to_vec(),
            WriteKind::Clear | WriteKind::And => c.data.to_vec(),
        };
        for (stored, new) in self.stored_mut(&place).iter_mut().zip(value) {
            *stored = if kind == WriteKind::And {
                *stored & new
            } else {
                new
            };
        }
        answer(&[0x00])
    }

    fn write_kind(&self, c: &Command, place: &Place) -> Result<WriteKind, Refusal> {
        if place.zone == Zone::Configuration {
            let Range { start, end } = place.bytes();
            condition(!self.config_locked())?;
            condition(!c.bit(6))?;
            condition(start >= 16 && end <= 84)?;
            return Ok(WriteKind::Clear);
        }
        condition(self.config_locked())?;
        if !self.values_locked() {
            condition(place.length == 32)?;
            return Ok(if c.bit(6) {
                WriteKind::Encrypted
            } else {
                WriteKind::Clear
            });
        }
        condition(!c.bit(6))?;
        match place.zone {
            Zone::Data => self.locked_data_kind(place),
            _ => {
                condition(self.configuration[OTP_MODE] == 0x55)?;
                Ok(WriteKind::And)
            }
        }
    }

    /// Data with values locked goes by WriteConfig.
    fn locked_data_kind(&self, place: &Place) -> Result<WriteKind, Refusal> {
        let config = self.slot_config(place.word.slot());
        if config.bit(14) {
            return Ok(WriteKind::Encrypted);
        }
        condition(!config.bit(15) && !config.bit(13))?;
        condition(place.length == 32 || !config.is_secret())?;
        Ok(WriteKind::Clear)
    }

    /// The plain value of an encrypted write, once TempKey and MAC are right.
    fn decrypted(&self, c: &Command, place: &Place) -> Result<[u8; 32], Refusal> {
        self.fits_encryption()?;
        if place.zone == Zone::Data && self.values_locked() {
            let slot = place.word.slot();
            self.fits_slot(slot, self.slot_config(slot).write_key())?;
        }
        let (value, mac) = c.data.split_at(32);
        let plain = xor(array(value), self.temp_key.bytes);
        condition(self.digest_96(self.temp_key.bytes, c.header(), plain) == mac)?;
        Ok(plain)
    }

    /// What every encrypted Read and Write needs of TempKey.
    fn fits_encryption(&self) -> Result<(), Refusal> {
        let TempKey {
            valid,
            gen_data,
            check_flag,
            ..
        } = self.temp_key;
        condition(valid && gen_data && !check_flag)
    }

    /// SlotID is the slot's ReadKey or WriteKey, SourceFlag its CheckMacConfig bit.
    fn fits_slot(&self, slot: Slot, key: Slot) -> Result<(), Refusal> {
        condition(self.temp_key.slot_id == key)?;
        condition(self.temp_key.source_flag == self.check_mac_bit(slot))
    }

    fn stored_mut(&mut self, place: &Place) -> &mut [u8] {
        match place.zone {
            Zone::Configuration => &mut self.configuration[place.bytes()],
            Zone::Otp => &mut self.otp[place.bytes()],
            Zone::Data => &mut self.data[place.bytes()],
        }
    }

    // ----- Lock, UpdateExtra, DevRev -----

    fn lock(&mut self, c: &Command) -> Reply {
        let (values, no_summary) = (c.bit(0), c.bit(7));
        c.only_bits(0b1000_0001)?;
        shape(!no_summary || c.param2 == 0)?;
        c.data_length(0)?;

        if values {
            condition(!self.values_locked() && self.config_locked())?;
        } else {
            condition(!self.config_locked())?;
        }
        // The summary is taken while the lock byte still reads 55. [R61]
        condition(no_summary || c.param2 == self.summary(values))?;

        self.configuration[if values { LOCK_VALUE } else { LOCK_CONFIG }] = 0x00;
        answer(&[0x00])
    }

    /// The check value of the 88 bytes, or of data then OTP.
    fn summary(&self, values: bool) -> u16 {
        if values {
            check_value(&[&self.data[..], &self.otp].concat())
        } else {
            check_value(&self.configuration)
        }
    }

    fn update_extra(&mut self, c: &Command) -> Reply {
        let [low, high] = c.param2.to_le_bytes();
        shape(c.param1 <= 1)?;
        shape(high == 0)?;
        c.data_length(0)?;

        // Only byte 85 is ever refused. [R59]
        let at = if c.param1 == 0 { USER_EXTRA } else { SELECTOR };
        if at == SELECTOR {
            let [selector, mode] = [SELECTOR, SELECTOR_MODE].map(|at| self.configuration[at]);
            condition(selector == 0 || mode == 0)?;
        }

        self.configuration[at] = low;
        answer(&[0x00])
    }

    fn dev_rev(&self, c: &Command) -> Reply {
        shape(c.param1 == 0)?;
        shape(c.param2 == 0)?;
        c.data_length(0)?;

        answer(&self.configuration[REV_NUM])
    }
}

/// MAC and CheckMac: bit 0 or bit 1 brings TempKey in.
fn uses_temp_key(c: &Command) -> bool {
    c.bit(0) || c.bit(1)
}

/// MAC and CheckMac: with bit 1 clear the first 32 bytes are the slot.
fn draws_key(c: &Command) -> bool {
    !c.bit(1)
}

/// A message field, or as many zeros where it is not included.
fn included(include: bool, field: &[u8]) -> Vec<u8> {
    if include {
        field.to_vec()
    } else {
        vec![0; field.len()]
    }
}

fn xor(a: [u8; 32], b: [u8; 32]) -> [u8; 32] {
    std::array::from_fn(|i| a[i] ^ b[i])
}

/// A slice whose length is known at the place of use.
fn array<const N: usize>(bytes: &[u8]) -> [u8; N] {
    bytes.try_into().expect("a slice of N bytes")
}

// ===== Where Read and Write go =====

#[derive(Clone, Copy, PartialEq, Eq)]
enum Zone {
    Configuration,
    Otp,
    Data,
}

/// A word address: four bytes each, so slot 1 starts at word 8.
#[derive(Clone, Copy, PartialEq, Eq, PartialOrd, Ord)]
struct Word(u16);

impl Word {
    /// Of a data word: bits 6-3.
    fn slot(self) -> Slot {
        Slot((self.0 >> 3 & 15) as u8)
    }
}

#[derive(PartialEq, Eq)]
enum WriteKind {
    Clear,
    Encrypted,
    /// OTP with values locked: old AND new.
    And,
}

/// 4 or 32 bytes of a zone, from a word on.
struct Place {
    zone: Zone,
    word: Word,
    length: usize,
}

impl Place {
    /// From Param1 bits 7 and 1-0 and the address in Param2; everything wrong here is 03.
    fn named_by(c: &Command) -> Result<Place, Refusal> {
        let (zone, words) = match c.param1 & 3 {
            0 => (Zone::Configuration, 22),
            1 => (Zone::Otp, 16),
            2 => (Zone::Data, 128),
            _ => return Err(Refusal::Shape),
        };
        shape(c.param2 < words)?;
        if !c.bit(7) {
            return Ok(Place {
                zone,
                word: Word(c.param2),
                length: 4,
            });
        }
        shape(zone != Zone::Configuration || c.param2 < 16)?;
        Ok(Place {
            zone,
            word: Word(c.param2 & !7),
            length: 32,
        })
    }

    fn bytes(&self) -> Range<usize> {
        let start = 4 * usize::from(self.word.0);
        start..start + self.length
    }
}

// ===== The bench program =====

const LONGEST_INPUT: usize = 65_536;

enum Record<'a> {
    Image(&'a [u8]),
    Event(Event<'a>, &'a [u8]),
}

/// The lines that the bench program prints for its standard input.
pub fn bench(input: &[u8]) -> Vec<u8> {
    if input.len() > LONGEST_INPUT {
        return b"too long\n".to_vec();
    }
    let mut lines = String::new();
    let mut token = None;
    let mut offset = 0;
    while offset < input.len() {
        let Some((line, length)) = run_record(&mut token, &input[offset..]) else {
            lines += &format!("bad {offset}\n");
            break;
        };
        lines += &line;
        lines += "\n";
        offset += length;
    }
    lines.into_bytes()
}

/// Runs the record at the front. Its line and length, or None where it is bad, cut or too early.
fn run_record(token: &mut Option<Token>, input: &[u8]) -> Option<(String, usize)> {
    let (record, length) = first_record(input)?;
    let line = match record {
        Record::Image(image) => {
            *token = Some(Token::fresh(image).0);
            "image".to_string()
        }
        Record::Event(event, random) => {
            let mut output = [0; LONGEST_ANSWER];
            let outcome = (*token)?.event(event, random, &mut output);
            *token = Some(outcome.token);
            let shown = match outcome.number {
                ANSWERED => hex(front(&output, outcome.length)),
                _ => "none".to_string(),
            };
            format!("{} {shown}", name(event))
        }
    };
    Some((line, length))
}

fn first_record(input: &[u8]) -> Option<(Record<'_>, usize)> {
    const NO_RANDOM: &[u8] = &[0; 32];
    let (mark, rest) = input.split_at_checked(2)?;
    match mark {
        b"EE" => Some((Record::Image(rest.get(..IMAGE_LENGTH)?), 2 + IMAGE_LENGTH)),
        b"WK" => Some((Record::Event(Event::Wake, NO_RANDOM), 2)),
        b"ID" => Some((Record::Event(Event::Idle, NO_RANDOM), 2)),
        b"SL" => Some((Record::Event(Event::Sleep, NO_RANDOM), 2)),
        b"BK" => {
            let (&length, rest) = rest.split_first()?;
            let (block, rest) = rest.split_at_checked(usize::from(length))?;
            let random = rest.get(..32)?;
            let event = Event::Block(block);
            Some((Record::Event(event, random), 3 + block.len() + 32))
        }
        _ => None,
    }
}

fn name(event: Event) -> &'static str {
    match event {
        Event::Wake => "wake",
        Event::Idle => "idle",
        Event::Sleep => "sleep",
        Event::Block(_) => "block",
    }
}

fn hex(bytes: &[u8]) -> String {
    bytes.iter().map(|byte| format!("{byte:02X}")).collect()
}

// ===== Tests (cargo test --lib) =====

#[cfg(test)]
mod tests {
    use super::*;

    const RANDOM: [u8; 32] = [0xA5; 32];
    const TEMP: [u8; 32] = [0x11; 32];

    /// A locked token of zeros but for the named configuration bytes, awake.
    fn awake(configuration: &[(usize, u8)]) -> Token {
        let mut token = Token::fresh(&[0; IMAGE_LENGTH]).0;
        for &(at, byte) in configuration {
            token.configuration[at] = byte;
        }
        token.with_power(Power::Awake)
    }

    fn block(opcode: u8, param1: u8, param2: u16, data: &[u8]) -> Vec<u8> {
        let [low, high] = param2.to_le_bytes();
        let mut block = vec![data.len() as u8 + 7, opcode, param1, low, high];
        block.extend_from_slice(data);
        let check = check_value(&block);
        block.extend_from_slice(&check.to_le_bytes());
        block
    }

    /// Sends a block to an awake token; the answer in hex.
    fn send(token: &mut Token, block: &[u8]) -> String {
        let mut output = [0; LONGEST_ANSWER];
        let outcome = token.event(Event::Block(block), &RANDOM, &mut output);
        assert_eq!(outcome.number, ANSWERED);
        *token = outcome.token;
        hex(front(&output, outcome.length))
    }

    const DONE: &str = "04000340";
    const MISCOMPARE: &str = "040100C3";
    const SHAPE: &str = "04038342";
    const CONDITION: &str = "040F2342";
    const DAMAGED: &str = "04FF0142";

    #[test]
    fn fips_vectors() {
        let vectors: [(&[u8], &str); 4] = [
            (
                b"",
                "E3B0C44298FC1C149AFBF4C8996FB92427AE41E4649B934CA495991B7852B855",
            ),
            (
                b"abc",
                "BA7816BF8F01CFEA414140DE5DAE2223B00361A396177A9CB410FF61F20015AD",
            ),
            (
                b"abcdbcdecdefdefgefghfghighijhijkijkljklmklmnlmnomnopnopq",
                "248D6A61D20638B8E5C026930C3E6039A33CE45964FF2167F6ECEDD419DB06C1",
            ),
            (
                &[b'a'; 1_000_000],
                "CDC76E5C9914FB9281A1C7E284D73E67F1809A48A497200E046D39CCC7112CD0",
            ),
        ];
        for (message, digest) in vectors {
            assert_eq!(hex(&sha256(message)), digest);
        }
    }

    #[test]
    fn answers_of_one_byte() {
        let answers = [
            (0x11, "04113343"),
            (0xFF, DAMAGED),
            (0x03, SHAPE),
            (0x0F, CONDITION),
            (0x00, DONE),
            (0x01, MISCOMPARE),
        ];
        for (status, answer) in answers {
            assert_eq!(hex(&framed(&[status])), answer);
        }
    }

    #[test]
    fn number_4_other_image_lengths() {
        for length in [0, 663, 665] {
            let zeros = Token::fresh(&[0; IMAGE_LENGTH]).0;
            assert_eq!(Token::fresh(&vec![1; length]), (zeros, WRONG_IMAGE));
        }
        let (token, number) = Token::fresh(&[7; IMAGE_LENGTH]);
        assert_eq!(number, ANSWERED);
        assert_eq!(
            (token.power, token.temp_key),
            (Power::Asleep, TempKey::EMPTY)
        );
    }

    #[test]
    fn numbers_1_and_2_leave_everything() {
        let token = awake(&[]).with_temp_key(TempKey::plain(TEMP, true));
        let dev_rev = block(0x30, 0, 0, &[]);
        for event in [
            Event::Wake,
            Event::Idle,
            Event::Sleep,
            Event::Block(&dev_rev),
        ] {
            for (room, random, number) in [
                (0, 32, SHORT_OUTPUT),
                (34, 32, SHORT_OUTPUT),
                (34, 31, SHORT_OUTPUT),
                (35, 0, WRONG_RANDOM),
                (35, 31, WRONG_RANDOM),
                (40, 33, WRONG_RANDOM),
            ] {
                let mut output = vec![9; room];
                let outcome = token.event(event, &vec![0; random], &mut output);
                assert_eq!(outcome, Outcome::silent(number, token));
                assert_eq!(output, vec![9; room]);
            }
        }
    }

    #[test]
    fn numbers_0_and_3() {
        let token = Token::fresh(&[0; IMAGE_LENGTH]).0;
        let mut output = [9; 40];
        let asleep = token.event(Event::Block(&[]), &RANDOM, &mut output);
        assert_eq!(asleep, Outcome::silent(NO_ANSWER, token));
        assert_eq!(output, [9; 40]);

        let woken = token.event(Event::Wake, &RANDOM, &mut output);
        assert_eq!(
            (woken.number, woken.length, woken.token.power),
            (ANSWERED, 4, Power::Awake)
        );
        assert_eq!(hex(front(&output, 4)), "04113343");
        assert_eq!(output[4..], [9; 36]);
        assert!(front(&output, 41).is_empty());

        let again = woken.token.event(Event::Wake, &RANDOM, &mut output);
        assert_eq!(again, Outcome::silent(NO_ANSWER, woken.token));
    }

    #[test]
    fn idle_keeps_and_sleep_empties_temp_key() {
        let token = awake(&[]).with_temp_key(TempKey::plain(TEMP, true));
        let idle = token.event(Event::Idle, &RANDOM, &mut [0; 35]).token;
        assert_eq!((idle.power, idle.temp_key), (Power::Idle, token.temp_key));
        let asleep = idle.event(Event::Sleep, &RANDOM, &mut [0; 35]).token;
        assert_eq!(
            (asleep.power, asleep.temp_key),
            (Power::Asleep, TempKey::EMPTY)
        );
        let still = asleep.event(Event::Idle, &RANDOM, &mut [0; 35]).token;
        assert_eq!(still.power, Power::Asleep);
    }

    #[test]
    fn lengths_6_7_84_85() {
        // Count and check value are right each time.
        let six = [0x06, 0x30, 0x00, 0x00, 0xE1, 0x00];
        assert_eq!(check_value(&six[..4]).to_le_bytes(), six[4..]);
        let token = awake(&[]).with_temp_key(TempKey::plain(TEMP, true));
        for (block, answer) in [
            (six.to_vec(), DAMAGED),
            (block(0x30, 0, 0, &[]), "070000000003AD"),
            (block(0x28, 0, 0, &[0; 77]), MISCOMPARE),
            (block(0x28, 0, 0, &[0; 78]), DAMAGED),
            (vec![], DAMAGED),
        ] {
            let mut after = token;
            assert_eq!(send(&mut after, &block), answer);
            // A damaged block does not even empty TempKey.
            assert_eq!(after == token, answer == DAMAGED);
        }
    }

    #[test]
    fn refusals_only_empty_temp_key() {
        let token = awake(&[(USE_FLAG, 3)]).with_temp_key(TempKey::plain(TEMP, true));
        for (block, answer) in [
            (block(0x47, 0, 0, &[]), SHAPE),
            (block(0x16, 2, 0, &[0; 20]), SHAPE),
            (block(0x1C, 4, 0, &[]), CONDITION),
        ] {
            let mut after = token;
            assert_eq!(send(&mut after, &block), answer);
            assert_eq!(after, token.with_temp_key(TempKey::EMPTY));
        }
    }

    #[test]
    fn uses_of_slots_0_to_7() {
        for (before, after) in [(0xFF, 0x7F), (0xA5, 0x25), (0x01, 0x00)] {
            let mut token = awake(&[(SLOT_CONFIG, 0x20), (USE_FLAG, before)]);
            assert!(token.use_left(Slot(0)));
            token.spend(Slot(0));
            assert_eq!(token.configuration[USE_FLAG], after);
        }
        let mut token = awake(&[(SLOT_CONFIG, 0x20)]);
        assert_eq!(send(&mut token, &block(0x08, 0, 0, &[0; 32])), CONDITION);
    }

    #[test]
    fn a_miscompare_spends_a_use() {
        let mut token = awake(&[(SLOT_CONFIG, 0x20), (USE_FLAG, 0xFF)]);
        assert_eq!(send(&mut token, &block(0x28, 0, 0, &[0; 77])), MISCOMPARE);
        assert_eq!(token.configuration[USE_FLAG], 0x7F);
    }

    #[test]
    fn uses_of_slots_8_to_15() {
        let mut token = awake(&[(SLOT_CONFIG + 30, 0x20), (SLOT_CONFIG + 16, 0x20)]);
        assert!(!token.use_left(Slot(15)));
        assert!(token.use_left(Slot(8)));
        token.configuration[70..72].copy_from_slice(&[0x06, 0xFF]);
        for left in [[0x02, 0xFF], [0x00, 0xFF], [0x00, 0x7F]] {
            token.spend(Slot(15));
            assert_eq!(token.configuration[70..72], left);
        }
    }

    #[test]
    fn slot_config_82_e0() {
        let config = SlotConfig(u16::from_le_bytes([0x82, 0xE0]));
        assert!(config.is_secret() && config.bit(14));
        assert!(!config.encrypt_read() && !config.limited_use() && !config.check_only());
        assert_eq!((config.read_key(), config.write_key()), (Slot(2), Slot(0)));
    }

    #[test]
    fn otp_f0_written_aa_is_a0() {
        let mut token = awake(&[(OTP_MODE, 0x55)]);
        token.otp = [0xF0; 64];
        assert_eq!(send(&mut token, &block(0x12, 0x01, 0, &[0xAA; 4])), DONE);
        assert_eq!(token.otp[..5], [0xA0, 0xA0, 0xA0, 0xA0, 0xF0]);
    }

    #[test]
    fn update_count_255_goes_to_0() {
        let mut token = awake(&[(SLOT_CONFIG + 1, 0x20), (UPDATE_COUNT, 255)]);
        token.temp_key = TempKey::plain(TEMP, true);
        assert_eq!(send(&mut token, &block(0x1C, 4, 0, &[])), DONE);
        assert_eq!(token.configuration[52..54], [0xFF, 0x00]);
    }

    #[test]
    fn user_extra_is_never_refused() {
        let mut token = awake(&[(USER_EXTRA, 1), (SELECTOR, 1), (SELECTOR_MODE, 1)]);
        assert_eq!(send(&mut token, &block(0x20, 0, 2, &[])), DONE);
        assert_eq!(send(&mut token, &block(0x20, 1, 2, &[])), CONDITION);
        assert_eq!(token.configuration[84..86], [2, 1]);
    }

    // ----- The bench program -----

    fn bench_lines(records: &[&[u8]]) -> String {
        String::from_utf8(bench(&records.concat())).unwrap()
    }

    const ZEROS: [u8; IMAGE_LENGTH] = [0; IMAGE_LENGTH];
    const DEV_REV: [u8; 10] = [b'B', b'K', 7, 0x07, 0x30, 0x00, 0x00, 0x00, 0x03, 0x5D];

    #[test]
    fn bench_sample() {
        let lines = bench_lines(&[
            b"EE", &ZEROS, b"WK", &DEV_REV, &RANDOM, b"SL", &DEV_REV, &RANDOM,
        ]);
        let sample = "image\nwake 04113343\nblock 070000000003AD\nsleep none\nblock none\n";
        assert_eq!(lines, sample);
    }

    #[test]
    fn bench_bad_records() {
        assert_eq!(bench_lines(&[]), "");
        assert_eq!(bench_lines(&[b"WK", b"EE", &ZEROS]), "bad 0\n");
        assert_eq!(bench_lines(&[b"EE", &ZEROS[1..]]), "bad 0\n");
        assert_eq!(
            bench_lines(&[b"EE", &ZEROS, b"WK\n"]),
            "image\nwake 04113343\nbad 668\n"
        );
        assert_eq!(
            bench_lines(&[b"EE", &ZEROS, &DEV_REV, &RANDOM[1..]]),
            "image\nbad 666\n"
        );
    }

    #[test]
    fn bench_limit() {
        assert_eq!(bench(&[0; LONGEST_INPUT]), b"bad 0\n");
        assert_eq!(bench(&[0; LONGEST_INPUT + 1]), b"too long\n");
    }
}
