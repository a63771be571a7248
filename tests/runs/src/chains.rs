//! Chains of steps that a desk would send and the token accept: each block is made for the state that the steps before it leave.
//! Where the configuration does not allow a chain the token refuses it, which is as good a test.

use crate::engine::{Power, Token};
use crate::generate::Step;
use crate::host::{self, SlotConfig};
use crate::random::Random;

pub struct Scene<'a> {
    pub token: Token,
    pub random: &'a mut Random,
    pub steps: Vec<Step>,
}

/// A key that GenDig draws on without setting CheckFlag.
pub fn usable(token: &Token, key: u8) -> bool {
    host::can_draw(token, key) && !SlotConfig::of(token, key).check_only()
}

impl Scene<'_> {
    pub fn new(token: Token, random: &mut Random) -> Scene<'_> {
        let steps = Vec::new();
        Scene { token, random, steps }
    }

    /// One chain. The zones' locks decide what is worth a try.
    pub fn play(&mut self) {
        if self.token.power != Power::Awake && !self.random.once_in(16) {
            self.take(Step::Wake);
        }
        let locked = host::config_locked(&self.token) && host::values_locked(&self.token);
        match self.random.below(if locked { 26 } else { 38 }) {
            0..=2 => self.mac(),
            3..=4 => self.check_mac(),
            5..=6 => self.copy(),
            7 => self.gen_dig_chain(),
            8..=9 => self.encrypted_read(),
            10..=11 => self.encrypted_write(),
            12..=14 => self.derive_key(),
            15 => self.run_out(),
            16 => self.read(),
            17 => self.clear_write(),
            18 => self.use_temp_key(),
            19 => self.look(),
            20..=21 => self.small(),
            22..=23 => self.noise(),
            24 => self.power(),
            25 => self.lock(),
            26..=29 => self.encrypted_write(),
            30..=32 => self.clear_write(),
            33..=34 => self.gen_dig_chain(),
            35 => self.lock(),
            _ => self.fit_out(),
        }
    }

    // ----- Steps -----

    pub fn take(&mut self, step: Step) {
        self.token = step.taken(self.token).0;
        self.steps.push(step);
    }

    pub fn send(&mut self, opcode: u8, param1: u8, param2: u16, data: &[u8]) {
        // TempKey outlasts idle, so a chain does too.
        if self.random.once_in(32) {
            self.take(Step::Idle);
            self.take(Step::Wake);
        }
        let bytes = host::block(opcode, param1, param2, data);
        let random = self.random.array();
        self.take(Step::Block { bytes, random });
    }

    // ----- Choices -----

    pub fn config(&self, slot: u8) -> SlotConfig {
        SlotConfig::of(&self.token, slot)
    }

    /// A slot that fits, where there is one; now and then another.
    pub fn slot_where(&mut self, fits: impl Fn(&Token, u8) -> bool) -> u8 {
        let fitting: Vec<u8> = (0..16).filter(|&slot| fits(&self.token, slot)).collect();
        if fitting.is_empty() || self.random.once_in(16) {
            self.random.below(16) as u8
        } else {
            self.random.pick(&fitting)
        }
    }

    /// A Param2 that names the key: its other bits are free.
    pub fn naming(&mut self, key: u8) -> u16 {
        let high = if self.random.once_in(4) { self.random.word() & 0xFFF0 } else { 0 };
        high | u16::from(key)
    }

    pub fn word_of(&mut self, slot: u8) -> u16 {
        8 * u16::from(slot) + self.random.below(8) as u16
    }

    // ----- TempKey -----

    /// Now and then of the other source: what follows is then made rightly for a TempKey that does not serve.
    pub fn nonce(&mut self, source_flag: bool) {
        if source_flag != self.random.once_in(24) {
            let input: [u8; 32] = self.random.array();
            self.send(0x16, 3, 0, &input);
        } else {
            let (param1, input): (u8, [u8; 20]) = (self.random.pick(&[0, 1]), self.random.array());
            self.send(0x16, param1, 0, &input);
        }
    }

    /// With the four bytes that a CheckOnly key asks for; now and then by another key.
    pub fn gen_dig(&mut self, param1: u8, param2: u16) {
        let other_key = param1 == 2 && self.random.once_in(24);
        let param2 = if other_key { param2 ^ 1 << self.random.below(4) } else { param2 };
        let check_only = param1 == 2 && self.config(param2 as u8 & 15).check_only();
        let data: [u8; 4] = self.random.array();
        self.send(0x15, param1, param2, if check_only { &data } else { &[] });
    }

    pub fn any_gen_dig(&mut self) {
        let key = self.slot_where(host::can_draw);
        match self.random.below(8) {
            0 => {
                let block = self.random.below(2) as u16;
                self.gen_dig(0, block);
            }
            1 => {
                let block = self.random.below(2) as u16;
                self.gen_dig(1, block);
            }
            2 => {
                let high = self.random.pick(&[0x0010, 0x0100, 0x7FF0, 0x8000]);
                self.gen_dig(2, high | u16::from(key));
            }
            _ => self.gen_dig(2, key.into()),
        }
    }

    /// A TempKey with that SourceFlag, straight from Nonce or by way of GenDig.
    pub fn temp_key(&mut self, source_flag: bool) {
        self.nonce(source_flag);
        match self.random.below(8) {
            0 => self.gen_dig(0, 1),
            1 => self.gen_dig(1, 0),
            2 => self.any_gen_dig(),
            _ => {}
        }
    }
}
