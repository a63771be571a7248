//! The chains that draw on keys: MAC, CheckMac and its copy, GenDig, DeriveKey, and uses that run out.

use crate::chains::{usable, Scene};
use crate::host::{self, SlotConfig};

impl Scene<'_> {
    // ----- Commands that show a key -----

    pub fn mac(&mut self) {
        let param1 = self.random.byte() & 0x77;
        if param1 & 3 != 0 {
            self.temp_key(param1 & 4 != 0);
        }
        let key = self.slot_where(usable);
        self.mac_of(param1, key);
    }

    pub fn mac_of(&mut self, param1: u8, key: u8) {
        let param2 = self.naming(key);
        let challenge: [u8; 32] = self.random.array();
        self.send(0x08, param1, param2, if param1 & 1 == 0 { &challenge } else { &[] });
    }

    pub fn check_mac(&mut self) {
        let param1 = self.random.byte() & 0x27;
        if param1 & 3 != 0 {
            self.nonce(param1 & 4 != 0);
            if self.random.once_in(3) {
                self.any_gen_dig();
            }
        }
        let key = self.slot_where(host::can_draw);
        self.check_mac_of(param1, key);
        if self.random.flag() {
            self.use_temp_key();
        }
    }

    /// With the right response.
    pub fn check_mac_of(&mut self, param1: u8, key: u8) {
        let param2 = self.naming(key);
        let (challenge, other): ([u8; 32], [u8; 13]) = (self.random.array(), self.random.array());
        let response = host::check_mac_response(&self.token, param1, param2, &challenge, &other);
        self.send(0x28, param1, param2, &[&challenge[..], &response, &other].concat());
    }

    /// A CheckMac that copies, and a use of the copied value.
    pub fn copy(&mut self) {
        let key = self.slot_where(|token, key| SlotConfig::of(token, key | 1).read_key() == 0 && host::can_draw(token, key));
        let source_flag = host::source_bit(&self.token, key);
        self.nonce(source_flag);
        self.check_mac_of(if source_flag { 5 } else { 1 }, key);
        self.use_temp_key();
    }

    /// Whatever the TempKey of this moment serves for. Where there should be none, a token that kept one must be found out.
    pub fn use_temp_key(&mut self) {
        let held = self.token.temp_key;
        let source_flag = if held.valid { held.source_flag } else { self.random.flag() };
        let both = 3 | u8::from(source_flag) << 2;
        match self.random.below(7) {
            0..=1 => self.mac_of(both, held.slot_id.0),
            2 => self.check_mac_of(both, held.slot_id.0),
            3 => self.any_gen_dig(),
            4 => self.derive_key_of(source_flag),
            5 => {
                let slot = self.slot_where(|token, slot| {
                    let config = SlotConfig::of(token, slot);
                    let fits = config.read_key() == held.slot_id.0 && host::source_bit(token, slot) == source_flag;
                    fits && config.is_secret() && config.encrypt_read()
                });
                let word = self.word_of(slot);
                self.send(0x02, 0x82, word, &[]);
            }
            _ => {
                let slot = self.slot_where(|token, slot| {
                    let config = SlotConfig::of(token, slot);
                    let fits = config.write_key() == held.slot_id.0 && host::source_bit(token, slot) == source_flag;
                    fits && config.bit(14)
                });
                self.write_encrypted(2, slot);
            }
        }
    }

    pub fn gen_dig_chain(&mut self) {
        let source_flag = self.random.flag();
        self.nonce(source_flag);
        for _ in 0..=self.random.below(3) {
            self.any_gen_dig();
        }
        self.use_temp_key();
    }

    // ----- DeriveKey -----

    pub fn derive_key(&mut self) {
        let source_flag = self.random.flag();
        self.temp_key(source_flag);
        self.derive_key_of(source_flag);
    }

    pub fn derive_key_of(&mut self, source_flag: bool) {
        let target = self.slot_where(|token, slot| {
            let config = SlotConfig::of(token, slot);
            config.bit(13) && usable(token, config.write_key())
        });
        self.derive(source_flag, target);
    }

    /// With the MAC that bit 15 asks for.
    pub fn derive(&mut self, source_flag: bool, target: u8) {
        let param1 = u8::from(source_flag) << 2;
        let param2 = self.naming(target);
        let mac = host::derive_key_mac(&self.token, param1, param2);
        self.send(0x1C, param1, param2, if self.config(target).bit(15) { &mac } else { &[] });
        if self.random.flag() {
            self.mac_of(0, target);
        }
    }

    // ----- Uses -----

    /// Takes a limited key to its last use and beyond.
    pub fn run_out(&mut self) {
        let slot = self.slot_where(|token, slot| matches!(host::uses_left(token, slot), Some(1..=12)));
        let uses = host::uses_left(&self.token, slot).unwrap_or(0).min(12);
        let way = self.random.below(5);
        for _ in 0..uses + 2 {
            self.spend(slot, way);
        }
    }

    pub fn spend(&mut self, slot: u8, way: usize) {
        match way {
            0 => {
                self.nonce(true);
                self.gen_dig(2, slot.into());
            }
            1 => self.check_mac_of(0, slot),
            2 => {
                let target = self.slot_where(|token, target| {
                    let config = SlotConfig::of(token, target);
                    config.bit(13) && config.write_key() == slot && (config.bit(12) || config.bit(15))
                });
                self.nonce(true);
                self.derive(true, target);
            }
            _ => self.mac_of(0, slot),
        }
    }
}
