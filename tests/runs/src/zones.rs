//! The chains that read, write and lock zones, and the small ones.

use crate::chains::{usable, Scene};
use crate::generate::Step;
use crate::host::{self, SlotConfig};
use crate::images;

impl Scene<'_> {
    // ----- Encrypted -----

    pub fn encrypted_read(&mut self) {
        let slot = self.slot_where(|token, slot| {
            let config = SlotConfig::of(token, slot);
            config.is_secret() && config.encrypt_read() && usable(token, config.read_key())
        });
        let key = self.config(slot).read_key();
        self.nonce(host::source_bit(&self.token, slot));
        self.gen_dig(2, key.into());
        let word = self.word_of(slot);
        self.send(0x02, 0x82, word, &[]);
    }

    /// To a slot by its WriteConfig, or to any place while values are unlocked; then a look at what it left.
    pub fn encrypted_write(&mut self) {
        if host::values_locked(&self.token) {
            let slot = self.slot_where(|token, slot| {
                let config = SlotConfig::of(token, slot);
                config.bit(14) && usable(token, config.write_key())
            });
            let key = self.config(slot).write_key();
            self.nonce(host::source_bit(&self.token, slot));
            self.gen_dig(2, key.into());
            self.write_encrypted(2, slot);
            if self.random.flag() {
                self.mac_of(0, slot);
            }
        } else {
            let source_flag = self.random.flag();
            let key = self.slot_where(usable);
            self.nonce(source_flag);
            self.gen_dig(2, key.into());
            let (zone, slot) = (self.random.pick(&[1, 2, 2]), self.random.below(16) as u8);
            self.write_encrypted(zone, slot);
        }
    }

    /// With the right MAC. Bit 6 says so only while values are unlocked; now and then it is wrong, and the MAC right for it.
    pub fn write_encrypted(&mut self, zone: u8, slot: u8) {
        let says_so = host::values_locked(&self.token) == self.random.once_in(8);
        let bit_6 = if says_so { 0x40 } else { 0 };
        let param1 = 0x80 | bit_6 | zone;
        let word = self.word_of(if zone == 1 { slot & 1 } else { slot });
        let plain = self.random.array();
        let data = host::encrypted(&self.token, param1, word, &plain);
        self.send(0x12, param1, word, &data);
    }

    // ----- Clear -----

    pub fn read(&mut self) {
        let bit_7 = self.random.pick(&[0, 0x80]);
        match self.random.below(4) {
            0 => {
                let word = self.random.below(if bit_7 == 0 { 22 } else { 16 }) as u16;
                self.send(0x02, bit_7, word, &[]);
            }
            1 => {
                let word = self.random.below(16) as u16;
                self.send(0x02, bit_7 | 1, word, &[]);
            }
            _ => {
                let slot = self.slot_where(|token, slot| SlotConfig::of(token, slot).0 & 0x00C0 == 0);
                let word = self.word_of(slot);
                self.send(0x02, bit_7 | 2, word, &[]);
            }
        }
    }

    /// To the zone that the locks leave open, or by WriteConfig and OTPmode; then a look at what it left.
    pub fn clear_write(&mut self) {
        if host::config_locked(&self.token) == self.random.once_in(8) {
            return self.write_configuration();
        }
        let four = self.random.once_in(if host::values_locked(&self.token) { 2 } else { 8 });
        let bit_7 = if four { 0 } else { 0x80 };
        let bit_6 = if self.random.once_in(16) { 0x40 } else { 0 };
        let data = self.random.bytes(if four { 4 } else { 32 });
        let (zone, word) = if self.random.once_in(3) {
            (1, self.random.below(16) as u16)
        } else {
            let slot = self.slot_where(|token, slot| {
                let config = SlotConfig::of(token, slot);
                config.0 & 0xE000 == 0 && (!four || !config.is_secret())
            });
            (2, self.word_of(slot))
        };
        self.send(0x12, bit_7 | bit_6 | zone, word, &data);
        self.send(0x02, bit_7 | zone, word, &[]);
    }

    /// Bytes 16 to 83, SlotConfigs that mean something in their place; now and then a word that is never written.
    fn write_configuration(&mut self) {
        let word = self.random.pick(&[0, 3, 4, 4, 5, 6, 7, 8, 9, 10, 11, 12, 13, 16, 17, 20, 21]);
        let mut data = self.random.array::<4>();
        if (5..13).contains(&word) {
            let [a, b] = [(); 2].map(|()| images::slot_config(self.random).to_le_bytes());
            data = [a[0], a[1], b[0], b[1]];
        }
        let bit_6 = if self.random.once_in(16) { 0x40 } else { 0 };
        if self.random.once_in(4) {
            let block: [u8; 32] = self.random.array();
            self.send(0x12, 0x80 | bit_6, word, &block);
        } else {
            self.send(0x12, bit_6, word, &data);
        }
    }

    // ----- Locks -----

    /// The zone whose turn it is, by the right sum or without one.
    pub fn lock(&mut self) {
        let values = host::config_locked(&self.token) != self.random.once_in(8);
        let bit_0 = u8::from(values);
        if self.random.once_in(3) {
            self.send(0x17, 0x80 | bit_0, 0, &[]);
        } else {
            let summary = host::summary(&self.token, values);
            self.send(0x17, bit_0, summary, &[]);
        }
    }

    /// From blank to locked, in the order that a desk goes.
    pub fn fit_out(&mut self) {
        for _ in 0..self.random.below(6) {
            self.clear_write();
        }
        self.lock();
        for _ in 0..self.random.below(6) {
            if self.random.flag() {
                self.encrypted_write();
            } else {
                self.clear_write();
            }
        }
        self.lock();
    }

    // ----- The rest -----

    /// All of the configuration: what was spent, counted, written and locked.
    pub fn look(&mut self) {
        for block in [0, 8] {
            self.send(0x02, 0x80, block, &[]);
        }
        for word in 16..22 {
            self.send(0x02, 0x00, word, &[]);
        }
    }

    /// The commands of one block: UpdateExtra, Random, DevRev, and a Nonce left alone.
    pub fn small(&mut self) {
        match self.random.below(6) {
            0..=2 => {
                let which = self.random.pick(&[0, 1]);
                let value = u16::from(self.random.byte() & self.random.pick(&[0x00, 0xFF]));
                self.send(0x20, which, value, &[]);
            }
            3 => {
                let mode = self.random.pick(&[0, 1]);
                self.send(0x1B, mode, 0, &[]);
            }
            4 => self.send(0x30, 0, 0, &[]),
            _ => {
                let source_flag = self.random.flag();
                self.nonce(source_flag);
            }
        }
    }

    /// A whole block of anything, its length more often than not one that the command takes.
    pub fn noise(&mut self) {
        const KNOWN: [(u8, [usize; 2]); 11] = [
            (0x02, [0, 0]),
            (0x08, [0, 32]),
            (0x12, [4, 32]),
            (0x15, [0, 4]),
            (0x16, [20, 32]),
            (0x17, [0, 0]),
            (0x1B, [0, 0]),
            (0x1C, [0, 32]),
            (0x20, [0, 0]),
            (0x28, [77, 77]),
            (0x30, [0, 0]),
        ];
        let (known, lengths) = self.random.pick(&KNOWN);
        let opcode = if self.random.once_in(8) { self.random.byte() } else { known };
        let length = match self.random.below(8) {
            0 => self.random.below(249),
            1 => self.random.pick(&[0, 4, 20, 32, 64, 77, 78]),
            _ => self.random.pick(&lengths),
        };
        let param1 = self.random.byte() & self.random.pick(&[0x00, 0x03, 0x07, 0xC3, 0xFF]);
        let param2 = self.random.word() & self.random.pick(&[0x0000, 0x0000, 0x0003, 0x000F, 0x007F, 0xFFFF]);
        let data = self.random.bytes(length);
        self.send(opcode, param1, param2, &data);
    }

    /// Wake, idle and sleep in any order, and blocks that may come at the wrong time.
    pub fn power(&mut self) {
        let source_flag = self.random.flag();
        self.nonce(source_flag);
        for _ in 0..=self.random.below(4) {
            let step = match self.random.below(3) {
                0 => Step::Wake,
                1 => Step::Idle,
                _ => Step::Sleep,
            };
            self.take(step);
            if self.random.flag() {
                self.use_temp_key();
            }
        }
    }
}
