//! What a host works out who knows the token's keys: whole blocks, right MACs, right sums. The generator reads them off its copy
//! of the token; the layouts are document 01's, written here once more and not taken from the engine.

use crate::engine::{check_value, sha256, Token};

// ===== Blocks =====

/// Count, opcode, Param1, Param2 (low byte first), data, check value (low byte first).
pub fn block(opcode: u8, param1: u8, param2: u16, data: &[u8]) -> Vec<u8> {
    let [low, high] = param2.to_le_bytes();
    let mut block = vec![0, opcode, param1, low, high];
    block.extend_from_slice(data);
    block.extend_from_slice(&[0, 0]);
    refit(&mut block);
    block
}

/// Makes count and check value right again, so that a change in between is not seen as damage. A count over 255 stays wrong.
pub fn refit(block: &mut [u8]) {
    let body = block.len() - 2;
    block[0] = block.len() as u8;
    let check = check_value(&block[..body]).to_le_bytes();
    block[body..].copy_from_slice(&check);
}

// ===== What the configuration says =====

#[derive(Clone, Copy)]
pub struct SlotConfig(pub u16);

impl SlotConfig {
    pub fn of(token: &Token, slot: u8) -> SlotConfig {
        let at = 20 + 2 * usize::from(slot);
        SlotConfig(u16::from_le_bytes([token.configuration[at], token.configuration[at + 1]]))
    }
    pub fn bit(self, position: u32) -> bool {
        self.0 >> position & 1 == 1
    }
    pub fn write_key(self) -> u8 {
        (self.0 >> 8 & 15) as u8
    }
    pub fn is_secret(self) -> bool {
        self.bit(7)
    }
    pub fn encrypt_read(self) -> bool {
        self.bit(6)
    }
    pub fn limited_use(self) -> bool {
        self.bit(5)
    }
    pub fn check_only(self) -> bool {
        self.bit(4)
    }
    pub fn read_key(self) -> u8 {
        (self.0 & 15) as u8
    }
}

/// The uses left of a limited slot, which 0-7 and 15 can be; None where nothing is counted.
pub fn uses_left(token: &Token, slot: u8) -> Option<u32> {
    let counters = match slot {
        0..=7 => &token.configuration[52 + 2 * usize::from(slot)..][..1],
        15 => &token.configuration[68..84],
        _ => return None,
    };
    let ones = counters.iter().map(|byte| byte.count_ones()).sum();
    SlotConfig::of(token, slot).limited_use().then_some(ones)
}

pub fn can_draw(token: &Token, slot: u8) -> bool {
    uses_left(token, slot) != Some(0)
}

/// CheckMacConfig bit slot/2.
pub fn source_bit(token: &Token, slot: u8) -> bool {
    token.configuration[17] >> (slot / 2) & 1 == 1
}

pub fn config_locked(token: &Token) -> bool {
    token.configuration[87] != 0x55
}

pub fn values_locked(token: &Token) -> bool {
    token.configuration[86] != 0x55
}

pub fn slot_bytes(token: &Token, slot: u8) -> &[u8] {
    &token.data[32 * usize::from(slot)..][..32]
}

fn serial(token: &Token, number: usize) -> u8 {
    token.configuration[if number < 4 { number } else { number + 4 }]
}

/// SN8, SN0-1.
fn serial_tail(token: &Token) -> [u8; 3] {
    [serial(token, 8), serial(token, 0), serial(token, 1)]
}

// ===== MACs and sums =====

/// CheckMac's 88 bytes: first, second, o0-3, OTP0-7 if bit 5 else zero, o4-6, SN8, o7-10, SN0-1, o11-12.
pub fn check_mac_response(token: &Token, param1: u8, param2: u16, challenge: &[u8], other: &[u8]) -> [u8; 32] {
    let mut message = Vec::with_capacity(88);
    let temp_key = &token.temp_key.bytes[..];
    message.extend_from_slice(if param1 & 2 != 0 { temp_key } else { slot_bytes(token, param2 as u8 & 15) });
    message.extend_from_slice(if param1 & 1 != 0 { temp_key } else { challenge });
    message.extend_from_slice(&other[0..4]);
    message.extend_from_slice(if param1 & 0x20 != 0 { &token.otp[0..8] } else { &[0; 8] });
    message.extend_from_slice(&other[4..7]);
    message.push(serial(token, 8));
    message.extend_from_slice(&other[7..11]);
    message.extend_from_slice(&[serial(token, 0), serial(token, 1)]);
    message.extend_from_slice(&other[11..13]);
    sha256(&message)
}

/// DeriveKey's MAC: SHA-256(parent, 1C, Param1, Param2, SN8, SN0-1).
pub fn derive_key_mac(token: &Token, param1: u8, param2: u16) -> [u8; 32] {
    let parent = SlotConfig::of(token, param2 as u8 & 15).write_key();
    let [low, high] = param2.to_le_bytes();
    sha256(&[slot_bytes(token, parent), &[0x1C, param1, low, high], &serial_tail(token)].concat())
}

/// The 64 bytes of an encrypted Write: value XOR TempKey, and SHA-256(TempKey, 12, Param1, Param2, SN8, SN0-1, 25 zeros, plain).
pub fn encrypted(token: &Token, param1: u8, param2: u16, plain: &[u8; 32]) -> Vec<u8> {
    let key = &token.temp_key.bytes;
    let [low, high] = param2.to_le_bytes();
    let mac = sha256(&[&key[..], &[0x12, param1, low, high], &serial_tail(token), &[0; 25], plain].concat());
    let value = plain.iter().zip(key).map(|(plain, key)| plain ^ key);
    value.chain(mac).collect()
}

/// Lock's summary: of the 88 bytes, or of data then OTP.
pub fn summary(token: &Token, values: bool) -> u16 {
    if values {
        check_value(&[&token.data[..], &token.otp[..]].concat())
    } else {
        check_value(&token.configuration)
    }
}
