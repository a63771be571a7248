//! The layout of the state that a caller keeps, as include/chhutirok.h says, and the independent engine's state in it.

use crate::engine::{Power, Slot, TempKey, Token};

pub const STATE_LENGTH: usize = 702;
pub const IMAGE_LENGTH: usize = 664;

/// The number of a state that is none.
pub const NO_STATE: u8 = 40;

pub fn bytes_of(token: &Token) -> [u8; STATE_LENGTH] {
    let mut state = [0; STATE_LENGTH];
    state[0..88].copy_from_slice(&token.configuration);
    state[88..152].copy_from_slice(&token.otp);
    state[152..664].copy_from_slice(&token.data);
    let key = &token.temp_key;
    state[664..696].copy_from_slice(&key.bytes);
    state[696] = key.slot_id.0;
    let flags = [key.source_flag, key.gen_data, key.check_flag, key.valid];
    for (byte, flag) in state[697..701].iter_mut().zip(flags) {
        *byte = u8::from(flag);
    }
    state[701] = match token.power {
        Power::Asleep => 0,
        Power::Idle => 1,
        Power::Awake => 2,
    };
    state
}

/// None where the bytes are no state.
pub fn token_of(state: &[u8]) -> Option<Token> {
    let state: &[u8; STATE_LENGTH] = state.try_into().ok()?;
    let flag = |at: usize| match state[at] {
        0 => Some(false),
        1 => Some(true),
        _ => None,
    };
    let power = match state[701] {
        0 => Power::Asleep,
        1 => Power::Idle,
        2 => Power::Awake,
        _ => return None,
    };
    if state[696] > 15 {
        return None;
    }
    let temp_key = TempKey {
        bytes: state[664..696].try_into().ok()?,
        slot_id: Slot(state[696]),
        source_flag: flag(697)?,
        gen_data: flag(698)?,
        check_flag: flag(699)?,
        valid: flag(700)?,
    };
    Some(Token {
        configuration: state[0..88].try_into().ok()?,
        otp: state[88..152].try_into().ok()?,
        data: state[152..664].try_into().ok()?,
        temp_key,
        power,
    })
}
