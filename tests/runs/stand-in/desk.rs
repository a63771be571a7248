//! A stand-in for the proved engine: the C interface of include/chhutirok.h over the independent one.

#[path = "../src/engine.rs"]
pub mod engine;
#[path = "../src/layout.rs"]
pub mod layout;

use std::slice::{from_raw_parts, from_raw_parts_mut};

use engine::{Event, Token};
use layout::{bytes_of, token_of, NO_STATE, STATE_LENGTH};

/// # Safety
/// As for C: each pointer goes with its length.
#[no_mangle]
pub unsafe extern "C" fn chhutirok_fresh(image: *const u8, image_length: usize, state: *mut u8, state_length: usize) -> u32 {
    let (image, state) = (from_raw_parts(image, image_length), from_raw_parts_mut(state, state_length));
    if state.len() != STATE_LENGTH {
        return NO_STATE.into();
    }
    let (token, number) = Token::fresh(image);
    state.copy_from_slice(&bytes_of(&token));
    number.into()
}

unsafe fn run(event: Event, s: *mut u8, sn: usize, r: *const u8, rn: usize, o: *mut u8, on: usize, length: *mut usize) -> u32 {
    let (state, random, output) = (from_raw_parts_mut(s, sn), from_raw_parts(r, rn), from_raw_parts_mut(o, on));
    *length = 0;
    let Some(token) = token_of(state) else {
        return NO_STATE.into();
    };
    let outcome = token.event(event, random, output);
    state.copy_from_slice(&bytes_of(&outcome.token));
    *length = outcome.length;
    outcome.number.into()
}

macro_rules! plain_event {
    ($name:ident, $event:expr) => {
        /// # Safety
        /// As for C: each pointer goes with its length.
        #[no_mangle]
        pub unsafe extern "C" fn $name(s: *mut u8, sn: usize, r: *const u8, rn: usize, o: *mut u8, on: usize, length: *mut usize) -> u32 {
            run($event, s, sn, r, rn, o, on, length)
        }
    };
}

plain_event!(chhutirok_wake, Event::Wake);
plain_event!(chhutirok_idle, Event::Idle);
plain_event!(chhutirok_sleep, Event::Sleep);

/// # Safety
/// As for C: each pointer goes with its length.
#[no_mangle]
#[allow(clippy::too_many_arguments)]
pub unsafe extern "C" fn chhutirok_block(
    s: *mut u8,
    sn: usize,
    b: *const u8,
    bn: usize,
    r: *const u8,
    rn: usize,
    o: *mut u8,
    on: usize,
    length: *mut usize,
) -> u32 {
    run(Event::Block(from_raw_parts(b, bn)), s, sn, r, rn, o, on, length)
}
