//! The proved engine through its C interface (include/chhutirok.h), as safe functions.

use crate::engine::Event;

extern "C" {
    fn chhutirok_fresh(image: *const u8, image_length: usize, state: *mut u8, state_length: usize) -> u32;
    fn chhutirok_wake(
        state: *mut u8,
        state_length: usize,
        random: *const u8,
        random_length: usize,
        output: *mut u8,
        output_length: usize,
        length: *mut usize,
    ) -> u32;
    fn chhutirok_idle(
        state: *mut u8,
        state_length: usize,
        random: *const u8,
        random_length: usize,
        output: *mut u8,
        output_length: usize,
        length: *mut usize,
    ) -> u32;
    fn chhutirok_sleep(
        state: *mut u8,
        state_length: usize,
        random: *const u8,
        random_length: usize,
        output: *mut u8,
        output_length: usize,
        length: *mut usize,
    ) -> u32;
    fn chhutirok_block(
        state: *mut u8,
        state_length: usize,
        block: *const u8,
        block_length: usize,
        random: *const u8,
        random_length: usize,
        output: *mut u8,
        output_length: usize,
        length: *mut usize,
    ) -> u32;
}

/// What a call gives beside the bytes that it leaves: its number and the answer's length.
#[derive(Clone, Copy, Debug, PartialEq, Eq)]
pub struct Reply {
    pub number: u32,
    pub length: usize,
}

pub fn fresh(image: &[u8], state: &mut [u8]) -> u32 {
    // SAFETY: each pointer goes with the length of its own slice; the callee keeps none of them.
    unsafe { chhutirok_fresh(image.as_ptr(), image.len(), state.as_mut_ptr(), state.len()) }
}

pub fn event(event: Event, state: &mut [u8], random: &[u8], output: &mut [u8]) -> Reply {
    // No length that an answer has, so that a callee which leaves it alone is seen.
    let mut length = usize::MAX;
    let (s, s_length) = (state.as_mut_ptr(), state.len());
    let (r, r_length) = (random.as_ptr(), random.len());
    let (o, o_length) = (output.as_mut_ptr(), output.len());
    let l = &mut length;
    // SAFETY: each pointer goes with the length of its own slice, and no two slices overlap; the callee keeps none of them.
    let number = unsafe {
        match event {
            Event::Wake => chhutirok_wake(s, s_length, r, r_length, o, o_length, l),
            Event::Idle => chhutirok_idle(s, s_length, r, r_length, o, o_length, l),
            Event::Sleep => chhutirok_sleep(s, s_length, r, r_length, o, o_length, l),
            Event::Block(block) => {
                let (b, b_length) = (block.as_ptr(), block.len());
                chhutirok_block(s, s_length, b, b_length, r, r_length, o, o_length, l)
            }
        }
    };
    Reply { number, length }
}
