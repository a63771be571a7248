//! Images of tokens: random ones, leaning towards configurations that mean something, in every lock state.

use crate::layout::IMAGE_LENGTH;
use crate::random::Random;

pub fn image(random: &mut Random) -> [u8; IMAGE_LENGTH] {
    let mut image: [u8; IMAGE_LENGTH] = random.array();
    image[18] = match random.below(8) {
        0..=2 => 0x55,
        3..=4 => 0xAA,
        5..=6 => 0x00,
        _ => random.byte(),
    };
    image[19] = random.pick(&[0x00, 0x00, 0x01, 0xFF]);
    for slot in 0..16 {
        image[20 + 2 * slot..][..2].copy_from_slice(&slot_config(random).to_le_bytes());
    }
    for slot in 0..8 {
        image[52 + 2 * slot] = use_flag(random);
        image[53 + 2 * slot] = random.pick(&[0x00, 0x07, 0xFE, 0xFF]);
    }
    image[68..84].copy_from_slice(&last_key_use(random));
    image[84] = random.pick(&[0x00, 0x01]);
    image[85] = random.pick(&[0x00, 0x00, 0x01]);
    // A key of zeros and two keys alike are worth a look: a slot taken for another would not show elsewhere.
    if random.once_in(8) {
        image[152..].fill(random.pick(&[0x00, 0x00, 0xFF]));
    }
    let [lock_value, lock_config] = lock_bytes(random);
    image[86] = lock_value;
    image[87] = lock_config;
    image
}

/// Both zones locked, half locked (the half that only an image can hold too) and unlocked. Every byte but 55 is locked.
fn lock_bytes(random: &mut Random) -> [u8; 2] {
    let locked = |random: &mut Random| random.pick(&[0x00, 0x00, 0x00, 0xAA, 0x54, 0x5D, 0xFF]);
    match random.below(16) {
        0..=8 => [locked(random), locked(random)],
        9..=12 => [0x55, locked(random)],
        13..=14 => [0x55, 0x55],
        _ => [locked(random), 0x55],
    }
}

/// A SlotConfig: any at all, or one field after the other with the values that open a command.
pub fn slot_config(random: &mut Random) -> u16 {
    if random.once_in(8) {
        return random.word();
    }
    let write_config = match random.below(8) {
        0 => 0b0000,
        1..=2 => 0b0100,
        3..=5 => 0b0010 | random.pick(&[0, 0b1000]) | random.pick(&[0, 0b0001]),
        _ => random.below(16) as u16,
    };
    let write_key = random.below(16) as u16;
    let reads = random.pick(&[0b00, 0b00, 0b11, 0b11, 0b10, 0b10, 0b01]);
    let limited_use = u16::from(random.once_in(3));
    let check_only = u16::from(random.once_in(6));
    let read_key = if random.once_in(3) { 0 } else { random.below(16) as u16 };
    write_config << 12 | write_key << 8 | reads << 6 | limited_use << 5 | check_only << 4 | read_key
}

/// Few uses more often than many, so that they run out.
fn use_flag(random: &mut Random) -> u8 {
    match random.below(8) {
        0 => 0x00,
        1 => 0xFF,
        2..=4 => 1 << random.below(8),
        5 => 0x03,
        _ => random.byte(),
    }
}

fn last_key_use(random: &mut Random) -> [u8; 16] {
    let mut uses = [0; 16];
    match random.below(8) {
        0 => uses.fill(0xFF),
        1 => uses = random.array(),
        2 => {}
        _ => {
            for _ in 0..=random.below(3) {
                uses[random.below(16)] |= 1 << random.below(8);
            }
        }
    }
    uses
}
