//! Near misses: a chain with one thing wrong.

use crate::generate::Step;
use crate::host;
use crate::random::Random;

/// Spoils one block of the chain, the last one more often than not: what the others prepare is then right.
pub fn spoil(steps: &mut Vec<Step>, random: &mut Random) {
    let blocks: Vec<usize> = (0..steps.len()).filter(|&at| matches!(steps[at], Step::Block { .. })).collect();
    let Some(&last) = blocks.last() else { return };
    let at = if random.once_in(3) { random.pick(&blocks) } else { last };
    if random.once_in(5) {
        interrupt(steps, at, random);
        return;
    }
    if random.once_in(16) {
        steps.insert(at, steps[at].clone());
        return;
    }
    let Step::Block { bytes, .. } = &mut steps[at] else { return };
    match random.below(8) {
        0..=2 => change_field(bytes, random),
        3..=4 => change_data(bytes, random),
        5..=6 => change_length(bytes, random),
        _ => damage(bytes, random),
    }
}

/// One bit of opcode, Param1 or Param2; the block stays whole.
fn change_field(bytes: &mut [u8], random: &mut Random) {
    if bytes.len() < 7 {
        return;
    }
    let field = random.pick(&[1, 2, 2, 2, 3, 3, 4]);
    bytes[field] ^= 1 << random.below(8);
    host::refit(bytes);
}

/// One bit of a byte of data; the block stays whole.
fn change_data(bytes: &mut [u8], random: &mut Random) {
    if bytes.len() < 8 {
        return change_field(bytes, random);
    }
    let at = 5 + random.below(bytes.len() - 7);
    bytes[at] ^= 1 << random.below(8);
    host::refit(bytes);
}

/// More or less data, or as much as another command takes; the block stays whole, if it is not too long to be one.
fn change_length(bytes: &mut Vec<u8>, random: &mut Random) {
    if bytes.len() < 7 {
        return;
    }
    let data = bytes.len() - 7;
    let length = match random.below(6) {
        0 => data + 1,
        1 => data.saturating_sub(1),
        2 => (data + 4).min(80),
        3 => data.saturating_sub(4),
        4 => data ^ 32,
        _ => random.pick(&[0, 4, 20, 32, 64, 77, 78]),
    };
    bytes.truncate(5 + data.min(length));
    let more = random.bytes(7 + length - bytes.len());
    bytes.extend(more);
    host::refit(bytes);
}

/// A block that is no longer whole.
fn damage(bytes: &mut Vec<u8>, random: &mut Random) {
    match random.below(6) {
        0..=1 if !bytes.is_empty() => {
            let at = random.below(bytes.len());
            bytes[at] ^= 1 << random.below(8);
        }
        2 => bytes.truncate(random.below(bytes.len() + 1)),
        3 if bytes.len() < 250 => bytes.push(random.byte()),
        // The count wrong, the check value right for it.
        4 if bytes.len() >= 7 => {
            bytes[0] ^= 1 << random.below(7);
            let body = bytes.len() - 2;
            let check = crate::engine::check_value(&bytes[..body]).to_le_bytes();
            bytes[body..].copy_from_slice(&check);
        }
        // Too short or too long, count and check value right.
        _ => {
            bytes.resize(random.pick(&[2, 3, 4, 5, 6, 85, 86, 255]), 0);
            host::refit(bytes);
        }
    }
}

/// Something comes in between: TempKey may be gone, or the token not Awake.
fn interrupt(steps: &mut Vec<Step>, at: usize, random: &mut Random) {
    let between = match random.below(8) {
        0 => vec![Step::Sleep, Step::Wake],
        1 => vec![Step::Idle, Step::Wake],
        2 => vec![Step::Wake],
        3 => vec![Step::Sleep],
        4 => vec![Step::Idle],
        _ => vec![Step::Block { bytes: other_block(random), random: random.array() }],
    };
    steps.splice(at..at, between);
}

/// A block that has nothing to do with the chain: accepted, refused or damaged.
fn other_block(random: &mut Random) -> Vec<u8> {
    match random.below(6) {
        0 => host::block(0x30, 0, 0, &[]),
        1 => host::block(0x1B, 0, 0, &[]),
        2 => host::block(0x02, 0, 5, &[]),
        3 => host::block(0x20, 0, 7, &[]),
        4 => host::block(0x47, 0, 0, &[]),
        _ => vec![0x07, 0x30, 0x00, 0x00, 0x00, 0x03, 0x5E],
    }
}
