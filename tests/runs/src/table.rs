//! What the generated blocks met: each opcode with each status, and the places that only a long chain reaches. A pair that a
//! command can give and a place that never came up are failures of the run: it tested less than it should.

use crate::engine::Token;
use crate::host::{config_locked, source_bit, uses_left, values_locked, SlotConfig};
use crate::tally::Tally;

/// The commands, and whether each can be refused with 0F.
const COMMANDS: [(u8, &str, bool); 11] = [
    (0x02, "Read", true),
    (0x08, "MAC", true),
    (0x12, "Write", true),
    (0x15, "GenDig", true),
    (0x16, "Nonce", false),
    (0x17, "Lock", true),
    (0x1B, "Random", false),
    (0x1C, "DeriveKey", true),
    (0x20, "UpdateExtra", true),
    (0x28, "CheckMac", true),
    (0x30, "DevRev", false),
];

const STATUSES: [&str; 5] = ["FF", "03", "0F", "01", "00/result"];
const DAMAGED: usize = 0;
const CONDITION: usize = 2;
const UNEQUAL: usize = 3;
const ACCEPTED: usize = 4;

/// A block that was answered, with the token before and after it.
struct Seen<'a> {
    before: &'a Token,
    after: &'a Token,
    block: &'a [u8],
    status: usize,
}

impl Seen<'_> {
    fn accepted(&self, opcode: u8) -> bool {
        self.status == ACCEPTED && self.block[1] == opcode
    }
    fn param1(&self) -> u8 {
        self.block[2]
    }
    fn param2(&self) -> u16 {
        u16::from_le_bytes([self.block[3], self.block[4]])
    }
    fn data_length(&self) -> usize {
        self.block.len() - 7
    }
    /// Of the key in Param2.
    fn key_config(&self) -> SlotConfig {
        SlotConfig::of(self.before, self.param2() as u8 & 15)
    }
    fn zone(&self) -> u8 {
        self.param1() & 3
    }
    /// Of the slot that a data address names.
    fn slot_config(&self) -> SlotConfig {
        SlotConfig::of(self.before, (self.param2() >> 3) as u8)
    }
    fn otp_read(&self, mode: u8) -> bool {
        self.accepted(0x02) && self.zone() == 1 && self.before.configuration[18] == mode
    }
    fn derived(&self, bits: u16) -> bool {
        self.accepted(0x1C) && self.key_config().0 & 0x9000 == bits
    }
    fn written(&self, zone: u8, locked: bool, length: usize) -> bool {
        self.accepted(0x12) && self.zone() == zone && values_locked(self.before) == locked && self.data_length() == length
    }
}

type Place = (&'static str, fn(&Seen) -> bool);

const PLACES: [Place; 39] = [
    ("Nonce 0 or 1, configuration locked", |s| s.accepted(0x16) && s.param1() < 2 && config_locked(s.before)),
    ("Nonce 0 or 1, configuration unlocked", |s| s.accepted(0x16) && s.param1() < 2 && !config_locked(s.before)),
    ("Nonce 3", |s| s.accepted(0x16) && s.param1() == 3),
    ("MAC of a slot and bytes in", |s| s.accepted(0x08) && s.param1() & 3 == 0),
    ("MAC of a slot and TempKey", |s| s.accepted(0x08) && s.param1() & 3 == 1),
    ("MAC of TempKey and bytes in", |s| s.accepted(0x08) && s.param1() & 3 == 2),
    ("MAC of TempKey twice", |s| s.accepted(0x08) && s.param1() & 3 == 3),
    ("CheckMac equal, with copy, Param1 01", |s| s.accepted(0x28) && s.param1() == 1 && s.after.temp_key.valid),
    ("CheckMac equal, with copy, Param1 05", |s| s.accepted(0x28) && s.param1() == 5 && s.after.temp_key.valid),
    ("CheckMac equal, without copy", |s| s.accepted(0x28) && !s.after.temp_key.valid),
    ("CheckMac equal, CheckFlag 1", |s| s.accepted(0x28) && s.param1() & 3 != 0 && s.before.temp_key.check_flag),
    ("CheckMac unequal where it would copy", |s| {
        let copies = s.param1() & 0xFB == 1 && SlotConfig::of(s.before, s.param2() as u8 & 15 | 1).read_key() == 0;
        s.status == UNEQUAL && copies && source_bit(s.before, s.param2() as u8 & 15) == (s.param1() == 5)
    }),
    ("GenDig configuration", |s| s.accepted(0x15) && s.param1() == 0),
    ("GenDig OTP", |s| s.accepted(0x15) && s.param1() == 1),
    ("GenDig data, Param2 up to 15", |s| s.accepted(0x15) && s.param1() == 2 && s.param2() < 16),
    ("GenDig data, Param2 16 to 7FFF", |s| s.accepted(0x15) && s.param1() == 2 && s.param2() > 15),
    ("GenDig data, CheckOnly", |s| s.accepted(0x15) && s.data_length() == 4),
    ("DeriveKey rolls without MAC", |s| s.derived(0x0000)),
    ("DeriveKey rolls with MAC", |s| s.derived(0x8000)),
    ("DeriveKey creates without MAC", |s| s.derived(0x1000)),
    ("DeriveKey creates with MAC", |s| s.derived(0x9000)),
    ("DeriveKey of a slot 8 to 15", |s| s.accepted(0x1C) && s.param2() & 8 != 0),
    ("DeriveKey, UpdateCount 255 to 0", |s| {
        let count = 53 + 2 * usize::from(s.param2() & 7);
        s.accepted(0x1C) && s.param2() & 8 == 0 && s.before.configuration[count] == 255
    }),
    ("Read configuration", |s| s.accepted(0x02) && s.zone() == 0),
    ("Read OTP, mode AA", |s| s.otp_read(0xAA)),
    ("Read OTP, mode 55", |s| s.otp_read(0x55)),
    ("Read OTP, mode 00", |s| s.otp_read(0x00)),
    ("Read data, clear", |s| s.accepted(0x02) && s.zone() == 2 && !s.slot_config().is_secret()),
    ("Read data, encrypted", |s| s.accepted(0x02) && s.zone() == 2 && s.slot_config().is_secret()),
    ("Write configuration", |s| s.accepted(0x12) && s.zone() == 0),
    ("Write data clear, values unlocked", |s| s.written(2, false, 32)),
    ("Write data encrypted, values unlocked", |s| s.written(2, false, 64)),
    ("Write OTP encrypted, values unlocked", |s| s.written(1, false, 64)),
    ("Write data clear, 4 bytes", |s| s.written(2, true, 4)),
    ("Write data encrypted, values locked", |s| s.written(2, true, 64)),
    ("Write OTP, mode 55, 4 and 32 bytes", |s| s.written(1, true, 4) || s.written(1, true, 32)),
    ("Lock configuration by its sum", |s| s.accepted(0x17) && s.param1() == 0),
    ("Lock values by their sum", |s| s.accepted(0x17) && s.param1() == 1),
    ("UpdateExtra of a nonzero Selector", |s| s.accepted(0x20) && s.param1() == 1 && s.before.configuration[85] != 0),
];

const LIMITED: [u8; 9] = [0, 1, 2, 3, 4, 5, 6, 7, 15];

pub struct Table {
    /// The last row is of other opcodes, and of blocks too short to hold one.
    pairs: [[u64; 5]; 12],
    unanswered: u64,
    places: [u64; PLACES.len()],
    last_uses: [u64; 9],
    refused_uses: [u64; 9],
}

impl Table {
    pub const EMPTY: Table =
        Table { pairs: [[0; 5]; 12], unanswered: 0, places: [0; PLACES.len()], last_uses: [0; 9], refused_uses: [0; 9] };

    pub fn count(&mut self, before: &Token, block: &[u8], answer: &[u8], after: &Token) {
        if answer.is_empty() {
            self.unanswered += 1;
            return;
        }
        let status = match (answer.len(), answer[1]) {
            (4, 0xFF) => DAMAGED,
            (4, 0x03) => 1,
            (4, 0x0F) => CONDITION,
            (4, 0x01) => UNEQUAL,
            _ => ACCEPTED,
        };
        let opcode = block.get(1);
        let row = COMMANDS.iter().position(|command| Some(&command.0) == opcode).unwrap_or(11);
        self.pairs[row][status] += 1;
        if status != DAMAGED {
            self.count_places(&Seen { before, after, block, status });
        }
    }

    fn count_places(&mut self, seen: &Seen) {
        for (count, (_, reached)) in self.places.iter_mut().zip(PLACES) {
            *count += u64::from(reached(seen));
        }
        let key = seen.param2() as u8 & 15;
        // A MAC that nothing but the missing use can refuse.
        let plain_mac = seen.block[1] == 0x08 && seen.param1() & 3 == 0 && !seen.key_config().check_only();
        let locked = config_locked(seen.before) && values_locked(seen.before);
        for (i, slot) in LIMITED.into_iter().enumerate() {
            let [left, then] = [seen.before, seen.after].map(|token| uses_left(token, slot));
            self.last_uses[i] += u64::from(left == Some(1) && then == Some(0));
            let refused = left == Some(0) && seen.status == CONDITION && plain_mac && locked && key == slot;
            self.refused_uses[i] += u64::from(refused);
        }
    }

    pub fn add(&mut self, other: &Table) {
        let pairs = self.pairs.iter_mut().flatten().zip(other.pairs.iter().flatten());
        let places = self.places.iter_mut().zip(&other.places);
        let last = self.last_uses.iter_mut().zip(&other.last_uses);
        let refused = self.refused_uses.iter_mut().zip(&other.refused_uses);
        for (count, more) in pairs.chain(places).chain(last).chain(refused) {
            *count += more;
        }
        self.unanswered += other.unanswered;
    }

    /// Prints the table; each pair and each place is a case.
    pub fn report(&self, tally: &mut Tally) {
        println!(
            "{:<14}{:>10}{:>10}{:>10}{:>10}{:>12}",
            "opcode", STATUSES[0], STATUSES[1], STATUSES[2], STATUSES[3], STATUSES[4]
        );
        let names = COMMANDS.map(|(opcode, name, _)| format!("{opcode:02X} {name}"));
        for (row, counts) in self.pairs.iter().enumerate() {
            let name = names.get(row).map_or("others", |name| name);
            print!("{name:<14}");
            for (status, &count) in counts.iter().enumerate() {
                let width = if status == ACCEPTED { 12 } else { 10 };
                let can = can_give(row, status);
                let shown = if can || count > 0 { count.to_string() } else { "-".to_string() };
                print!("{shown:>width$}");
                tally.case(can == (count > 0), || format!("{name} met {} {count} times", STATUSES[status]));
            }
            println!();
        }
        println!("blocks without an answer: {}", self.unanswered);
        let places = PLACES.iter().map(|place| place.0.to_string()).zip(self.places);
        let last = LIMITED.iter().map(|slot| format!("last use of slot {slot}")).zip(self.last_uses);
        let refused = LIMITED.iter().map(|slot| format!("no use left of slot {slot}")).zip(self.refused_uses);
        for (place, count) in places.chain(last).chain(refused) {
            println!("{count:>10}  {place}");
            tally.case(count > 0, || format!("never reached: {place}"));
        }
    }
}

/// Whether a command can give a status at all.
fn can_give(row: usize, status: usize) -> bool {
    let command = COMMANDS.get(row);
    match status {
        CONDITION => command.is_some_and(|command| command.2),
        UNEQUAL => command.is_some_and(|command| command.0 == 0x28),
        ACCEPTED => command.is_some(),
        _ => true,
    }
}
