//! Random calls as lines without their newline: in the grammar, mostly accepted, and refused when odd values are drawn.

use crate::numbers::Numbers;
use crate::planner::catalogue::Event;
use crate::planner::devices::{Device, Filters, Opening};
use crate::planner::requests::MASK_BITS;

/// What the calls are drawn for: the device and what it is opened with, how many ids there are, how many of a hundred fields
/// get an odd value, how many of a hundred calls are adds by a name, and the names that there are rows of. In a tight bench
/// requests get in each other's way: nested sets, few words, and those of latency requests.
pub struct Bench {
    pub numbers: Numbers,
    pub device: &'static Device,
    pub usable: u64,
    pub fixed: u64,
    pub box_number: u64,
    pub freeze: u64,
    pub core: Option<u64>,
    pub ids: u64,
    pub odd: u64,
    pub named: u64,
    pub names: Vec<String>,
    pub tight: bool,
}

/// Pairs that are not listed, or are listed on another device, or have a mask out of range.
const ODD_PAIRS: [(u8, u8); 21] = [
    (0xB7, 1),
    (0xB7, 2),
    (0, 0),
    (0x51, 0),
    (0x31, 0),
    (0x51, 4),
    (0x52, 1),
    (0x2E, 0),
    (0xC0, 1),
    (0x31, 0xFF),
    (0xFF, 0xFF),
    (0x2B, 3),
    (0x0B, 0),
    (0x0B, 5),
    (0x0E, 0),
    (0x0E, 1),
    (0x15, 1),
    (0x19, 1),
    (0xC0, 2),
    (0xCD, 1),
    (0xCD, 2),
];
const WORDS: [u64; 12] = [
    0x10001,
    0x10001,
    0x10002,
    0x18000,
    0x2_0000_0001,
    0x12_0000_0002,
    0x36_0000_FFBF,
    0x1FFBF,
    0x40001,
    0x40001,
    0x2_0004_0001,
    0x36_0004_FFBF,
];
/// Two words that latency requests of the types 1 and 2 have in RSP1, and two that none has.
const TIGHT_WORDS: [u64; 5] = [0x10001, 0x10001, 0x10002, 0x2_0000_0001, 0x40001];
/// Words with a reserved bit, no type, no response bit, bit 38, or bit 16 with an L2 hit or a snoop answer.
const ODD_WORDS: [u64; 19] = [
    0x10040,
    1,
    0,
    0x10000,
    0x2_0001_0001,
    0x40_0000_0001,
    0x40_0001_0001,
    0x8001_0001,
    0x76_0001_FFBF,
    0x8_0000_0001,
    0x8000_0000_0001_0001,
    u64::MAX,
    0x50001,
    0x36_0005_FFBF,
    0x40_0004_0001,
    0x40000,
    0x40040,
    0x60001,
    0xC0001,
];

/// So many of a hundred events are precise ones.
const PRECISE: u64 = 40;

/// The 32 lower bits of the mask's field, and the higher ones.
const MASKS: [u64; 2] = [0xFFFF_FFFF, 0x7F_0000_0000];
/// Masks with a bit outside the field, and at its ends some without.
const ODD_MASKS: [u64; 9] = [1, 1 << 38, MASK_BITS, 1 << 39, 1 << 40, 1 << 62, 1 << 63, u64::MAX << 32, u64::MAX];

/// The last two fields of an open, many of them refused or not in the grammar.
const ASKED: [&str; 20] = [
    "\t0\t-",
    "\t0\t-",
    "\t0\t-",
    "\t1\t-",
    "\t0\t0",
    "\t0\t7",
    "\t1\t3",
    "\t2\t-",
    "\t0\t8",
    "\t1\t99999",
    "\t99999\t-",
    "\t-\t-",
    "\t-\t0",
    "\t01\t-",
    "\t0\t03",
    "\t0\t-1",
    "\t0\t",
    "\t0\t-\t",
    "\t0",
    "",
];

impl Bench {
    pub fn odd(&mut self) -> bool {
        let odd = self.odd;
        self.numbers.chance(odd)
    }

    pub fn id(&mut self) -> u64 {
        match self.odd() {
            true => self.numbers.pick(&[0, 65535, 65536, 99999, 70000]),
            false => self.numbers.below(self.ids) + 1,
        }
    }

    pub fn set(&mut self) -> u64 {
        let all = self.device.all();
        if self.odd() {
            return self.numbers.pick(&[0, all + 1, 31, 63, 64, 255, 65535, 99999, all & !self.usable]);
        }
        if self.tight {
            return self.nested_set();
        }
        let sets = [all, all, self.usable, 1 << self.numbers.below(self.device.counters), self.numbers.below(all) + 1];
        self.numbers.pick(&sets)
    }

    /// The lowest or the highest of the counters, any number of them: the first to come had better leave the lowest.
    fn nested_set(&mut self) -> u64 {
        let all = self.device.all();
        let without = self.numbers.below(self.device.counters);
        self.numbers.pick(&[all >> without, all >> without, all << without & all])
    }

    /// A listed pair: every code as often as another, and every mask of a code; but many precise events where there are some.
    fn pair(&mut self) -> (u8, u8) {
        if self.device.has_precise() && self.numbers.chance(PRECISE) {
            let rows: Vec<(u8, u8)> = self.device.precise.iter().map(|row| (row.code, row.mask)).collect();
            return self.numbers.pick(&rows);
        }
        let listed = |event: &&Event| !event.masks.all().is_empty();
        let events: Vec<&Event> = self.device.events.iter().filter(listed).collect();
        let event = self.numbers.pick(&events);
        (event.code, self.numbers.pick(&event.masks.all()))
    }

    /// A pair that is mostly not listed: one of the odd ones, a listed code with any mask, or any code of the range of C.
    pub fn odd_pair(&mut self) -> (u8, u8) {
        let any = self.numbers.below(256) as u8;
        let mask = self.numbers.pick(&[0, 1, any]);
        match self.numbers.below(3) {
            0 => self.numbers.pick(&ODD_PAIRS),
            1 => (self.numbers.pick(self.device.events).code, mask),
            _ => (self.numbers.below(0x30) as u8, mask),
        }
    }

    pub fn event(&mut self, id: u64) -> String {
        let (code, mask) = match self.odd() {
            true => self.odd_pair(),
            false => self.pair(),
        };
        format!("event\t{id}\t{code:02X}\t{mask:02X}\t{}", self.set())
    }

    pub fn packet(&mut self, id: u64) -> String {
        let (asked, mask) = match (self.odd(), self.tight) {
            (true, _) => (self.numbers.below(1 << 53) << 11, self.numbers.pick(&ODD_MASKS)),
            (_, true) => (0x0123_4567_89AB_CDEF + self.numbers.pick(&[0, 0, 1]), MASK_BITS),
            _ => (0x0123_4567_89AB_CDEF + self.numbers.below(2), self.numbers.pick(&MASKS)),
        };
        format!("packet\t{id}\t{asked:016X}\t{mask:016X}\t{}", self.set())
    }

    pub fn offcore(&mut self, id: u64) -> String {
        let word = match (self.odd(), self.tight) {
            (true, _) => self.numbers.pick(&ODD_WORDS),
            (_, true) => self.numbers.pick(&TIGHT_WORDS),
            _ => self.numbers.pick(&WORDS),
        };
        format!("offcore\t{id}\t{word:016X}\t{}", self.set())
    }

    pub fn latency(&mut self, id: u64) -> String {
        let types = match (self.odd(), self.tight) {
            (true, _) => self.numbers.pick(&[0, 0x40, 0xFFFF, 0x41]),
            (_, true) => self.numbers.pick(&[1, 1, 2]),
            _ => self.numbers.pick(&[1, 1, 2, 0x8000, 0xFFBF]),
        };
        format!("latency\t{id}\t{types:04X}\t{}\t{}", self.set(), self.set())
    }

    /// A request of a kind that the device has, or in odd cases one of other filters.
    pub fn add_with(&mut self, id: u64) -> String {
        let filters = match (self.odd(), self.device.filters) {
            (false, own) => own,
            (true, Filters::OffcoreResponse) => Filters::PacketMatch,
            (true, Filters::PacketMatch) => Filters::OffcoreResponse,
            (true, Filters::Absent) => self.numbers.pick(&[Filters::OffcoreResponse, Filters::PacketMatch]),
        };
        match (self.numbers.below(4), filters) {
            (0, _) | (_, Filters::Absent) => self.event(id),
            (1, Filters::OffcoreResponse) if self.tight => self.offcore(id),
            (1, _) => self.event(id),
            (2, Filters::OffcoreResponse) => self.offcore(id),
            (_, Filters::OffcoreResponse) => self.latency(id),
            (_, Filters::PacketMatch) => self.packet(id),
        }
    }

    pub fn add(&mut self) -> String {
        let id = self.id();
        self.add_with(id)
    }

    pub fn drop(&mut self) -> String {
        format!("drop\t{}", self.id())
    }

    /// What the bench is opened with.
    pub fn opening(&self) -> Opening {
        let Bench { device, usable, fixed, box_number, freeze, core, .. } = *self;
        Opening { letter: device.letter as u64, usable, fixed, box_number, freeze, core }
    }

    /// The bench's own open.
    pub fn own_open(&self) -> String {
        open_line(self.opening())
    }

    /// A freeze that the device refuses.
    pub fn bad_freeze(&mut self) -> u64 {
        self.numbers.pick(if self.device.uncore { &[2, 3, 99999] } else { &[1, 2, 99999] })
    }

    /// A core that the device refuses.
    pub fn bad_core(&mut self) -> Option<u64> {
        Some(self.numbers.pick(if self.device.uncore { &[8, 9, 31, 99999] } else { &[0, 7, 8, 99999] }))
    }

    /// The bench's own open, or in odd cases one of another device, with other numbers, or with a field too few or too many.
    pub fn open(&mut self) -> String {
        if !self.odd() {
            return self.own_open();
        }
        let letter = self.numbers.pick(&['G', 'S', 'C', 'C', 'B', 'H']);
        let usable = self.numbers.pick(&[0, 7, 7, 16, 63, 64, 99999]);
        let fixed = self.numbers.pick(&["", "\t0", "\t0", "\t0", "\t1", "\t7", "\t8", "\t99999", "\t07", "\t-1"]);
        let box_number = self.numbers.pick(&["", "", "\t0", "\t1", "\t7", "\t8", "\t99999", "\t01", "\t", "\t0\t0"]);
        let asked = self.numbers.pick(&ASKED);
        format!("open\t{letter}\t{usable}{fixed}{box_number}{asked}")
    }
}

/// The line of an open; the box is a field where the device has several.
pub fn open_line(opening: Opening) -> String {
    let Opening { letter, usable, fixed, box_number, freeze, core } = opening;
    let line = format!("open\t{}\t{usable}\t{fixed}", letter as u8 as char);
    let core = core.map_or("-".into(), |core| core.to_string());
    match Device::named(letter).is_some_and(Device::has_boxes) {
        true => format!("{line}\t{box_number}\t{freeze}\t{core}"),
        false => format!("{line}\t{freeze}\t{core}"),
    }
}
