//! The devices of document 01 and of the orders 3 and 12, a row each: whatever tells one from another stands in this table.

use super::catalogue::{self, ByCode, Event};
use super::pebs::{self, Precise};
use super::refusal::Refusal;
use super::u_box;

/// The filter registers of a device, and with them the requests that need them.
#[derive(Clone, Copy, PartialEq, Eq, Debug)]
pub enum Filters {
    /// MSR_OFFCORE_RSP0 and RSP1, for offcore and latency requests.
    OffcoreResponse,
    /// S_MSR_MM_CFG, MATCH and MASK, for packet requests.
    PacketMatch,
    /// None: events alone.
    Absent,
}

/// The control, counter and global registers; those of counter k lie k steps after those of counter 0.
#[derive(Clone, Copy, Debug)]
pub struct Addresses {
    pub global: u64,
    pub control: u64,
    pub counter: u64,
    pub step: u64,
}

#[derive(Debug)]
pub struct Device {
    pub letter: u8,
    pub counters: u64,
    /// The bits of an event word that let it count.
    pub enable: u64,
    pub filters: Filters,
    /// The highest number for the enables of its fixed counters; 0 where it has none.
    pub fixed: u64,
    /// The addresses in box 0.
    pub addresses: Addresses,
    /// How far the addresses of each box lie behind those of box 0; a device that is no box has box 0 alone.
    pub boxes: &'static [u64],
    pub events: &'static [Event],
    pub by_code: &'static ByCode,
    /// Whether its counters are the uncore's, whose U-Box can freeze them and interrupt a core on an overflow.
    pub uncore: bool,
    /// Whether a pair that is not listed gets 8; otherwise only a code does, and a mask gets 9 or 10.
    pub listed_by_pair: bool,
    /// The events that run on one counter only. Where there are some, the register that enables them is the session's.
    pub precise: &'static [Precise],
}

pub static DEVICES: [Device; 4] = [
    Device {
        letter: b'G',
        counters: 4,
        enable: 0x430000,
        filters: Filters::OffcoreResponse,
        fixed: 7,
        addresses: Addresses { global: 0x38F, control: 0x186, counter: 0xC1, step: 1 },
        boxes: &[0],
        events: catalogue::G,
        by_code: &catalogue::G_BY_CODE,
        uncore: false,
        listed_by_pair: true,
        precise: &[],
    },
    Device {
        letter: b'S',
        counters: 4,
        enable: 0x400000,
        filters: Filters::PacketMatch,
        fixed: 0,
        addresses: Addresses { global: 0xC40, control: 0xC50, counter: 0xC51, step: 2 },
        boxes: &[0],
        events: catalogue::S,
        by_code: &catalogue::S_BY_CODE,
        uncore: true,
        listed_by_pair: false,
        precise: &[],
    },
    Device {
        letter: b'C',
        counters: 6,
        enable: 0x400000,
        filters: Filters::Absent,
        fixed: 0,
        addresses: Addresses { global: 0xD00, control: 0xD10, counter: 0xD11, step: 2 },
        boxes: &[0x00, 0x80, 0x40, 0xC0, 0x20, 0xA0, 0x60, 0xE0],
        events: catalogue::C,
        by_code: &catalogue::C_BY_CODE,
        uncore: true,
        listed_by_pair: false,
        precise: &[],
    },
    Device {
        letter: b'B',
        counters: 4,
        enable: 0x430000,
        filters: Filters::Absent,
        fixed: 7,
        addresses: Addresses { global: 0x38F, control: 0x186, counter: 0xC1, step: 1 },
        boxes: &[0],
        events: catalogue::B,
        by_code: &catalogue::B_BY_CODE,
        uncore: false,
        listed_by_pair: true,
        precise: pebs::SANDY_BRIDGE,
    },
];

impl Device {
    /// The device with this letter, over the calls the number of its ASCII code.
    pub fn named(letter: u64) -> Option<&'static Device> {
        DEVICES.iter().find(|device| device.letter as u64 == letter)
    }

    /// The set of all its counters.
    pub fn all(&self) -> u64 {
        (1 << self.counters) - 1
    }

    /// Whether an open line names the box.
    pub fn has_boxes(&self) -> bool {
        self.boxes.len() > 1
    }

    /// Whether some of its events are precise.
    pub fn has_precise(&self) -> bool {
        !self.precise.is_empty()
    }

    /// Every pair that is listed, in the table's order.
    pub fn pairs(&self) -> Vec<(u8, u8)> {
        self.events.iter().flat_map(|event| event.masks.all().into_iter().map(move |mask| (event.code, mask))).collect()
    }

    /// Those that run on any counter.
    pub fn plain_pairs(&self) -> Vec<(u8, u8)> {
        let precise = |pair: &(u8, u8)| self.precise.iter().any(|row| (row.code, row.mask) == *pair);
        self.pairs().into_iter().filter(|pair| !precise(pair)).collect()
    }

    /// The number that refuses an event's code and mask.
    pub fn event_refusal(&self, code: u8, mask: u8) -> Option<u64> {
        self.row_refusal(self.by_code[code as usize].as_ref(), mask)
    }

    /// The same by the code's row: 8, or for a mask that is not listed 9 where it is 0 and otherwise 10.
    pub fn row_refusal(&self, row: Option<&Event>, mask: u8) -> Option<u64> {
        match row {
            Some(event) if event.masks.has(mask) => None,
            Some(_) if !self.listed_by_pair => Some(if mask == 0 { 9 } else { 10 }),
            _ => Some(8),
        }
    }
}

/// What open and the reader are given: the device's letter, the usable set, the enables of the fixed counters, the box, and
/// what an overflow shall do: whether it freezes all uncore counting (1 or 0), and the core that it interrupts. The fields of
/// the line of an open stand in this order behind the verb; where the device has one box alone the line does not name it.
#[derive(Clone, Copy, PartialEq, Eq, Debug)]
pub struct Opening {
    pub letter: u64,
    pub usable: u64,
    pub fixed: u64,
    pub box_number: u64,
    pub freeze: u64,
    pub core: Option<u64>,
}

/// What an accepted open was given.
#[derive(Clone, Copy, Debug)]
pub struct Setup {
    pub device: &'static Device,
    pub usable: u64,
    pub fixed: u64,
    pub box_number: u64,
    pub freeze: u64,
    pub core: Option<u64>,
}

impl Opening {
    /// An opening that asks nothing of an overflow.
    pub fn plain(letter: u64, usable: u64, fixed: u64, box_number: u64) -> Opening {
        Opening { letter, usable, fixed, box_number, freeze: 0, core: None }
    }

    /// 7 where something is asked of a device that is not the uncore's; 10 for a freeze that is not 0 or 1, or a core too high.
    /// The freeze and the core stand behind the box where the device has several.
    fn asking_refusal(&self, device: &Device) -> Option<Refusal> {
        let asks = self.freeze != 0 || self.core.is_some();
        let freeze = if device.has_boxes() { 5 } else { 4 };
        if !device.uncore {
            asks.then_some(Refusal::whole(7))
        } else if self.freeze > 1 {
            Some(Refusal::at(10, freeze))
        } else if self.core.is_some_and(|core| core >= u_box::CORES) {
            Some(Refusal::at(10, freeze + 1))
        } else {
            None
        }
    }
}

/// Where the enables of the fixed counters stand in IA32_PERF_GLOBAL_CTRL: bits 32 to 34.
const FIXED_PLACE: u64 = 32;

impl Setup {
    /// Refuses with 3: a device that is not there, a usable set that is empty or has a counter too many, or a fixed counter
    /// or a box that the device does not have. What is asked of an overflow is looked at after that.
    pub fn of(opening: Opening) -> Result<Setup, Refusal> {
        let Opening { letter, usable, fixed, box_number, freeze, core } = opening;
        let device = Device::named(letter).ok_or(Refusal::at(3, 1))?;
        if usable == 0 || usable > device.all() {
            return Err(Refusal::at(3, 2));
        }
        if fixed > device.fixed {
            return Err(Refusal::at(3, 3));
        }
        if box_number >= device.boxes.len() as u64 {
            return Err(Refusal::at(3, 4));
        }
        match opening.asking_refusal(device) {
            None => Ok(Setup { device, usable, fixed, box_number, freeze, core }),
            Some(refusal) => Err(refusal),
        }
    }

    /// The addresses in the session's box.
    pub fn addresses(&self) -> Addresses {
        let Addresses { global, control, counter, step } = self.device.addresses;
        let offset = self.device.boxes[self.box_number as usize];
        Addresses { global: global + offset, control: control + offset, counter: counter + offset, step }
    }

    /// The counters that belong to somebody else.
    pub fn others(&self) -> u64 {
        self.device.all() & !self.usable
    }

    /// The global control value where these counters of ours count: the others' enables and the fixed ones stay.
    pub fn global(&self, used: u64) -> u64 {
        self.fixed << FIXED_PLACE | self.others() | used
    }

    /// Whether an overflow shall do something.
    pub fn asks(&self) -> bool {
        self.freeze != 0 || self.core.is_some()
    }

    /// The bits of every event word of the session: with pmi_en where an overflow shall do something.
    pub fn enable(&self) -> u64 {
        match self.asks() {
            true => self.device.enable | u_box::PMI_EN,
            false => self.device.enable,
        }
    }

    /// What a turn leaves in the U-Box register; nothing where that stays with the host.
    pub fn u_box(&self) -> Option<u64> {
        self.asks().then(|| u_box::value(self.freeze, self.core))
    }
}
