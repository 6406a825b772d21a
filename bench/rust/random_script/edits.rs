//! The host's edits of lent rows: sound ones, which start a new history, and those that break one of the rules.

use super::{damaged, entry_of, Script};
use crate::planner::devices::{Filters, Setup};
use crate::planner::model::{refusal_of, rules};
use crate::planner::pebs::Precise;
use crate::planner::requests::{Entry, Request, VACANT};
use crate::script::texts::record;

/// How often a request of some kind is drawn before another is taken in its place.
const TRIES: u64 = 40;

fn row_words(at: usize, row: &Entry) -> Vec<String> {
    format!("row {at} {}", record(row, ' ')).split(' ').map(String::from).collect()
}

impl Script {
    /// What the lent bench is opened with, as a setup.
    fn lent_setup(&self) -> Setup {
        Setup::of(self.lent_bench.opening()).expect("an opening")
    }

    pub fn rows_sound(&self) -> bool {
        rules::sound(self.lent_setup(), &self.host.lent.rows)
    }

    fn below(&mut self, limit: usize) -> usize {
        self.lent_bench.numbers.below(limit as u64) as usize
    }

    /// The host writes a record.
    fn write(&mut self, at: usize, row: Entry) {
        self.put(&row_words(at, &row));
    }

    /// An edit that is mostly not in the notation, or of a record that is not there.
    pub fn odd_edit(&mut self) {
        let (request, rows) = (self.sound_request(), self.host.lent.rows.len());
        let (at, outside) = (self.below(rows + 1), rows + self.below(3));
        let row = Entry { id: self.fresh_id(), request };
        let words = match self.below(4) {
            0 => row_words(outside, &row),
            1 => damaged(&mut self.lent_bench.numbers, vec!["rows".into(), rows.to_string()]),
            _ => damaged(&mut self.lent_bench.numbers, row_words(at, &row)),
        };
        self.put(&words);
    }

    /// The host writes the records that differ.
    pub fn write_rows(&mut self, rows: &[Entry]) {
        for (at, row) in rows.iter().enumerate() {
            if self.host.lent.rows.get(at) != Some(row) {
                self.write(at, *row);
            }
        }
    }

    /// An id that no row has.
    pub fn fresh_id(&mut self) -> u64 {
        loop {
            let ids = self.lent_bench.ids;
            let (few, any) = (self.lent_bench.numbers.below(ids) + 1, self.lent_bench.numbers.below(65535) + 1);
            let id = self.lent_bench.numbers.pick(&[few, few, any, 65535]);
            if self.host.lent.rows.iter().all(|row| row.id != id) {
                return id;
            }
        }
    }

    /// A request of the bench with this share of odd fields that passes the test.
    fn request_with(&mut self, odd: u64, test: impl Fn(Setup, Request) -> bool) -> Option<Request> {
        let (setup, own) = (self.lent_setup(), self.lent_bench.odd);
        self.lent_bench.odd = odd;
        let drawn = (0..TRIES).find_map(|_| {
            let request = entry_of(&self.lent_bench.add_with(1))?.request;
            test(setup, request).then_some(request)
        });
        self.lent_bench.odd = own;
        drawn
    }

    /// A listed event for these counters that may run on any of them.
    fn event(&mut self, allowed: u64) -> Request {
        let (code, mask) = self.lent_bench.numbers.pick(&self.lent_bench.device.plain_pairs());
        Request::Event { code, mask, allowed }
    }

    fn sound_request(&mut self) -> Request {
        let sound = |setup, request| rules::sound(setup, &[Entry { id: 1, request }]);
        match self.request_with(0, sound) {
            Some(request) => request,
            None => self.event(self.lent_bench.usable),
        }
    }

    /// A request that add would refuse, with each number as often as another where the device has it.
    fn ill_formed_request(&mut self) -> Request {
        let number = 7 + self.below(5) as u8;
        let refused = |setup: Setup, request| refusal_of(setup.device, request).is_some_and(|refusal| refusal.number == number);
        self.request_with(40, refused).unwrap_or(Request::Event { code: 0xFF, mask: 0xFF, allowed: 1 })
    }

    /// A well-formed request for counters that are not usable, or for the same one twice.
    fn request_without_plan(&mut self) -> Request {
        let others = self.lent_setup().others();
        let one = 1 << self.below(4);
        match (self.lent_bench.device.filters, self.below(3)) {
            (Filters::OffcoreResponse, 0) => Request::Latency { types: 1, first: one, second: one },
            (Filters::OffcoreResponse, 1) => Request::Offcore { word: 0x10001, allowed: others },
            (Filters::PacketMatch, 0) => Request::Packet { match_word: 0, mask_word: 0, allowed: others },
            (Filters::Absent, 0 | 1) if self.lent_bench.device.has_precise() => self.precise_elsewhere(),
            _ => self.event(others),
        }
    }

    /// A precise event on every counter but its own.
    fn precise_elsewhere(&mut self) -> Request {
        let rows: Vec<&Precise> = self.lent_bench.device.precise.iter().collect();
        let Precise { code, mask, counter, .. } = *self.lent_bench.numbers.pick(&rows);
        Request::Event { code, mask, allowed: self.lent_bench.device.all() & !(1 << counter) }
    }

    /// So many sound requests: of a few kinds, or half of them on one counter, mixed or those first.
    fn sound_requests(&mut self, count: usize) -> Vec<Request> {
        let few: Vec<Request> = (0..=self.below(4)).map(|_| self.sound_request()).collect();
        let usable = self.lent_bench.usable;
        let halves = [self.event(usable & usable.wrapping_neg()), self.event(usable)];
        let kind = self.below(5);
        let request = |at| match kind {
            0 => self.lent_bench.numbers.pick(&halves),
            1 => halves[2 * at / count],
            _ => self.lent_bench.numbers.pick(&few),
        };
        (0..count).map(request).collect()
    }

    /// Sound records for so many more, as far as there is room.
    pub fn fill(&mut self, count: usize) {
        let (start, room) = (self.waiting(), self.host.lent.rows.len());
        let requests = self.sound_requests(count.min(room - start));
        for (at, request) in (start..).zip(requests) {
            let id = self.fresh_id();
            self.write(at, Entry { id, request });
        }
    }

    /// A sound edit of sound rows.
    pub fn edit(&mut self) {
        let (mut rows, count) = (self.host.lent.rows.clone(), self.waiting());
        if count == 0 {
            return self.fill(3);
        }
        let (at, other) = (self.below(count), self.below(count));
        match self.below(7) {
            0 => rows.swap(at, other),
            1 => rows[at].request = self.sound_request(),
            2 => rows[at].id = self.fresh_id(),
            3 => rows[count - 1] = VACANT,
            4 => {
                rows[at..count].rotate_left(1);
                rows[count - 1] = VACANT;
            }
            5 => rows[..count].rotate_left(at),
            _ => rows.fill(VACANT),
        }
        self.write_rows(&rows);
    }

    /// A record with id 0 that is not all 0: one number of an event, or another kind.
    fn odd_vacant(&mut self) -> Entry {
        let number = 1 << self.below(8);
        let requests = [
            Request::Event { code: number as u8, mask: 0, allowed: 0 },
            Request::Event { code: 0, mask: number as u8, allowed: 0 },
            Request::Event { code: 0, mask: 0, allowed: number },
            Request::Packet { match_word: 0, mask_word: 0, allowed: 0 },
            Request::Offcore { word: 0, allowed: 0 },
            Request::Latency { types: 0, first: 0, second: 0 },
        ];
        Entry { id: 0, request: self.lent_bench.numbers.pick(&requests) }
    }

    /// Breaks one of the rules; where there are no rows there is nothing to break.
    pub fn break_a_rule(&mut self) {
        if self.waiting() < 2 {
            self.fill(2);
        }
        let (mut rows, count) = (self.host.lent.rows.clone(), self.waiting());
        if count == 0 {
            return;
        }
        let (at, behind) = (self.below(count), count + self.below(rows.len() - count + 1));
        match self.below(10) {
            0 if at > 0 => rows[at].id = rows[at - 1].id,
            1 if count > 1 => rows[count - 1].id = rows[0].id,
            2 if at > 0 => rows[at - 1] = VACANT,
            3 if behind + 1 < rows.len() => rows[behind + 1] = Entry { id: self.fresh_id(), request: self.sound_request() },
            4 => rows[at].id = 0,
            5 => rows[at].request = self.ill_formed_request(),
            6 => rows[at].request = self.request_without_plan(),
            7 | 8 => {
                let last = rows.len() - 1;
                rows[behind.min(last)] = self.odd_vacant();
            }
            _ => {
                let id = rows[at].id;
                rows[at].id = self.lent_bench.numbers.pick(&[65536, 65537, 65536 + id, 1 << 32, (1 << 32) + id, u64::MAX]);
            }
        }
        self.write_rows(&rows);
    }
}
