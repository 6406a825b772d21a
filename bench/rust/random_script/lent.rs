//! Random calls of the lent session, on rows of every length that matters, and runs of them.

use super::{length, openings, words_of, Script};
use crate::numbers::Numbers;
use crate::planner::devices::DEVICES;
use crate::planner::model::rules::front;
use crate::planner::{LentCalls, LIST};
use crate::transcript::calls::Bench;
use crate::transcript::{bench_on, faults, own_adds};

/// How many rows are lent: mostly few; and those around the bounds of a queue, of what can be lent, and of the notation.
const LENGTHS: [u64; 20] = [0, 1, 1, 2, 3, 3, 4, 5, 6, 8, 16, 17, 18, 64, 255, 256, 256, 257, 512, 513];
/// The lengths that no call takes.
const REFUSED_LENGTHS: [u64; 4] = [0, 257, 300, 512];

/// What the lent calls are drawn for: any device, mostly with all of its counters.
pub fn bench(mut numbers: Numbers, odd: u64) -> Bench {
    let device = &DEVICES[numbers.below(DEVICES.len() as u64) as usize];
    let any = numbers.below(device.all()) + 1;
    let usable = numbers.pick(&[device.all(), device.all(), any]);
    let mut bench = bench_on(device, usable, odd, numbers);
    bench.tight = bench.numbers.chance(25);
    bench.ids = bench.numbers.pick(&[4, 30, 300]);
    bench
}

/// The words of a session's call as those of the same call of the lent one.
fn lent(mut words: Vec<String>) -> Vec<String> {
    words[0].insert(0, 'r');
    words
}

impl Script {
    pub fn waiting(&self) -> usize {
        front(&self.host.lent.rows)
    }

    /// From here on the host lends so many rows.
    fn lend(&mut self, count: u64) {
        self.put(&["rows".into(), count.to_string()]);
    }

    /// The numbers that a turn writes; as many as there may be where it is refused.
    fn lent_needed(&self) -> u64 {
        let mut copy = self.host.lent.clone();
        copy.session.turn(&mut copy.rows, &mut [0; LIST]).map_or(LIST, |turn| 2 * turn.writes) as u64
    }

    fn lent_turn(&mut self) -> Vec<String> {
        let needed = self.lent_needed();
        vec!["rturn".into(), length(&mut self.lent_bench.numbers, needed).to_string()]
    }

    fn lent_add(&mut self) -> Vec<String> {
        let odd = self.lent_bench.odd();
        let line = match self.lent_bench.numbers.chance(60) {
            _ if odd => faults::add(&mut self.lent_bench),
            true => self.lent_bench.add(),
            false => {
                let id = self.fresh_id();
                self.lent_bench.add_with(id)
            }
        };
        lent(words_of(&line))
    }

    /// Mostly of an id that waits.
    fn lent_drop(&mut self) -> Vec<String> {
        let ids: Vec<u64> = self.host.lent.rows.iter().map(|row| row.id).filter(|id| *id != 0).collect();
        match ids.is_empty() || self.lent_bench.numbers.chance(30) {
            true => lent(words_of(&self.lent_bench.drop())),
            false => vec!["rdrop".into(), self.lent_bench.numbers.pick(&ids).to_string()],
        }
    }

    fn lent_call(&mut self) -> Vec<String> {
        match self.lent_bench.numbers.below(16) {
            0 => lent(openings::second(&mut self.lent_bench)),
            1..=6 => self.lent_add(),
            7..=9 => self.lent_drop(),
            _ => self.lent_turn(),
        }
    }

    /// Calls that get a number for their own sake, which the broken rows hide.
    fn hidden_call(&mut self) -> Vec<String> {
        let calls = ["radd 0 event C0 00 1", "radd 65536 packet 0 0 0", "rdrop 0", "rdrop 65536", "rturn 0", "rturn 11"];
        self.lent_bench.numbers.pick(&calls).split(' ').map(String::from).collect()
    }

    /// Breaks a rule, makes a few calls on what is broken, and mostly writes the rows as they were.
    fn broken_stretch(&mut self) {
        let before = self.host.lent.rows.clone();
        self.break_a_rule();
        for _ in 0..=self.lent_bench.numbers.below(4) {
            let words = if self.lent_bench.numbers.chance(25) { self.hidden_call() } else { self.lent_call() };
            self.put(&words);
        }
        if self.lent_bench.numbers.chance(90) {
            self.write_rows(&before);
        }
    }

    /// Lends any number of rows, and fills some of them.
    fn lend_others(&mut self) {
        let count = self.lent_bench.numbers.pick(&LENGTHS);
        self.lend(count);
        let (few, some) = (self.lent_bench.numbers.below(6), self.lent_bench.numbers.below(count + 1));
        let filled = self.lent_bench.numbers.pick(&[0, few, few, 17, some, count]);
        self.fill(filled as usize);
    }

    /// A call, an edit, or a few of them; rows that are left broken are soon given up for others.
    pub fn lent_step(&mut self) {
        match self.lent_bench.numbers.below(20) {
            0 => self.lend_others(),
            1..=4 if !self.rows_sound() => self.lend_others(),
            1 => self.fill(2),
            2..=4 => self.edit(),
            5..=7 => self.broken_stretch(),
            8 => self.odd_edit(),
            _ => {
                let words = self.lent_call();
                self.put_or_damage(words);
            }
        }
    }

    /// Mostly opens, after calls and openings that are refused, over rows that are vacant or not; then fills some rows.
    pub fn lend_and_open(&mut self) {
        while self.lent_bench.numbers.chance(25) {
            let words = self.lent_call();
            self.put_or_damage(words);
        }
        self.lend_others();
        if self.lent_bench.numbers.chance(30) {
            self.break_a_rule();
        }
        while self.lent_bench.numbers.chance(30) {
            let words = lent(openings::first(&mut self.lent_bench));
            self.put(&words);
        }
        if self.lent_bench.numbers.chance(10) {
            let count = self.lent_bench.numbers.pick(&REFUSED_LENGTHS);
            self.lend(count);
            self.lent_open();
            self.lend_others();
        }
        if self.lent_bench.numbers.chance(95) {
            self.lent_open();
            let few = self.lent_bench.numbers.below(8);
            self.fill(few as usize);
        }
    }

    fn lent_open(&mut self) {
        self.put(&lent(words_of(&self.lent_bench.own_open())));
    }

    /// A fresh lent session with so many rows.
    fn lent_afresh(&mut self, count: u64) {
        self.renew();
        self.lend(count);
        self.lent_open();
    }

    /// Full rows, and so many turns that each request comes round.
    pub fn lent_run(&mut self) {
        let count = self.lent_bench.numbers.pick(&[5, 16, 17, 64, 255, 256]);
        self.lent_afresh(count);
        self.fill(count as usize);
        for _ in 0..count + 2 {
            self.put(&["rturn".into(), LIST.to_string()]);
        }
    }

    /// As many adds as there is room for, and two more; each has a plan alone. After a drop there is room for one of them.
    pub fn lent_overfill(&mut self) {
        let count = self.lent_bench.numbers.pick(&[1, 2, 16, 17, 64, 255, 256, 256]);
        self.lent_afresh(count);
        let (code, mask) = self.lent_bench.device.pairs()[0];
        let usable = self.lent_bench.usable;
        let add = |id| lent(words_of(&format!("event\t{id}\t{code:02X}\t{mask:02X}\t{usable}")));
        (1..count + 3).for_each(|id| self.put(&add(id)));
        let dropped = self.lent_bench.numbers.below(count) + 1;
        self.put(&["rdrop".into(), dropped.to_string()]);
        (count + 1..count + 3).for_each(|id| self.put(&add(id)));
        own_adds(&self.lent_bench).iter().for_each(|line| self.put(&lent(words_of(line))));
    }
}
