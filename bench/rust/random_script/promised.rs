//! Runs for the promises of waiting: queues in which most are events that allow all usable counters.

use super::{words_of, Script};
use crate::planner::LIST;

impl Script {
    /// A fresh session, its own or a lent one of so many records, with calls that are mostly adds of free events, and turns.
    pub fn waiting_run(&mut self) {
        self.renew();
        let lent = self.bench.numbers.chance(50);
        if lent {
            let count = self.bench.numbers.pick(&[17, 32, 64]);
            self.put(&["rows".into(), count.to_string()]);
        }
        self.put_on(lent, words_of(&self.bench.own_open()));
        let turns = self.bench.numbers.pick(&[15, 30, 45]);
        for id in 1..40 + self.bench.numbers.below(40) {
            let words = match self.bench.numbers.below(100) {
                percent if percent < turns => vec!["turn".into(), LIST.to_string()],
                percent if percent < turns + 5 && !lent => self.few_turns(),
                percent if percent < turns + 10 => vec!["drop".into(), (self.bench.numbers.below(id) + 1).to_string()],
                percent if percent < turns + 20 => words_of(&self.bench.add_with(id)),
                _ => self.free_event(id),
            };
            self.put_on(lent, words);
        }
    }

    /// Puts a call of the session or the same of the lent one.
    fn put_on(&mut self, lent: bool, mut words: Vec<String>) {
        if lent {
            words[0].insert(0, 'r');
        }
        self.put(&words);
    }

    fn few_turns(&mut self) -> Vec<String> {
        let count = self.bench.numbers.below(4);
        ["turns".into(), count.to_string(), (count as usize * LIST).to_string(), count.to_string()].into()
    }

    /// An event that allows all usable counters, and sometimes others.
    fn free_event(&mut self, id: u64) -> Vec<String> {
        let (code, mask) = self.bench.numbers.pick(&self.bench.device.plain_pairs());
        let others = self.bench.numbers.below(self.bench.device.all() + 1);
        let allowed = self.bench.usable | self.bench.numbers.pick(&[0, others]);
        words_of(&format!("event\t{id}\t{code:02X}\t{mask:02X}\t{allowed}"))
    }
}
