//! How often each answer was given to a `named` line, how many of them there were of each kind, and how many were refused by
//! each damage of a list.

use crate::named_kinds::{Looked, KINDS};
use crate::planner::model::Session;
use crate::transcript::list_damage::DAMAGES;
use crate::transcript::lists::DrawnLists;

/// What a `named` line in the grammar can get, `ok` as 0.
const ANSWERS: [usize; 11] = [0, 1, 2, 4, 5, 7, 8, 9, 10, 12, 13];

pub struct NamedTally {
    answers: [u64; ANSWERS.len()],
    kinds: [u64; KINDS.len()],
    damages: [u64; DAMAGES.len()],
}

impl NamedTally {
    pub fn new() -> NamedTally {
        NamedTally { answers: [0; ANSWERS.len()], kinds: [0; KINDS.len()], damages: [0; DAMAGES.len()] }
    }

    /// Counts a line with this name that is in the grammar, with the session before it; its answer is 0 for `ok`.
    pub fn count(&mut self, session: &Session, lists: &DrawnLists, name: &[u8], answer: usize) {
        let at = ANSWERS.iter().position(|number| *number == answer);
        self.answers[at.expect("an answer to a named line")] += 1;
        let looked = Looked::at(session, &lists.texts, name, answer);
        for (kind, (_, test)) in KINDS.iter().enumerate() {
            self.kinds[kind] += test(&looked) as u64;
        }
        if let (1, Some(damage)) = (answer, lists.damage) {
            self.damages[damage] += 1;
        }
    }

    pub fn print(&self) {
        let answers: Vec<String> = ANSWERS.iter().zip(self.answers).map(|(number, n)| format!("{number}: {n}")).collect();
        println!("named lines, 0 for ok: {}", answers.join(", "));
        for (name, count) in self.rows() {
            println!("{name:46}{count:>8}");
        }
    }

    fn rows(&self) -> impl Iterator<Item = (&str, u64)> {
        let kinds = KINDS.iter().zip(self.kinds).map(|((name, _), count)| (*name, count));
        kinds.chain(DAMAGES.iter().zip(self.damages).map(|((name, _), count)| (*name, count)))
    }

    /// Every answer was given, and there was every kind and every damage.
    pub fn nothing_missed(&self) {
        for (number, count) in ANSWERS.iter().zip(self.answers) {
            assert!(count > 0, "never the answer to a named line: {number}");
        }
        for (name, count) in self.rows() {
            assert!(count > 0, "never in a named line: {name}");
        }
    }
}
