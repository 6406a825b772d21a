//! How often each call of a script got each answer, with its field, and how many shifts of turns, calls of the feed and calls on
//! lent rows there were of each kind; and the promises of waiting, held to every script.

mod feeds;
mod lent;
mod promises;
mod shifts;

use crate::answer_tally::{AnswerTally, Answers};
use crate::planner::model::rules::RULES;
use crate::planner::model::Session;
use crate::script::Host;
use feeds::{FedCall, FEEDS};
use lent::{LentCall, KINDS};
use promises::ScriptPromises;
use shifts::{Shift, SHIFTS};
use std::collections::BTreeMap;

/// Every answer that a call can get, with the field at fault but for the reader's; an edit gets none where it is done. A call
/// that is not in the notation is counted by its first word.
const ANSWERS: [Answers; 24] = [
    ("open", "ok, no 2 0, no 3 1, no 3 2, no 3 3, no 3 4, no 7 0, no 10 4, no 10 5, ?"),
    ("open C", "ok, no 2 0, no 3 2, no 3 3, no 3 4, no 10 5, no 10 6"),
    ("add", "?"),
    ("add event", "ok, no 2 0, no 4 1, no 5 1, no 8 2, no 9 3, no 10 3, no 10 4, no 12 0, no 13 0"),
    ("add packet", "ok, no 2 0, no 4 1, no 5 1, no 7 0, no 10 3, no 10 4, no 12 0, no 13 0"),
    ("add offcore", "ok, no 2 0, no 4 1, no 5 1, no 7 0, no 9 2, no 10 2, no 10 3, no 11 2, no 12 0, no 13 0"),
    ("add latency", "ok, no 2 0, no 4 1, no 5 1, no 7 0, no 9 2, no 10 2, no 10 3, no 10 4, no 12 0, no 13 0"),
    ("drop", "ok, no 2 0, no 4 1, no 6 1, ?"),
    ("turn", "ok, no 2 0, no 14 0, ?"),
    ("turns", "ok, no 2 0, no 10 1, no 14 0, ?"),
    ("read", "ok, no 3, no 15, ?"),
    ("piece", "ok, no 2 0, no 14 0, ?"),
    ("end", "ok, no 2 0, no 14 0, ?"),
    ("rows", "done, ?"),
    ("row", "done, ?"),
    ("ropen", "ok, no 2 0, no 3 0, no 3 1, no 3 2, no 3 3, no 3 4, no 7 0, no 10 4, no 10 5, ?"),
    ("ropen C", "ok, no 2 0, no 3 0, no 3 2, no 3 3, no 3 4, no 10 5, no 10 6"),
    ("radd", "?"),
    ("radd event", "ok, no 2 0, no 3 0, no 4 1, no 5 1, no 8 2, no 9 3, no 10 3, no 10 4, no 12 0, no 13 0"),
    ("radd packet", "ok, no 2 0, no 3 0, no 4 1, no 5 1, no 7 0, no 10 3, no 10 4, no 12 0, no 13 0"),
    ("radd offcore", "ok, no 2 0, no 3 0, no 4 1, no 5 1, no 7 0, no 9 2, no 10 2, no 10 3, no 11 2, no 12 0, no 13 0"),
    ("radd latency", "ok, no 2 0, no 3 0, no 4 1, no 5 1, no 7 0, no 9 2, no 10 2, no 10 3, no 10 4, no 12 0, no 13 0"),
    ("rdrop", "ok, no 2 0, no 3 0, no 4 1, no 6 1, ?"),
    ("rturn", "ok, no 2 0, no 3 0, no 14 0, ?"),
];

#[derive(Default)]
pub struct Tally {
    pub calls: u64,
    answers: AnswerTally,
    kinds: BTreeMap<&'static str, u64>,
    promises: ScriptPromises,
    /// Whether the host has edited the rows since the last call on them, and how many there were then.
    edited: bool,
    last_number: usize,
}

/// The line with the answer: a plan stands before it, and what a reading tells behind it.
fn answer_in(printed: &str) -> &str {
    match printed.lines().find(|line| !line.starts_with("take")) {
        None => "done",
        Some(line) if line.starts_with("ok") => "ok",
        Some(line) => line,
    }
}

/// What a call is counted as: an open of C has fields of its own, and so has an add of each kind.
fn kind_of(words: &[&str], answer: &str) -> Option<String> {
    let verb = words[0];
    match (words, answer) {
        (["open" | "ropen", "C", ..], _) if answer != "?" => Some(format!("{verb} C")),
        (["add" | "radd", _, kind, ..], _) if answer != "?" => Some(format!("{verb} {kind}")),
        _ => ANSWERS.iter().any(|(row, _)| *row == verb).then(|| verb.into()),
    }
}

impl Tally {
    /// One line of a script, with the host before it and what was printed for it.
    pub fn count(&mut self, before: &Host<Session>, words: &[&str], printed: &str) {
        let answer = answer_in(printed);
        self.calls += 1;
        self.promises.count(before, words, printed);
        if let Some(kind) = kind_of(words, answer) {
            self.answers.count(&kind, answer);
        }
        if let Some(shift) = Shift::of(words, printed) {
            SHIFTS.iter().filter(|(_, test)| test(&shift)).for_each(|(kind, _)| *self.kinds.entry(kind).or_default() += 1);
        }
        match words[0] {
            "rows" | "row" => self.edited = true,
            "ropen" | "radd" | "rdrop" | "rturn" => self.count_lent(LentCall::of(before, words, answer)),
            "piece" | "end" => self.count_fed(FedCall::of(before, words, answer, printed)),
            _ => {}
        }
    }

    fn count_fed(&mut self, call: Option<FedCall>) {
        let kinds = FEEDS.iter().filter(|(_, test)| call.as_ref().is_some_and(test));
        kinds.for_each(|(kind, _)| *self.kinds.entry(kind).or_default() += 1);
    }

    fn count_lent(&mut self, call: LentCall) {
        let number = call.rows.len();
        let call = LentCall { edited: self.edited, other_number: self.last_number != number, ..call };
        lent::kinds_of(&call).for_each(|kind| *self.kinds.entry(kind).or_default() += 1);
        (self.edited, self.last_number) = (false, number);
    }

    /// Each kind with its count, and last the rules of lent rows for which alone calls were refused.
    fn kinds(&self) -> impl Iterator<Item = (&str, u64)> {
        let shifts = SHIFTS.iter().map(|(kind, _)| *kind).chain(FEEDS.iter().map(|(kind, _)| *kind));
        let names = shifts.chain(KINDS.iter().map(|(kind, _)| *kind)).chain(RULES.iter().map(|(rule, _)| *rule));
        names.map(|kind| (kind, self.kinds.get(kind).copied().unwrap_or(0)))
    }

    pub fn print(&self) {
        self.answers.print(&ANSWERS);
        self.kinds().for_each(|(kind, count)| println!("{kind:58}{count:>8}"));
        self.promises.tally.print();
    }

    /// No call got an answer that is not its own.
    pub fn nothing_else(&self) {
        self.answers.nothing_else(&ANSWERS);
    }

    /// Every call got every answer and every kind came up, or the comparison says too little.
    pub fn nothing_missed(&self) {
        self.answers.nothing_missed(&ANSWERS);
        self.kinds().for_each(|(kind, count)| assert!(count > 0, "never: {kind}"));
        self.promises.tally.nothing_missed();
    }
}
