//! How often each answer was given to each verb, with its field, and how many ill-formed lines and turns there were of each
//! kind; and the promises of waiting, held to every transcript.

use crate::answer_tally::{AnswerTally, Answers};
use crate::call::{call_of, Call};
use crate::fault_tally::FaultTally;
use crate::kinds::{Turned, KINDS};
use crate::line_promises::LinePromises;
use crate::named_tally::NamedTally;
use crate::planner::devices::DEVICES;
use crate::planner::model::Session;
use crate::transcript::lists::DrawnLists;

/// Every answer that a line can get, by its verb: `ok`, or the number and the field of a `no`. An open of C has fields of its own,
/// and a line of another verb is `other`.
const ANSWERS: [Answers; 10] = [
    ("open", "ok, 1 1, 1 2, 1 3, 1 4, 1 5, 1 6, 2 0, 3 2, 3 3, 7 0, 10 4, 10 5"),
    ("open C", "ok, 1 2, 1 3, 1 4, 1 5, 1 6, 1 7, 2 0, 3 2, 3 3, 3 4, 10 5, 10 6"),
    ("event", "ok, 1 1, 1 2, 1 3, 1 4, 1 5, 2 0, 4 1, 5 1, 8 2, 9 3, 10 3, 10 4, 12 0, 13 0"),
    ("packet", "ok, 1 1, 1 2, 1 3, 1 4, 1 5, 2 0, 4 1, 5 1, 7 0, 10 3, 10 4, 12 0, 13 0"),
    ("offcore", "ok, 1 1, 1 2, 1 3, 1 4, 2 0, 4 1, 5 1, 7 0, 9 2, 10 2, 10 3, 11 2, 12 0, 13 0"),
    ("latency", "ok, 1 1, 1 2, 1 3, 1 4, 1 5, 2 0, 4 1, 5 1, 7 0, 9 2, 10 2, 10 3, 10 4, 12 0, 13 0"),
    ("named", "ok, 1 0, 1 1, 1 2, 1 3, 1 4, 2 0, 4 1, 5 1, 7 0, 8 2, 9 2, 10 2, 10 3, 12 0, 13 0"),
    ("drop", "ok, 1 1, 1 2, 2 0, 4 1, 6 1"),
    ("turn", "ok, 1 1, 2 0"),
    ("other", "1 0"),
];
/// A kind that fewer than one in so many turns are of is too seldom.
const SELDOM: u64 = 300;

pub struct Tally {
    pub lines: u64,
    answers: AnswerTally,
    faults: FaultTally,
    /// The turns of each device, and of each kind on it.
    turns: [u64; DEVICES.len()],
    kinds: [[u64; DEVICES.len()]; KINDS.len()],
    named: NamedTally,
    promises: LinePromises,
}

impl Tally {
    pub fn new() -> Tally {
        Tally {
            lines: 0,
            answers: AnswerTally::default(),
            faults: FaultTally::new(),
            turns: [0; DEVICES.len()],
            kinds: [[0; DEVICES.len()]; KINDS.len()],
            named: NamedTally::new(),
            promises: LinePromises::default(),
        }
    }

    /// Counts a line, with its newline if it has one, the session before it, the lists and its answer.
    pub fn count(&mut self, session: &Session, lists: &DrawnLists, part: &[u8], answered: &[u8]) {
        self.lines += 1;
        let answer = answer_in(answered);
        let line = part.strip_suffix(b"\n");
        self.answers.count(verb_of(line.unwrap_or(part)), &answer);
        self.faults.count(part, &lists.texts);
        self.promises.count(line.unwrap_or(part), &lists.texts, answered);
        if let Some(Ok(Call::Named { name, .. })) = line.map(call_of) {
            self.named.count(session, lists, name, number_in(&answer));
        }
        if line == Some(b"turn") {
            self.count_turn(session);
        }
    }

    fn count_turn(&mut self, session: &Session) {
        let Some(setup) = session.setup else { return };
        let device = DEVICES.iter().position(|device| device.letter == setup.device.letter).expect("a device");
        let turned = Turned::of(setup, &session.queue);
        self.turns[device] += 1;
        for (kind, (_, test)) in KINDS.iter().enumerate() {
            self.kinds[kind][device] += test(&turned) as u64;
        }
    }

    pub fn print(&self) {
        self.answers.print(&ANSWERS);
        self.faults.print();
        print_row("turns", DEVICES.each_ref().map(|device| (device.letter as char).to_string()));
        print_row("all", self.turns.map(|n| n.to_string()));
        for ((kind, _), counts) in KINDS.iter().zip(self.kinds) {
            print_row(kind, counts.map(|n| n.to_string()));
        }
        self.named.print();
        self.promises.tally.print();
    }

    /// No line got an answer that is not its verb's.
    pub fn nothing_else(&self) {
        self.answers.nothing_else(&ANSWERS);
    }

    /// Every verb got every answer, and there was every kind of ill-formed line and of turn, or the comparison says too little.
    pub fn nothing_missed(&self) {
        self.answers.nothing_missed(&ANSWERS);
        self.faults.nothing_missed();
        let turns: u64 = self.turns.iter().sum();
        for ((kind, _), counts) in KINDS.iter().zip(self.kinds) {
            assert!(counts.iter().sum::<u64>() * SELDOM > turns, "seldom in a turn: {kind}");
        }
        self.named.nothing_missed();
        self.promises.tally.nothing_missed();
    }
}

/// What a line is counted as.
fn verb_of(line: &[u8]) -> &'static str {
    let mut fields = line.split(|&byte| byte == b'\t');
    let said = (fields.next().unwrap_or_default(), fields.next());
    match said {
        (b"open", Some(b"C")) => "open C",
        (b"open C", _) => "other",
        (verb, _) => ANSWERS.iter().map(|row| row.0).find(|row| row.as_bytes() == verb).unwrap_or("other"),
    }
}

/// The last line of an answer, as the table has it.
fn answer_in(answered: &[u8]) -> String {
    let text = String::from_utf8_lossy(answered);
    let last = text.lines().next_back().expect("an answer");
    last.trim_start_matches("no\t").replace('\t', " ")
}

/// The number that refuses a line, 0 where it is accepted.
fn number_in(answer: &str) -> usize {
    answer.split_once(' ').map_or(0, |(number, _)| number.parse().expect("a number"))
}

fn print_row<const N: usize>(name: &str, columns: [String; N]) {
    println!("{name:46}{}", columns.map(|column| format!("{column:>8}")).concat());
}
