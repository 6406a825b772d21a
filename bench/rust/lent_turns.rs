//! Turns on lent rows, to be measured: the task of order 10, for several numbers of records, half of them pinned to counter 0.
//! `lent_turns CALLS FOLDER`, where CALLS is the proved program, and the folder is for what is counted.

#[path = "line_program/answer.rs"]
mod answer;
#[path = "line_program/call.rs"]
mod call;
mod expected;
mod feed;
mod grammar;
mod instructions;
mod names;
mod planner;
mod rows;
mod script;

use instructions::instruction_mark;
use planner::devices::Opening;
use planner::fast::lent::{Lent, SameRoad};
use planner::fast::session::Session;
use planner::requests::{Entry, Place, Request, VACANT};
use planner::{LentCalls, Turn, LIST};
use rows::{to_request, to_row};
use std::fs::{remove_file, write, File};
use std::hint::black_box;
use std::process::{Command, Stdio};
use std::time::Instant;

const RECORDS: &[u64] = &[16, 32, 64, 128, 256];
const TURNS: usize = 10_000;
/// Under valgrind, where a count does not swing.
const COUNTED_TURNS: usize = 1_000;
/// The turns of one line of a script.
const LINE_TURNS: usize = 1_000;
const ROUNDS: usize = 15;
/// The word that lets the program do each task once, for counting.
const COUNT: &str = "count";
/// Above these lengths the C library would repeat one instruction.
const NOTHING_REPEATED: &str = "glibc.cpu.x86_rep_stosb_threshold=1000000:glibc.cpu.x86_rep_movsb_threshold=1000000";
/// The numbers of a record: its id, and the four of its request.
const RECORD: usize = 5;
/// The folds are numbers below this prime; each number moves those before it by a factor.
const PRIME: u64 = 65521;
const FACTOR: u64 = 31;

/// What the records ask for: odd ids are on counter 0 alone, and even ids on any usable one.
struct Input {
    name: &'static str,
    letter: u8,
    usable: u64,
    /// An event of the device, with mask 0.
    code: u8,
    /// Whether the odd ids stand before the even ones.
    pinned_first: bool,
    /// How many records there are.
    records: &'static [u64],
}

const INPUTS: [Input; 4] = [
    Input { name: "G, in turn", letter: b'G', usable: 15, code: 0xC0, pinned_first: false, records: RECORDS },
    Input { name: "G, pinned first", letter: b'G', usable: 15, code: 0xC0, pinned_first: true, records: RECORDS },
    Input { name: "C, in turn", letter: b'C', usable: 63, code: 0x18, pinned_first: false, records: RECORDS },
    Input { name: "B, in turn", letter: b'B', usable: 15, code: 0xC0, pinned_first: false, records: &[256] },
];

impl Input {
    fn ids(&self, count: u64) -> Vec<u64> {
        let mut ids: Vec<u64> = (1..=count).collect();
        if self.pinned_first {
            ids.sort_by_key(|id| id % 2 == 0);
        }
        ids
    }

    fn allowed(&self, id: u64) -> u64 {
        match id % 2 {
            1 => 1,
            _ => self.usable,
        }
    }

    fn records(&self, count: u64) -> Vec<u64> {
        let request = |id| to_row(Request::Event { code: self.code, mask: 0, allowed: self.allowed(id) });
        self.ids(count).into_iter().flat_map(|id| [&[id], &request(id)[..]].concat()).collect()
    }

    /// The same as a script: the records, an open, and the turns.
    fn script(&self, count: u64, turns: usize) -> String {
        let row = |(at, id): (usize, u64)| format!("row {at} {id} event {:X} 0 {}\n", self.code, self.allowed(id));
        let rows: String = self.ids(count).into_iter().enumerate().map(row).collect();
        let open = format!("ropen {} {} 0 0 0 -\n", self.letter as char, self.usable);
        format!("rows {count}\n{open}{rows}{}", format!("rrun {LINE_TURNS} {LIST}\n").repeat(turns / LINE_TURNS))
    }
}

/// What comes out: the ids taken in all turns, each times its counter's number and 1, summed up; the last write list, folded;
/// and the ids of the rows at the end, folded.
type Sums = [u64; 3];
/// One side of the comparison: it opens a session on the records, and makes so many turns.
type Side = fn(&Input, &[u64], usize) -> Sums;

const SIDES: [(&str, Side); 2] = [("the fastest road", rust_turns::<Lent>), ("the proved road", rust_turns::<SameRoad>)];

fn fold(numbers: impl Iterator<Item = u64>) -> u64 {
    numbers.fold(0, |fold, number| (fold * FACTOR + number % PRIME) % PRIME)
}

/// A turn across a library's boundary.
#[inline(never)]
fn turn(session: &impl LentCalls, rows: &mut [Entry], list: &mut [u64]) -> Turn {
    session.turn(rows, list).expect("a turn")
}

/// The ids taken, each times its counter's number and 1.
fn taken(turn: &Turn) -> u64 {
    let weight = |place: &Place| match *place {
        Place::Counter(k) | Place::WithRsp(k, _) => k as u64 + 1,
        Place::Pair(j, k) => j as u64 + k as u64 + 2,
    };
    turn.taken.iter().zip(&turn.places).take(turn.count).map(|(entry, place)| entry.id * weight(place)).sum()
}

/// A side of the fast planner, on this road: the rows lie behind `&mut`, and are changed in place.
fn rust_turns<Session: LentCalls>(input: &Input, records: &[u64], turns: usize) -> Sums {
    let (mut session, mut rows, mut list) = (Session::new(), vec![VACANT; records.len() / RECORD], [0; LIST]);
    session.open(&mut rows, Opening::plain(input.letter as u64, input.usable, 0, 0)).expect("an open");
    for (row, record) in rows.iter_mut().zip(records.chunks(RECORD)) {
        *row = Entry { id: record[0], request: to_request(&record[1..]) };
    }
    let (mut sum, mut written) = (0, 0);
    for _ in 0..turns {
        let turn = turn(&session, &mut rows, &mut list);
        sum += taken(&turn);
        written = 2 * turn.writes;
    }
    [sum, fold(list[..written].iter().copied()), fold(rows.iter().map(|row| row.id))]
}

/// The least and the middle of the times of a turn, in nanoseconds, of each side. The sides are timed one after another.
fn times(input: &Input, records: &[u64]) -> [[f64; 2]; SIDES.len()] {
    let mut all = SIDES.map(|_| Vec::new());
    for _ in 0..ROUNDS {
        for (times, (_, side)) in all.iter_mut().zip(SIDES) {
            let start = Instant::now();
            black_box(side(input, black_box(records), TURNS));
            times.push(start.elapsed().as_nanos() as f64 / TURNS as f64);
        }
    }
    all.map(|mut times| {
        times.sort_by(f64::total_cmp);
        [times[0], times[ROUNDS / 2]]
    })
}

/// Every task: an input with so many records.
fn tasks() -> impl Iterator<Item = (&'static Input, u64)> {
    INPUTS.iter().flat_map(|input| input.records.iter().map(move |count| (input, *count)))
}

/// Does each task once, between marks.
fn run_once() {
    for (input, count) in tasks() {
        for (_, side) in SIDES {
            let records = input.records(count);
            instruction_mark();
            black_box(side(input, &records, COUNTED_TURNS));
        }
    }
    instruction_mark();
}

/// The instructions of a turn of each task on each side. Valgrind counts every step of a repeated string instruction, with
/// which the C library clears and copies much at once; while it counts, the library has to do without.
fn counted(folder: &str) -> Vec<f64> {
    let program = std::env::current_exe().expect("this program");
    let counts = instructions::counts(program.to_str().expect("a path"), &[COUNT], Stdio::null(), folder);
    counts[1..].iter().map(|count| *count as f64 / COUNTED_TURNS as f64).collect()
}

/// A script in a file, and what the proved program prints for it.
fn answered(calls: &str, script: &str, file: &str) -> String {
    write(file, script).expect("a script");
    let output = Command::new(calls).stdin(File::open(file).expect("a script")).output().expect("the proved program");
    String::from_utf8(output.stdout).expect("a text")
}

/// What the Rust prints for it.
fn rust_answers(script: &str) -> String {
    let mut text = String::new();
    script::answer_calls::<Session>(script, |_, _, answer| text += answer);
    text
}

/// The instructions of the proved program's own code on a script.
fn own_count(calls: &str, script: &str, folder: &str) -> f64 {
    let file = format!("{folder}/script");
    write(&file, script).expect("a script");
    let count = instructions::own_count(calls, Stdio::from(File::open(&file).expect("a script")), folder);
    remove_file(&file).expect("a script of ours");
    count as f64
}

/// The instructions of a proved turn of a task, with the line that is printed of it. What the C library copies is left out:
/// `calls` passes its rows by value, all 512 of them.
fn proved(calls: &str, folder: &str, input: &Input, count: u64) -> f64 {
    let counted = |turns| own_count(calls, &input.script(count, turns), folder);
    (counted(COUNTED_TURNS) - counted(0)) / COUNTED_TURNS as f64
}

/// The proved program answers the turns of a task as the Rust does.
fn compare(calls: &str, folder: &str, input: &Input, count: u64) {
    let (script, file) = (input.script(count, TURNS), format!("{folder}/script"));
    assert!(answered(calls, &script, &file) == rust_answers(&script), "the proved answers differ");
    remove_file(&file).expect("a script of ours");
}

fn print(calls: &str, folder: &str) {
    assert!(instructions::countable(), "valgrind is not there");
    std::env::set_var("GLIBC_TUNABLES", NOTHING_REPEATED);
    let mut instructions = counted(folder).into_iter();
    for (input, count) in tasks() {
        let records = input.records(count);
        compare(calls, folder, input, count);
        let sums = SIDES.map(|(_, side)| side(input, &records, TURNS));
        assert_eq!(sums[0], sums[1], "the roads differ");
        println!("{}, {count} records, sums {:?}", input.name, sums[0]);
        println!("    the proved planner: {:.0} instructions", proved(calls, folder, input, count));
        for ((name, _), [best, median]) in SIDES.iter().zip(times(input, &records)) {
            let counted = instructions.next().expect("a count");
            println!("    {name}: {counted:.0} instructions, {best:.0} ns at best, {median:.0} ns in the middle");
        }
    }
}

fn main() {
    let words: Vec<String> = std::env::args().skip(1).collect();
    match words.iter().map(String::as_str).collect::<Vec<_>>()[..] {
        [COUNT] => run_once(),
        [calls, folder] => print(calls, folder),
        _ => panic!("lent_turns CALLS FOLDER"),
    }
}
