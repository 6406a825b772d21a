//! What is measured: one task done by the proved planner and by the Rust one, its time, and its instructions.

use crate::instructions::{self, instruction_mark};
use std::hint::black_box;
use std::process::Stdio;
use std::time::Instant;

type Task<'a> = Box<dyn Fn() -> u64 + 'a>;

/// A task on both sides, how many units of work it does, and how often it is timed.
pub struct Case<'a> {
    pub name: String,
    pub ours: Task<'a>,
    pub theirs: Task<'a>,
    pub units: usize,
    pub rounds: usize,
}

/// The word that lets the program run each task once, for counting.
pub const COUNT: &str = "count";

fn nanoseconds(task: &Task) -> f64 {
    let start = Instant::now();
    black_box(task());
    start.elapsed().as_nanos() as f64
}

impl Case<'_> {
    /// The least times of a unit, over rounds that alternate between the two.
    fn times(&self) -> (f64, f64) {
        let mut best = (f64::MAX, f64::MAX);
        for _ in 0..self.rounds {
            best = (best.0.min(nanoseconds(&self.ours)), best.1.min(nanoseconds(&self.theirs)));
        }
        (best.0 / self.units as f64, best.1 / self.units as f64)
    }
}

/// Does each task once, between marks.
pub fn run_once(cases: &[Case]) {
    for case in cases {
        for task in [&case.ours, &case.theirs] {
            instruction_mark();
            black_box(task());
        }
    }
    instruction_mark();
}

/// The instructions of a unit of each case on both sides.
fn counted(cases: &[Case], folder: &str) -> Vec<(f64, f64)> {
    let program = std::env::current_exe().expect("this program");
    let counts = instructions::counts(program.to_str().expect("a path"), &[COUNT], Stdio::null(), folder);
    assert_eq!(counts.len(), 2 * cases.len() + 2, "a count for each mark, and one before the first");
    let parts = counts[1..].chunks_exact(2);
    cases.iter().zip(parts).map(|(case, part)| (part[0] as f64 / case.units as f64, part[1] as f64 / case.units as f64)).collect()
}

fn columns(pair: (f64, f64)) -> String {
    format!("{:10.1}{:10.1}{:8.2}", pair.0, pair.1, pair.0 / pair.1)
}

/// Prints times and, where valgrind is there, instructions of all cases.
pub fn print(cases: &[Case], folder: &str) {
    let instructions = match instructions::countable() {
        true => counted(cases, folder),
        false => Vec::new(),
    };
    if instructions.is_empty() {
        println!("valgrind is not there: times alone");
    }
    println!("{:40}{:>28}{:>28}", "", "nanoseconds", if instructions.is_empty() { "" } else { "instructions" });
    let heads = format!("{:>10}{:>10}{:>8}", "ours", "Rust", "ratio");
    println!("{:40}{heads}{}", "", if instructions.is_empty() { "" } else { &heads });
    for (i, case) in cases.iter().enumerate() {
        let count = instructions.get(i).map_or(String::new(), |&pair| columns(pair));
        println!("{:40}{}{count}", case.name, columns(case.times()));
    }
}
