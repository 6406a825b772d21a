//! The program `calls` and the Rust planners on the same random scripts of library calls, byte for byte.
//! `scripts CALLS COUNT SEED`, or `scripts NUMBER SEED` to print a script.

#[path = "line_program/answer.rs"]
mod answer;
mod answer_tally;
#[path = "line_program/call.rs"]
mod call;
mod expected;
mod feed;
mod grammar;
mod names;
mod numbers;
mod planner;
mod promises;
mod random_script;
mod script;
mod script_tally;
mod transcript;

use feed::Fed;
use planner::{fast, model};
use script::Host;
use script_tally::Tally;
use std::fs::{self, File};
use std::io::Write;
use std::process::{exit, Command, Stdio};

const INPUT: &str = "target/bench/scripts.txt";

/// A script's characters as the bytes that they stand for.
fn bytes_of(script: &str) -> Vec<u8> {
    script.chars().map(|letter| letter as u8).collect()
}

/// All answers to a script by one of the Rust planners.
fn answers_of<Session: Fed + Clone>(script: &str, mut show: impl FnMut(&Host<Session>, &[&str], &str)) -> String {
    let mut text = String::new();
    script::answer_calls::<Session>(script, |before, words, answer| {
        show(before, words, answer);
        text += answer;
    });
    text
}

fn output_of(program: &str) -> String {
    let input = File::open(INPUT).expect("the script");
    let done = Command::new(program).stdin(input).stderr(Stdio::inherit()).output();
    let done = done.unwrap_or_else(|error| panic!("{program}: {error}"));
    assert!(done.status.success(), "{program} on {INPUT}: {}", done.status);
    String::from_utf8_lossy(&done.stdout).into()
}

/// Saves both outputs beside the script, says where they are, and ends.
fn fail(number: u64, seed: u64, what: &str, theirs: &str, model: &str) -> ! {
    let line = theirs.lines().zip(model.lines()).take_while(|(a, b)| a == b).count() + 1;
    for (end, text) in [("other", theirs), ("model", model)] {
        fs::write(format!("{INPUT}.{end}"), text).expect("a place for the difference");
    }
    println!("DIFFERENT: script {number} of seed {seed}, {what} beside the model, from line {line} of the output");
    println!("the script is {INPUT}, the outputs {INPUT}.other and {INPUT}.model");
    exit(1)
}

/// One script through all of them.
fn compare(program: &str, number: u64, seed: u64, tally: &mut Tally) {
    let script = random_script::random(number, seed);
    fs::write(INPUT, bytes_of(&script)).expect("a place for the script");
    let model = answers_of::<model::Session>(&script, |before, words, answer| tally.count(before, words, answer));
    let fast = answers_of::<fast::session::Session>(&script, |_, _, _| {});
    if fast != model {
        fail(number, seed, "the fast planner", &fast, &model);
    }
    let proved = output_of(program);
    if proved != model {
        fail(number, seed, program, &proved, &model);
    }
}

fn main() {
    let words: Vec<String> = std::env::args().skip(1).collect();
    let number = |word: &str| word.parse::<u64>().expect("a number");
    match words.iter().map(String::as_str).collect::<Vec<_>>()[..] {
        [at, seed] => {
            let script = random_script::random(number(at), number(seed));
            std::io::stdout().write_all(&bytes_of(&script)).expect("standard output");
        }
        [program, count, seed] => {
            println!("scripts {program} {count} {seed}");
            let mut tally = Tally::default();
            (0..number(count)).for_each(|at| compare(program, at, number(seed), &mut tally));
            println!("{count} scripts, {} calls: the same, byte for byte", tally.calls);
            tally.print();
            tally.nothing_else();
            if number(count) >= 2000 {
                tally.nothing_missed();
            }
        }
        _ => panic!("scripts CALLS COUNT SEED, or scripts NUMBER SEED"),
    }
}
