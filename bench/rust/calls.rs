//! Library calls as scripts, answered by the Rust model: the source of the stored output of the program crate `calls`.

#[path = "line_program/answer.rs"]
mod answer;
#[path = "line_program/call.rs"]
mod call;
mod expected;
mod feed;
mod grammar;
mod names;
mod planner;
mod script;

use planner::model::Session;
use std::io::{stdin, Read};

fn main() {
    let mut bytes = Vec::new();
    stdin().read_to_end(&mut bytes).unwrap();
    let script: String = bytes.into_iter().map(char::from).collect();
    script::answer_calls::<Session>(&script, |_, _, answer| print!("{answer}"));
}
