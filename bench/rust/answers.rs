//! Prints the answers of the transcript on standard input, from the model: `answers [SITE HOUSE]`, where the two files
//! are the lists of names.

#[path = "line_program/answer.rs"]
mod answer;
#[path = "line_program/call.rs"]
mod call;
mod expected;
mod grammar;
mod names;
mod planner;

use std::io::{Read, Write};

fn main() {
    let texts = names::files::given("answers");
    let mut transcript = Vec::new();
    std::io::stdin().read_to_end(&mut transcript).expect("standard input");
    let expected = expected::expected(&transcript, &texts, |_, _, _| {});
    std::io::stdout().write_all(&expected.bytes).expect("standard output");
}
