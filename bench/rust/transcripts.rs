//! Prints a transcript: `long DEVICE LINES SEED`, `mixed DEVICE USABLE CALLS SEED`, or `random NUMBER SEED`; and the lists of
//! names that go with the last: `site NUMBER SEED` and `house NUMBER SEED`.

#[path = "line_program/answer.rs"]
mod answer;
#[path = "line_program/call.rs"]
mod call;
mod names;
mod numbers;
mod planner;
mod transcript;

use std::io::Write;

fn main() {
    let words: Vec<String> = std::env::args().skip(1).collect();
    let words: Vec<&str> = words.iter().map(String::as_str).collect();
    let number = |word: &str| word.parse().expect("a number");
    let device = |word: &str| word.chars().next().expect("a device");
    let transcript = match words[..] {
        ["long", d, lines, seed] => transcript::long::transcript(device(d), number(lines) as usize, number(seed)),
        ["mixed", d, usable, calls, seed] => transcript::mixed(device(d), number(usable), number(calls), number(seed)),
        ["random", n, seed] => transcript::random(number(n), number(seed)).text,
        ["site", n, seed] => transcript::random(number(n), number(seed)).lists.texts.site,
        ["house", n, seed] => transcript::random(number(n), number(seed)).lists.texts.house,
        _ => panic!("long DEVICE LINES SEED, mixed DEVICE USABLE CALLS SEED, or random, site or house NUMBER SEED"),
    };
    std::io::stdout().write_all(&transcript).expect("standard output");
}
