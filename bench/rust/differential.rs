//! Two line programs on the same random transcripts, byte for byte: whole from a file, and some through a pipe in small
//! pieces, where a completed line must be answered before the next piece comes. Most have lists of names, good and damaged.
//! `differential TUNER RUST COUNT SEED`

#[path = "line_program/answer.rs"]
mod answer;
mod answer_tally;
#[path = "line_program/call.rs"]
mod call;
mod expected;
mod fault_tally;
mod grammar;
mod kinds;
mod line_promises;
mod named_kinds;
mod named_tally;
mod names;
mod numbers;
mod pieces;
mod planner;
mod promises;
mod tally;
mod transcript;

use planner::model::Session;
use std::fs::{self, File};
use std::process::{exit, Command, Stdio};
use tally::Tally;
use transcript::Transcript;

const INPUT: &str = "target/bench/differential.txt";
const SITE: &str = "target/bench/differential.site";
const HOUSE: &str = "target/bench/differential.house";
/// Every so many transcripts goes through a pipe too; no multiple of the number of devices, so that all of them do.
const PIECES_EVERY: u64 = 7;
/// Longer transcripts are not cut into pieces: it takes too long.
const PIECES_LIMIT: usize = 20_000;

struct Programs {
    tuner: String,
    rust: String,
    seed: u64,
}

/// The arguments that programs get with a transcript.
fn words_of(transcript: &Transcript) -> &'static [&'static str] {
    match transcript.lists.given {
        true => &[SITE, HOUSE],
        false => &[],
    }
}

/// Writes a transcript and its lists into their files.
fn write(transcript: &Transcript) {
    let texts = &transcript.lists.texts;
    for (file, bytes) in [(INPUT, &transcript.text), (SITE, &texts.site), (HOUSE, &texts.house)] {
        fs::write(file, bytes).expect("a place for the transcript");
    }
}

/// What a program writes when the whole transcript lies in a file.
fn output_of(program: &str, words: &[&str]) -> Vec<u8> {
    let input = File::open(INPUT).expect("the transcript");
    let done = Command::new(program).args(words).stdin(input).stderr(Stdio::inherit()).output();
    let done = done.unwrap_or_else(|error| panic!("{program}: {error}"));
    assert!(done.status.success(), "{program} on {INPUT}: {}", done.status);
    done.stdout
}

/// Saves the transcript with its lists and both outputs, says where they are, and ends.
fn fail(programs: &Programs, number: u64, what: &str, transcript: &Transcript, tuner: &[u8], rust: &[u8]) -> ! {
    let same = tuner.iter().zip(rust).take_while(|(a, b)| a == b).count();
    let line = rust[..same].iter().filter(|&&byte| byte == b'\n').count() + 1;
    let (text, texts) = (&transcript.text, &transcript.lists.texts);
    for (end, bytes) in [("txt", &text[..]), ("site", &texts.site), ("house", &texts.house), ("tuner", tuner), ("rust", rust)] {
        fs::write(format!("target/bench/difference.{end}"), bytes).expect("a place for the difference");
    }
    println!("DIFFERENT: transcript {number} of seed {}, {what}, from line {line} of the output", programs.seed);
    println!("saved as target/bench/difference.txt, the lists as .site and .house, the outputs as .tuner and .rust");
    exit(1)
}

/// One transcript through both programs.
fn compare(programs: &Programs, number: u64, tally: &mut Tally) -> bool {
    let transcript = transcript::random(number, programs.seed);
    let (lists, words) = (&transcript.lists, words_of(&transcript));
    let count = |session: &Session, part: &[u8], answered: &[u8]| tally.count(session, lists, part, answered);
    let expected = expected::expected(&transcript.text, &lists.texts, count);
    write(&transcript);
    let rust = output_of(&programs.rust, words);
    if rust != expected.bytes {
        fail(programs, number, "the Rust program beside the model", &transcript, &rust, &expected.bytes);
    }
    let tuner = output_of(&programs.tuner, words);
    if tuner != rust {
        fail(programs, number, "whole", &transcript, &tuner, &rust);
    }
    let cut = number % PIECES_EVERY == 0 && transcript.text.len() <= PIECES_LIMIT;
    if cut {
        for program in [&programs.rust, &programs.tuner] {
            let mut numbers = transcript::numbers_from(programs.seed ^ number << 20 ^ 1);
            let output = pieces::output_of(program, words, &transcript.text, &expected.after, &mut numbers);
            if output != expected.bytes {
                fail(programs, number, &format!("{program} in pieces"), &transcript, &output, &expected.bytes);
            }
        }
    }
    cut
}

fn main() {
    let words: Vec<String> = std::env::args().skip(1).collect();
    let [tuner, rust, count, seed] = &words[..] else { panic!("differential TUNER RUST COUNT SEED") };
    let (count, seed): (u64, u64) = (count.parse().expect("a count"), seed.parse().expect("a seed"));
    let programs = Programs { tuner: tuner.clone(), rust: rust.clone(), seed };
    println!("differential {tuner} {rust} {count} {seed}");
    let mut tally = Tally::new();
    let cut = (0..count).filter(|&number| compare(&programs, number, &mut tally)).count();
    println!("{count} transcripts, {} lines, {cut} of them in pieces too: the same, byte for byte", tally.lines);
    tally.print();
    tally.nothing_else();
    if count >= 10_000 {
        tally.nothing_missed();
    }
}
