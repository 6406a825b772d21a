//! Long transcripts for measuring, drawn for what the session has waiting.

use super::calls::Bench;
use super::{bench_on, damage, numbers_from, push};
use crate::answer::{answer, Output, LONGEST_ANSWER};
use crate::names::road::EachTime;
use crate::names::Texts;
use crate::planner::devices::Device;
use crate::planner::fast::session::Session;
use crate::planner::Calls;

/// The lines between two choices of how long the queue should be.
const STRETCH: usize = 64;

/// A call for a queue that should be about this long.
fn next_call(bench: &mut Bench, session: &Session, goal: usize) -> Vec<u8> {
    let waiting: Vec<u64> = session.queue().iter().map(|entry| entry.id).collect();
    match bench.numbers.below(100) {
        0..=19 => "turn".into(),
        20..=24 => damage::damaged(&mut bench.numbers, b"event\t7\tC0\t00\t15"),
        25..=26 => bench.drop().into(),
        27..=35 => {
            bench.odd = 30;
            let call = if bench.numbers.chance(10) { bench.open() } else { bench.add() };
            bench.odd = 0;
            call.into()
        }
        _ if waiting.len() < goal || waiting.is_empty() => {
            let id = bench.numbers.below(65535) + 1;
            bench.add_with(id).into()
        }
        _ => format!("drop\t{}", bench.numbers.pick(&waiting)).into(),
    }
}

/// A transcript of so many lines: mostly accepted adds and drops, a fifth turns, a tenth refused or ill-formed lines.
pub fn transcript(device: char, lines: usize, seed: u64) -> Vec<u8> {
    let device = Device::named(device as u64).expect("a device");
    let mut bench = bench_on(device, device.all(), 0, numbers_from(seed));
    (bench.fixed, bench.box_number, bench.freeze, bench.core) = (0, 0, 0, None);
    let mut session = Session::new();
    let no_names = Texts::default();
    let mut block = [0; LONGEST_ANSWER];
    let mut transcript = Vec::new();
    let mut goal = 0;
    for n in 0..lines {
        if n % STRETCH == 0 {
            goal = bench.numbers.below(18) as usize;
        }
        let mut line = if n == 0 { bench.open().into() } else { next_call(&mut bench, &session, goal) };
        line.retain(|&byte| byte != b'\n');
        answer(&mut session, &EachTime::of(&no_names), &line, &mut Output { block: &mut block, used: 0 });
        push(&mut transcript, &line);
    }
    transcript
}
