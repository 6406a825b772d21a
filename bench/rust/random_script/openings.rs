//! Openings as words of a call: the bench's own, and others that are mostly refused.

use super::words_of;
use crate::planner::devices::Opening;
use crate::transcript::calls::{open_line, Bench};
use crate::transcript::{faults, refused_opening};

/// An open of any device with numbers that it may not have.
pub fn odd(bench: &mut Bench) -> Vec<String> {
    let letter = bench.numbers.pick(&['G', 'S', 'C', 'B', 'H', 'g', '0']);
    let usable = bench.numbers.pick(&[0, 7, 15, 16, 63, 64, u64::MAX, 1 << 32]);
    let fixed = bench.numbers.pick(&[0, 0, 0, 1, 7, 8, u64::MAX]);
    let box_number = bench.numbers.pick(&[0, 0, 0, 1, 7, 8, u64::MAX]);
    let freeze = bench.numbers.pick(&[0, 0, 0, 1, 1, 2, u64::MAX]);
    let core = bench.numbers.pick(&["-", "-", "-", "0", "7", "8", "63", "64", "18446744073709551615"]);
    words_of(&format!("open\t{letter}\t{usable}\t{fixed}\t{box_number}\t{freeze}\t{core}"))
}

/// The bench's own open with something else asked of an overflow, which may be refused.
pub fn other_asking(bench: &mut Bench) -> Vec<String> {
    let own = bench.opening();
    let freeze = bench.numbers.pick(&[own.freeze, 0, 1, 1, 2, 1 << 32]);
    let core = bench.numbers.pick(&[own.core, None, Some(0), Some(3), Some(7), Some(8), Some(1 << 32)]);
    words_of(&open_line(Opening { freeze, core, ..own }))
}

/// The bench's own open with numbers that it may not have, a box among them also where no line names it.
fn faulty(bench: &mut Bench) -> Vec<String> {
    let Opening { letter, usable, fixed, box_number, freeze, core } = faults::opening(bench);
    let core = core.map_or("-".into(), |core| core.to_string());
    words_of(&format!("open\t{}\t{usable}\t{fixed}\t{box_number}\t{freeze}\t{core}", letter as u8 as char))
}

/// Before the bench's own, mostly refused.
pub fn first(bench: &mut Bench) -> Vec<String> {
    match (bench.numbers.below(6), refused_opening(bench)) {
        (0, _) => odd(bench),
        (1, _) => other_asking(bench),
        (2 | 3, _) => faulty(bench),
        (_, Some(refused)) => words_of(&open_line(refused)),
        (_, None) => words_of(&bench.own_open()),
    }
}

/// Amid other calls, where most sessions are open.
pub fn second(bench: &mut Bench) -> Vec<String> {
    match bench.numbers.chance(50) {
        true => odd(bench),
        false => words_of(&bench.own_open()),
    }
}
