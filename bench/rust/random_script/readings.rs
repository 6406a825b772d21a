//! Readings of what plans leave, whole and with a value changed.

use super::{entry_of, openings, words_of, Script};
use crate::planner::devices::{Filters, Setup};
use crate::planner::model::applied::applied;
use crate::planner::model::plan::first_plan;
use crate::planner::model::reader::Registers;
use crate::planner::model::writes::list_of;
use crate::planner::model::{requests_of, select};
use crate::planner::requests::Entry;
use crate::transcript::calls::Bench;

/// The most requests whose plan is read back.
const READ: u64 = 7;

/// The values of the reader in the notation's order.
fn values_of(filters: Filters, r: &Registers) -> Vec<u64> {
    let filter_words = match filters {
        Filters::PacketMatch => [r.mm_cfg, r.match_word, r.mask_word],
        _ => [r.rsp[0], r.rsp[1], 0],
    };
    [&r.control[..6], &filter_words, &[r.global, r.u_box, r.pebs]].concat()
}

fn read_words(opening: &[String], values: &[u64]) -> Vec<String> {
    let values = values.iter().map(|value| format!("{value:X}"));
    ["read".into()].into_iter().chain(opening[1..].iter().cloned()).chain(values).collect()
}

/// The values that the plan of some requests leaves, on the bench's own opening.
fn left_values(bench: &mut Bench) -> Vec<u64> {
    let (setup, odd) = (Setup::of(bench.opening()).expect("an opening"), bench.odd);
    bench.odd = 0;
    let lines: Vec<String> = (1..=bench.numbers.below(READ + 1)).map(|id| bench.add_with(id)).collect();
    bench.odd = odd;
    let entries: Vec<Entry> = lines.iter().filter_map(|line| entry_of(line)).collect();
    let requests = requests_of(&select(setup, &entries).0);
    let plan = first_plan(setup, &requests).expect("what is taken has a plan");
    values_of(setup.device.filters, &applied(setup, &list_of(setup, &requests, &plan)))
}

/// A reading of what a plan leaves, mostly with a bit or a value changed, or of another opening.
pub fn reading(bench: &mut Bench) -> Vec<String> {
    let mut values = left_values(bench);
    let mut opening = words_of(&bench.own_open());
    let (at, other) = (bench.numbers.below(values.len() as u64), bench.numbers.below(values.len() as u64));
    let changed = bench.numbers.below(1 << 53) << 11;
    match bench.numbers.below(10) {
        0..=2 => values[at as usize] ^= 1 << bench.numbers.below(64),
        3 => values[at as usize] = values[other as usize],
        4 => values[at as usize] = bench.numbers.pick(&[0, changed, u64::MAX]),
        5 => opening = openings::odd(bench),
        6 => opening = openings::other_asking(bench),
        _ => {}
    }
    read_words(&opening, &values)
}

/// A reading of what a plan leaves, and after it one for each bit of each value, with that bit changed.
pub fn every_bit(script: &mut Script) {
    let values = left_values(&mut script.bench);
    let opening = words_of(&script.bench.own_open());
    script.put(&read_words(&opening, &values));
    for (at, bit) in (0..values.len()).flat_map(|at| (0..64).map(move |bit| (at, bit))) {
        let mut changed = values.clone();
        changed[at] ^= 1 << bit;
        script.put(&read_words(&opening, &changed));
    }
}
