//! The first plan of a list of requests: the same answers on random lists, and cases to measure.

use crate::cases::Case;
use crate::numbers::Numbers;
use crate::planner::devices::{Device, Setup};
use crate::planner::fast::search::first_plan;
use crate::planner::model;
use crate::planner::requests::{Entry, Place, Request};
use crate::planner::PLACES;
use crate::rows::{to_request, to_row};
use std::hint::black_box;

const RANDOM_LISTS: usize = 100_000;
const ROUNDS: usize = 2_000;
const CALLS: usize = 1_000;

/// Requests as rows of four numbers: the kind, and what it holds.
type Rows = [u64; 4 * PLACES];

mod proved {
    use super::{Rows, PLACES};

    extern "C" {
        fn rattle_first_plan(usable: u64, rows: *const Rows, count: usize, i: usize) -> u64;
        fn rattle_plan_rows(usable: u64, rows: *const Rows, count: usize) -> u64;
    }

    /// Request i's place in the first plan: 0 for no plan, otherwise one more than its two digits.
    pub fn first_plan(usable: u64, rows: &Rows, count: usize, i: usize) -> u64 {
        assert!(count <= PLACES && i < PLACES);
        unsafe { rattle_first_plan(usable, rows, count, i) }
    }

    /// The packed first plan.
    pub fn plan_rows(usable: u64, rows: &Rows, count: usize) -> u64 {
        assert!(count <= PLACES);
        unsafe { rattle_plan_rows(usable, rows, count) }
    }
}

/// The proved functions take a usable set on G, also one that an open would refuse.
fn setup_for(usable: u64) -> Setup {
    Setup { device: Device::named(b'G' as u64).expect("a device"), usable, fixed: 0, box_number: 0, freeze: 0, core: None }
}

fn to_rows(requests: &[Request]) -> Rows {
    let mut rows = [0; 4 * PLACES];
    for (row, request) in rows.chunks_exact_mut(4).zip(requests) {
        row.copy_from_slice(&to_row(*request));
    }
    rows
}

fn to_entries(rows: &Rows) -> [Entry; PLACES] {
    std::array::from_fn(|i| Entry { id: 0, request: to_request(&rows[4 * i..4 * i + 4]) })
}

fn digits(place: Place) -> u64 {
    match place {
        Place::Counter(k) => k as u64 * 8,
        Place::WithRsp(k, rsp) => k as u64 * 8 + rsp as u64,
        Place::Pair(j, k) => j as u64 * 8 + k as u64,
    }
}

/// Request i's place in the first plan, from the same rows and to the same number as the proved one.
fn place_number(usable: u64, rows: &Rows, count: usize, i: usize) -> u64 {
    match first_plan(setup_for(usable), &to_entries(rows)[..count]) {
        None => 0,
        Some(plan) => digits(plan[i]) + 1,
    }
}

fn packed(plan: Option<&[Place]>) -> u64 {
    match plan {
        None => 0,
        Some(plan) => plan.iter().rev().fold(1, |code, place| code * 64 + digits(*place)),
    }
}

/// Whether the proved search, the fast one and the model's answer the same.
fn same_answers(usable: u64, requests: &[Request]) -> bool {
    let rows = to_rows(requests);
    let count = requests.len();
    let clear = model::plan::first_plan(setup_for(usable), requests);
    let fast = first_plan(setup_for(usable), &to_entries(&rows)[..count]);
    let code = packed(clear.as_deref());
    code == packed(fast.as_ref().map(|plan| &plan[..count]))
        && code == proved::plan_rows(usable, &rows, count)
        && (0..count).all(|i| place_number(usable, &rows, count, i) == proved::first_plan(usable, &rows, count, i))
}

fn random_set(numbers: &mut Numbers) -> u64 {
    match numbers.below(3) {
        0 => 15,
        _ => numbers.below(64),
    }
}

/// Any request, well-formed or not.
pub fn random_request(numbers: &mut Numbers) -> Request {
    match numbers.below(6) {
        0 | 1 => Request::Event { code: numbers.below(256) as u8, mask: numbers.below(256) as u8, allowed: random_set(numbers) },
        2 => Request::Packet { match_word: numbers.below(2), mask_word: numbers.below(2), allowed: random_set(numbers) },
        3 => Request::Latency { types: numbers.below(3) as u16, first: random_set(numbers), second: random_set(numbers) },
        _ => Request::Offcore {
            word: numbers.pick(&[0, 1 << 16, 1 << 18, 1 << 38]) + numbers.below(3),
            allowed: random_set(numbers),
        },
    }
}

/// All planners answer the same on random lists of requests.
pub fn compare_answers(numbers: &mut Numbers) {
    for n in 0..RANDOM_LISTS {
        let requests: Vec<Request> = (0..numbers.below(PLACES as u64 + 1)).map(|_| random_request(numbers)).collect();
        let usable = numbers.below(32);
        assert!(same_answers(usable, &requests), "random list {n}: the answers differ");
    }
    println!("{RANDOM_LISTS} random lists of requests: the same answers");
}

fn repeated(calls: usize, call: impl Fn() -> u64) -> u64 {
    (0..calls).fold(0, |_, _| black_box(call()))
}

/// The place of the last request, from rows to a number; and the search alone, on requests that lie ready.
fn cases_of(name: &str, requests: &[Request]) -> [Case<'static>; 2] {
    assert!(same_answers(15, requests), "{name}: the answers differ");
    let (rows, count) = (to_rows(requests), requests.len());
    let entries = to_entries(&rows);
    let whole = Case {
        name: format!("first_plan, {name}"),
        ours: Box::new(move || {
            repeated(CALLS, || proved::first_plan(black_box(15), black_box(&rows), black_box(count), count - 1))
        }),
        theirs: Box::new(move || repeated(CALLS, || place_number(black_box(15), black_box(&rows), black_box(count), count - 1))),
        units: CALLS,
        rounds: ROUNDS,
    };
    let search = Case {
        name: format!("search, {name}"),
        ours: Box::new(move || repeated(CALLS, || proved::plan_rows(black_box(15), black_box(&rows), black_box(count)))),
        theirs: Box::new(move || {
            repeated(CALLS, || {
                black_box(first_plan(setup_for(black_box(15)), &black_box(&entries)[..black_box(count)])).is_some() as u64
            })
        }),
        units: CALLS,
        rounds: ROUNDS,
    };
    [whole, search]
}

pub fn cases() -> Vec<Case<'static>> {
    let event = |allowed| Request::Event { code: 0xC0, mask: 0, allowed };
    let offcore = |word| Request::Offcore { word, allowed: 15 };
    let latency = Request::Latency { types: 1, first: 15, second: 15 };
    let lists: [(&str, &[Request]); 4] = [
        ("free events", &[event(15), event(15), event(15), event(15)]),
        ("pinned events", &[event(15), event(7), event(3), event(1)]),
        ("offcore and latency", &[offcore(0x10001), latency, event(15)]),
        ("no plan", &[offcore(0x10001), offcore(0x10002), offcore(0x10004), event(15)]),
    ];
    lists.iter().flat_map(|(name, requests)| cases_of(name, requests)).collect()
}
