//! The calls of a session: the same answers on random lists of calls, and turns to measure.

use crate::cases::Case;
use crate::numbers::Numbers;
use crate::planner::devices::Opening;
use crate::planner::fast::session::Session;
use crate::planner::refusal::Refusal;
use crate::planner::requests::Request;
use crate::planner::{model, Calls, Turn};
use crate::rows::{to_request, to_row};
use crate::searches::random_request;
use std::hint::black_box;

const RANDOM_LISTS: usize = 20_000;
const CALLS_IN_A_LIST: usize = 60;
const ROUNDS: usize = 2_000;
const TURNS: usize = 200;

/// The numbers of a call (an open has 0, the device, the usable set, the fixed enables and the box), and of its answer: the
/// refusal or 0, the number taken, the number of writes, the slice.
const CALL: usize = 6;
/// The room of a turn. These openings ask nothing of an overflow: their turns have at most 20 writes.
const LIST: usize = 40;
const ANSWER: usize = 3 + LIST;

mod proved {
    extern "C" {
        fn rattle_calls(calls: *const u64, count: usize, answers: *mut u64, room: usize) -> usize;
        fn rattle_turns(device: u64, usable: u64, rows: *const u64, count: usize, turns: usize) -> usize;
    }

    pub fn calls(calls: &[u64], answers: &mut [u64]) -> usize {
        unsafe { rattle_calls(calls.as_ptr(), calls.len(), answers.as_mut_ptr(), answers.len()) }
    }

    pub fn turns(device: u64, usable: u64, rows: &[u64], turns: usize) -> usize {
        unsafe { rattle_turns(device, usable, rows.as_ptr(), rows.len(), turns) }
    }
}

/// One call, with its answer in the same numbers as the proved planner's.
fn called(session: &mut impl Calls, call: &[u64], answer: &mut [u64]) {
    let outcome = match call[0] {
        0 => session.open(Opening::plain(call[1], call[2], call[3], call[4])),
        1 => session.add(call[1], to_request(&call[2..])),
        2 => session.drop(call[1]),
        _ => session.turn(&mut answer[3..3 + LIST.min(call[1] as usize)]).map(|turn| {
            answer[1] = turn.count as u64;
            answer[2] = turn.writes as u64;
        }),
    };
    answer[0] = outcome.err().map_or(0, |refusal| refusal.number as u64);
}

/// The answers to a list of calls. What a call does not answer is 7 in the slice and 0 before it.
fn answers_of<Session: Calls>(calls: &[u64]) -> Vec<u64> {
    let mut session = Session::new();
    let mut answers = vec![7; CALLS_IN_A_LIST * ANSWER];
    for (call, answer) in calls.chunks(CALL).zip(answers.chunks_mut(ANSWER)) {
        answer[1..3].fill(0);
        called(&mut session, call, answer);
    }
    answers
}

fn proved_answers(calls: &[u64]) -> Vec<u64> {
    let mut answers = vec![7; CALLS_IN_A_LIST * ANSWER];
    assert_eq!(proved::calls(calls, &mut answers), CALLS_IN_A_LIST);
    for answer in answers.chunks_mut(ANSWER) {
        if answer[1..3] == [7, 7] {
            answer[1..3].fill(0);
        }
    }
    answers
}

/// A request that is well-formed more often than not.
fn likely_request(numbers: &mut Numbers) -> Request {
    let set = |numbers: &mut Numbers| numbers.pick(&[15, 15, 1, 2, 6, 12, 16, 48, 63, 64]);
    let codes = [
        (0xC0, 0),
        (0x3C, 0),
        (0x2E, 0x41),
        (0x51, 3),
        (0x31, 1),
        (0x52, 0),
        (0x51, 4),
        (0x31, 0),
        (0xB7, 1),
        (0x19, 0),
        (0x19, 1),
        (0x1F, 0),
        (0x0B, 0x18),
        (0x0B, 0),
        (0x0E, 1),
        (0x14, 5),
        (0x28, 0xFF),
        (0xC0, 1),
        (0xCD, 2),
        (0xCD, 1),
    ];
    let words = [0x10001, 0x10002, 0x10004, 0x1_2000_0001, 0x10040, 1, 0x2_0001_0001, 0x8001_0001, 0x40001, 0x50001, 0x60001];
    let masks = [0, 1, 0, 1, 1 << 38, 1 << 39, 1 << 63];
    match numbers.below(10) {
        0 => random_request(numbers),
        1..=4 => {
            let (code, mask) = numbers.pick(&codes);
            Request::Event { code, mask, allowed: set(numbers) }
        }
        5 | 6 => Request::Packet { match_word: numbers.below(2), mask_word: numbers.pick(&masks), allowed: set(numbers) },
        7 | 8 => Request::Offcore { word: numbers.pick(&words), allowed: set(numbers) },
        _ => Request::Latency { types: numbers.pick(&[1, 2, 0x40, 0]), first: set(numbers), second: set(numbers) },
    }
}

fn open_call(numbers: &mut Numbers) -> [u64; CALL] {
    let letter = numbers.pick(&[71, 83, 67, 67, 66, 66, 72]);
    let (four, six) = (numbers.below(17), numbers.below(65));
    let quiet = numbers.pick(&[15, four]);
    let usable = match letter {
        67 => six,
        66 => quiet,
        _ => four,
    };
    [0, letter, usable, numbers.pick(&[0, 0, 0, 1, 5, 7, 8]), numbers.pick(&[0, 0, 0, 1, 2, 4, 7, 8]), 0]
}

fn call(numbers: &mut Numbers, place: usize) -> [u64; CALL] {
    let verb = if place == 0 { 0 } else { numbers.pick(&[0, 1, 1, 1, 1, 1, 2, 3, 3, 3, 3]) };
    match verb {
        0 => open_call(numbers),
        1 => {
            let row = to_row(likely_request(numbers));
            [1, numbers.below(24), row[0], row[1], row[2], row[3]]
        }
        2 => [2, numbers.below(24), 0, 0, 0, 0],
        _ => {
            let short = numbers.below(41);
            [3, numbers.pick(&[40, 40, 40, 44, short]), 0, 0, 0, 0]
        }
    }
}

/// All planners answer the same on random lists of calls.
pub fn compare_answers(numbers: &mut Numbers) {
    for n in 0..RANDOM_LISTS {
        let calls: Vec<u64> = (0..CALLS_IN_A_LIST).flat_map(|place| call(numbers, place)).collect();
        let clear = answers_of::<model::Session>(&calls);
        assert!(clear == answers_of::<Session>(&calls), "random list of calls {n}: the fast planner and the model differ");
        assert!(clear == proved_answers(&calls), "random list of calls {n}: the proved planner and the model differ");
    }
    println!("{RANDOM_LISTS} random lists of {CALLS_IN_A_LIST} calls: the same answers");
}

/// A turn across a library's boundary, as the proved one is called.
#[inline(never)]
fn turn(session: &mut Session, list: &mut [u64]) -> Result<Turn, Refusal> {
    session.turn(list)
}

/// The writes of the last of the turns, as the proved side makes them.
fn rust_turns(letter: u64, usable: u64, rows: &[u64], turns: usize) -> usize {
    let mut session = Session::new();
    session.open(Opening::plain(letter, usable, 0, 0)).unwrap();
    for (i, row) in rows.chunks(4).enumerate() {
        session.add(i as u64 + 1, to_request(row)).unwrap();
    }
    let mut list = [0; LIST];
    let mut writes = 0;
    for _ in 0..turns {
        writes = turn(&mut session, &mut list).unwrap().writes;
    }
    writes
}

/// A queue of so many requests: all free, all on one counter, or mixed. On C they are events alone, some of them on counter 0; on
/// B one of four must be alone, and one is a precise store.
fn queue(kind: &str, length: usize) -> Vec<u64> {
    let event = |code, allowed| Request::Event { code, mask: 0, allowed };
    let mixed = [
        Request::Offcore { word: 0x10001, allowed: 15 },
        Request::Latency { types: 1, first: 15, second: 15 },
        event(0xC0, 1),
        Request::Offcore { word: 0x10002, allowed: 12 },
        event(0xC0, 15),
        Request::Latency { types: 2, first: 3, second: 12 },
    ];
    let half = [event(0x19, 63), event(0x19, 1)];
    let precise = |code, mask| Request::Event { code, mask, allowed: 15 };
    let fourth = [event(0xC0, 15), precise(0xCD, 2), event(0xC4, 15), precise(0xC0, 1)];
    let request = |i| match kind {
        "free" => event(0xC0, 15),
        "pinned" => event(0xC0, 1),
        "free on C" => event(0x19, 63),
        "pinned on C" => event(0x19, 1),
        "half pinned on C" => half[i % half.len()],
        "5 free, 1 pinned on C" => event(0x19, if i < 5 { 63 } else { 1 }),
        "mixed on B" => fourth[i % fourth.len()],
        "4 free, 2 pinned on C" => event(0x19, if i < 4 { 63 } else { 1 }),
        _ => mixed[i % mixed.len()],
    };
    (0..length).flat_map(|i| to_row(request(i))).collect()
}

fn case(letter: u64, usable: u64, kind: &str, length: usize) -> Case<'static> {
    let rows = queue(kind, length);
    assert_eq!(proved::turns(letter, usable, &rows, 37), rust_turns(letter, usable, &rows, 37));
    let same_rows = rows.clone();
    Case {
        name: format!("turn, {kind}, {length} waiting"),
        ours: Box::new(move || proved::turns(letter, usable, black_box(&rows), TURNS) as u64),
        theirs: Box::new(move || rust_turns(letter, usable, black_box(&same_rows), TURNS) as u64),
        units: TURNS,
        rounds: ROUNDS,
    }
}

pub fn cases() -> Vec<Case<'static>> {
    let on_g = ["free", "pinned", "mixed"].map(|kind| (71, 15, kind));
    let on_c = ["free on C", "pinned on C", "half pinned on C"].map(|kind| (67, 63, kind));
    let kinds = on_g.into_iter().chain(on_c);
    let queues = kinds.flat_map(|(letter, usable, kind)| [1, 4, 16].map(|length| case(letter, usable, kind, length)));
    let crowded = ["5 free, 1 pinned on C", "4 free, 2 pinned on C"].map(|kind| case(67, 63, kind, 6));
    queues.chain(crowded).chain([case(66, 15, "mixed on B", 16)]).collect()
}
