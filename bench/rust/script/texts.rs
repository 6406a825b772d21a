//! What is printed after a call, line by line; the last line is without its newline.

use super::words::KEPT;
use crate::planner::model::reader::State;
use crate::planner::refusal::Refusal;
use crate::planner::requests::{Entry, Place, Request, VACANT};
use crate::planner::Turn;

pub fn answer<T>(result: &Result<T, Refusal>) -> String {
    match result {
        Ok(_) => "ok".into(),
        Err(Refusal { number, field }) => format!("no {number} {field}"),
    }
}

pub fn queue(entries: &[Entry]) -> String {
    entries.iter().fold("queue".into(), |text, entry| format!("{text} {}", entry.id))
}

pub fn slice(name: &str, numbers: &[u64]) -> String {
    let end = numbers.iter().rposition(|&n| n != KEPT).map_or(0, |last| last + 1);
    let text = numbers[..end].iter().fold(name.into(), |text: String, n| format!("{text} {n:X}"));
    if end < numbers.len() {
        format!("{text} kept*{}", numbers.len() - end)
    } else {
        text
    }
}

/// A `take` line, with its newline, for each counter of a plan.
fn takes(turn: &Turn) -> String {
    let mut text = String::new();
    for (entry, place) in turn.taken.iter().zip(turn.places).take(turn.count) {
        let id = entry.id;
        text += &match place {
            Place::Counter(k) => format!("take {id} {k} -\n"),
            Place::WithRsp(k, i) => format!("take {id} {k} {i}\n"),
            Place::Pair(j, k) => format!("take {id} {j} 0\ntake {id} {k} 1\n"),
        };
    }
    text
}

/// A turn's plan and its answer.
pub fn taken(result: &Result<Turn, Refusal>) -> String {
    let plan = result.as_ref().map_or(String::new(), takes);
    format!("{plan}{}", answer(result))
}

/// A turn's plan, its answer and the slice.
pub fn turn(result: &Result<Turn, Refusal>, list: &[u64]) -> String {
    format!("{}\n{}", taken(result), slice("list", list))
}

pub fn told(state: State) -> String {
    match state {
        State::NotOurs => "not-ours".into(),
        State::Off => "off".into(),
        State::Counts { register: Some(i), words: [Some(word), _], .. } => format!("rsp:{i}:{word:X}"),
        State::Counts { words: [Some(x), Some(y)], .. } => format!("packet:{x:X}:{y:X}"),
        State::Counts { code, mask, .. } => format!("event:{code:02X}:{mask:02X}"),
    }
}

/// A record with these marks between its id, its kind and its numbers.
pub fn record(Entry { id, request }: &Entry, mark: char) -> String {
    match request {
        Request::Event { code, mask, allowed } => format!("{id}{mark}event{mark}{code:X}{mark}{mask:X}{mark}{allowed}"),
        Request::Packet { match_word, mask_word, allowed } => {
            format!("{id}{mark}packet{mark}{match_word:X}{mark}{mask_word:X}{mark}{allowed}")
        }
        Request::Offcore { word, allowed } => format!("{id}{mark}offcore{mark}{word:X}{mark}{allowed}"),
        Request::Latency { types, first, second } => format!("{id}{mark}latency{mark}{types:X}{mark}{first}{mark}{second}"),
    }
}

/// All records; those that are vacant and all 0 as `v`, and several of them in a row as `v*COUNT`.
pub fn rows(rows: &[Entry]) -> String {
    let parts = rows.chunk_by(|one, next| *one == VACANT && *next == VACANT);
    parts.fold("rows".into(), |text, part| match part {
        [VACANT] => format!("{text} v"),
        [VACANT, ..] => format!("{text} v*{}", part.len()),
        _ => format!("{text} {}", record(&part[0], '/')),
    })
}
