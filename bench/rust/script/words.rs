//! The words of a call as what it is given; nothing where they are not in the notation.

use crate::planner::devices::Opening;
use crate::planner::requests::Request;

/// What a lent slice holds before a call.
pub const KEPT: u64 = 0xEEEE;
pub const LONGEST_SLICE: u64 = 8192;

pub fn decimal(word: &str) -> Option<u64> {
    if word.bytes().all(|b| b.is_ascii_digit()) {
        word.parse().ok()
    } else {
        None
    }
}

pub fn hex(word: &str) -> Option<u64> {
    let digits = word.bytes().all(|b| b.is_ascii_digit() || (b'A'..=b'F').contains(&b));
    if digits && (1..=16).contains(&word.len()) {
        u64::from_str_radix(word, 16).ok()
    } else {
        None
    }
}

fn letter(word: &str) -> Option<u64> {
    if word.len() == 1 {
        Some(word.as_bytes()[0] as u64)
    } else {
        None
    }
}

/// A slice of so many numbers, as it is before a call.
pub fn slice(length: &str) -> Option<Vec<u64>> {
    match decimal(length)? {
        length @ 0..=LONGEST_SLICE => Some(vec![KEPT; length as usize]),
        _ => None,
    }
}

/// A core, or `-` for none.
fn core(word: &str) -> Option<Option<u64>> {
    match word {
        "-" => Some(None),
        _ => decimal(word).map(Some),
    }
}

pub fn opening(words: &[&str]) -> Option<Opening> {
    match words {
        [device, usable, fixed, box_number, freeze, at] => Some(Opening {
            letter: letter(device)?,
            usable: decimal(usable)?,
            fixed: decimal(fixed)?,
            box_number: decimal(box_number)?,
            freeze: decimal(freeze)?,
            core: core(at)?,
        }),
        _ => None,
    }
}

pub fn request(words: &[&str]) -> Option<Request> {
    Some(match words {
        ["event", code, mask, allowed] => {
            Request::Event { code: hex(code)?.try_into().ok()?, mask: hex(mask)?.try_into().ok()?, allowed: decimal(allowed)? }
        }
        ["packet", match_word, mask_word, allowed] => {
            Request::Packet { match_word: hex(match_word)?, mask_word: hex(mask_word)?, allowed: decimal(allowed)? }
        }
        ["offcore", word, allowed] => Request::Offcore { word: hex(word)?, allowed: decimal(allowed)? },
        ["latency", types, first, second] => {
            Request::Latency { types: hex(types)?.try_into().ok()?, first: decimal(first)?, second: decimal(second)? }
        }
        _ => return None,
    })
}
