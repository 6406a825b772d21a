//! Requests as rows of four numbers, the form in which the proved planner takes them here: the kind, and what it holds.

use crate::planner::requests::Request;

pub fn to_row(request: Request) -> [u64; 4] {
    match request {
        Request::Event { code, mask, allowed } => [0, code as u64, mask as u64, allowed],
        Request::Packet { match_word, mask_word, allowed } => [1, match_word, mask_word, allowed],
        Request::Offcore { word, allowed } => [2, word, 0, allowed],
        Request::Latency { types, first, second } => [3, types as u64, first, second],
    }
}

pub fn to_request(row: &[u64]) -> Request {
    match row[0] {
        0 => Request::Event { code: row[1] as u8, mask: row[2] as u8, allowed: row[3] },
        1 => Request::Packet { match_word: row[1], mask_word: row[2], allowed: row[3] },
        2 => Request::Offcore { word: row[1], allowed: row[3] },
        _ => Request::Latency { types: row[1] as u16, first: row[2], second: row[3] },
    }
}
