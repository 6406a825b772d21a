//! The checks of an opening and of a request as tables (order 11): a row has a number, a field and whether that field fails
//! under that number. The rows stand in the order of the numbers, and those of one number from the left: the first that fails
//! is the answer.

use super::{c_box, sandy_bridge};
use crate::planner::devices::{Device, Filters, Opening, Setup};
use crate::planner::refusal::Refusal;
use crate::planner::requests::{Request, MASK_BITS, MATCH_BITS};
use crate::planner::u_box;

type Row = (u8, u8, bool);

fn first_of(rows: &[Row]) -> Option<Refusal> {
    rows.iter().find(|row| row.2).map(|&(number, field, _)| Refusal { number, field })
}

/// The number that refuses an event's code and mask: by the printed pages on C, by the list of pairs on B, and elsewhere by the
/// first row with the code.
fn pair_refusal(device: &Device, code: u8, mask: u8) -> Option<u64> {
    match device.letter {
        b'C' => c_box::event_refusal(code, mask),
        b'B' => sandy_bridge::event_refusal(code, mask),
        _ => device.row_refusal(device.events.iter().find(|event| event.code == code), mask),
    }
}

/// Whether a word has one of these bits.
fn has(word: u64, bits: &[u64]) -> bool {
    bits.iter().any(|bit| word >> bit & 1 == 1)
}

/// The bits of an offcore word as document 01 lists them, with order 1's 18 beside the snoop answers.
fn offcore_rows(word: u64, set: bool) -> Vec<Row> {
    let types: Vec<u64> = (0..=5).chain(7..=15).collect();
    let answers = [18, 33, 34, 36, 37];
    let permitted = [&types[..], &[16], &answers, &[38]].concat();
    let reserved: Vec<u64> = (0..64).filter(|bit| !permitted.contains(bit)).collect();
    let response = has(word, &[16]) || has(word, &answers);
    vec![
        (10, 2, has(word, &reserved)),
        (10, 3, set),
        (9, 2, !has(word, &types) || !response && !has(word, &[38])),
        (11, 2, has(word, &[38]) || has(word, &[16]) && has(word, &answers)),
    ]
}

/// The rows of a request, of which 7 is the first.
fn request_rows(device: &Device, request: Request) -> Vec<Row> {
    let above = |set: u64| set > device.all();
    let without = |filters| (7, 0, device.filters != filters);
    match request {
        Request::Event { code, mask, allowed } => {
            let pair = pair_refusal(device, code, mask);
            vec![(8, 2, pair == Some(8)), (10, 3, pair == Some(10)), (10, 4, above(allowed)), (9, 3, pair == Some(9))]
        }
        Request::Packet { match_word, mask_word, allowed } => {
            let (of_match, of_mask) = (match_word & !MATCH_BITS != 0, mask_word & !MASK_BITS != 0);
            vec![without(Filters::PacketMatch), (10, 2, of_match), (10, 3, of_mask), (10, 4, above(allowed))]
        }
        Request::Offcore { word, allowed } => {
            [vec![without(Filters::OffcoreResponse)], offcore_rows(word, above(allowed))].concat()
        }
        Request::Latency { types, first, second } => vec![
            without(Filters::OffcoreResponse),
            (10, 2, has(types as u64, &[6])),
            (10, 3, above(first)),
            (10, 4, above(second)),
            (9, 2, types == 0),
        ],
    }
}

/// The refusal of a request by the checks 7, 8, 10, 9 and 11.
pub fn refusal_of(device: &Device, request: Request) -> Option<Refusal> {
    first_of(&request_rows(device, request))
}

/// The rows of an opening of this device. On a device with several boxes the box stands before the freeze and the core.
fn opening_rows(device: &Device, opening: Opening) -> [Row; 6] {
    let Opening { usable, fixed, box_number, freeze, core, .. } = opening;
    let shift = (device.boxes.len() > 1) as u8;
    [
        (3, 2, usable == 0 || usable > device.all()),
        (3, 3, fixed > device.fixed),
        (3, 4, box_number >= device.boxes.len() as u64),
        (7, 0, !device.uncore && (freeze, core) != (0, None)),
        (10, 4 + shift, freeze > 1),
        (10, 5 + shift, core.is_some_and(|core| core >= u_box::CORES)),
    ]
}

/// The setup of an opening that is accepted.
pub fn setup_of(opening: Opening) -> Result<Setup, Refusal> {
    let Opening { letter, usable, fixed, box_number, freeze, core } = opening;
    let device = Device::named(letter).ok_or(Refusal::at(3, 1))?;
    match first_of(&opening_rows(device, opening)) {
        Some(refusal) => Err(refusal),
        None => Ok(Setup { device, usable, fixed, box_number, freeze, core }),
    }
}
