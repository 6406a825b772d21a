//! The rules of lent rows (order 8), judged in one pass.

use super::road::Road;
use crate::planner::devices::Setup;
use crate::planner::requests::{refusal_of, Entry, Request, VACANT};
use crate::planner::RECORDS;

/// A bit for each id up to 65535.
struct Seen([u64; 1024]);

impl Seen {
    /// Whether the id is seen for the first time.
    fn first(&mut self, id: u64) -> bool {
        let (word, bit) = (&mut self.0[(id >> 6) as usize], 1 << (id & 63));
        let first = *word & bit == 0;
        *word |= bit;
        first
    }
}

/// Whether so many records can be lent.
pub fn lendable(rows: &[Entry]) -> bool {
    (1..=RECORDS).contains(&rows.len())
}

/// How many of the rows wait, each with a plan alone; none where they are too few or too many or break a rule. Behind the first
/// vacant record all must be vacant.
#[inline(always)]
fn waiting_with(setup: Setup, rows: &[Entry], plans_alone: impl Fn(&Setup, &Request) -> bool) -> Option<usize> {
    if !lendable(rows) {
        return None;
    }
    let mut seen = Seen([0; 1024]);
    let count = rows.iter().position(|row| row.id == 0).unwrap_or(rows.len());
    let (queue, rest) = rows.split_at(count);
    let sound = queue.iter().all(|row| {
        row.id <= 65535
            && seen.first(row.id)
            && refusal_of(setup.device, row.request).is_none()
            && plans_alone(&setup, &row.request)
    });
    (sound && rest.iter().all(|row| *row == VACANT)).then_some(count)
}

#[inline(never)]
fn waiting_precise<R: Road>(setup: Setup, rows: &[Entry]) -> Option<usize> {
    waiting_with(setup, rows, R::plans_precise)
}

/// How many of the rows wait; whether some events are precise is asked once for all rows.
pub fn waiting<R: Road>(setup: Setup, rows: &[Entry]) -> Option<usize> {
    match setup.device.has_precise() {
        false => waiting_with(setup, rows, R::has_place),
        true => waiting_precise::<R>(setup, rows),
    }
}
