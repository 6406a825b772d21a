//! The rules of lent rows as order 8 words them, each by itself. A record is vacant where its id is 0; the others wait.

use super::plan::first_plan;
use super::refusal_of;
use crate::planner::devices::Setup;
use crate::planner::requests::{Entry, VACANT};

/// Whether rows break a rule in a session with this setup.
type Broken = fn(Setup, &[Entry]) -> bool;

pub const RULES: [(&str, Broken); 6] = [
    ("equal ids", |_, rows| equal_ids(rows).is_some()),
    ("an id above 65535", |_, rows| rows.iter().any(|row| row.id > 65535)),
    ("an ill-formed request", |setup, rows| waiting(rows).any(|row| refusal_of(setup.device, row.request).is_some())),
    ("a request with no plan by itself", |setup, rows| waiting(rows).any(|row| first_plan(setup, &[row.request]).is_none())),
    ("a vacant record before a waiting one", |_, rows| waiting(&rows[front(rows)..]).next().is_some()),
    ("a vacant record that is not all 0", |_, rows| rows.iter().any(|row| row.id == 0 && *row != VACANT)),
];

/// How many wait before the first vacant record.
pub fn front(rows: &[Entry]) -> usize {
    rows.iter().take_while(|row| row.id != 0).count()
}

pub fn waiting(rows: &[Entry]) -> impl Iterator<Item = &Entry> {
    rows.iter().filter(|row| row.id != 0)
}

/// The places of the first two records that wait with one id.
pub fn equal_ids(rows: &[Entry]) -> Option<(usize, usize)> {
    let pairs = (0..rows.len()).flat_map(|later| (0..later).map(move |earlier| (earlier, later)));
    pairs.filter(|&(_, later)| rows[later].id != 0).find(|&(earlier, later)| rows[earlier].id == rows[later].id)
}

/// Whether the rows break no rule.
pub fn sound(setup: Setup, rows: &[Entry]) -> bool {
    RULES.iter().all(|(_, broken)| !broken(setup, rows))
}
