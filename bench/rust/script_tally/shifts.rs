//! Kinds of shifts of turns.

use crate::planner::SHIFT;

/// A shift of turns: how many, the ends that there is room for, and the lines of the answer.
pub struct Shift<'a> {
    count: u64,
    room: u64,
    answer: &'a str,
    lists: &'a str,
    ends: &'a str,
}

type Test = fn(&Shift) -> bool;

pub const SHIFTS: [(&str, Test); 7] = [
    ("no turn", |shift| shift.accepted() && shift.count == 0),
    ("as many turns as there may be", |shift| shift.accepted() && shift.count == SHIFT),
    ("both slices just fit", |shift| shift.accepted() && shift.count > 0 && !shift.keeps(shift.lists) && !shift.keeps(shift.ends)),
    ("room behind the lists and the ends", |shift| shift.accepted() && shift.keeps(shift.lists) && shift.keeps(shift.ends)),
    ("lists of different lengths", |shift| shift.accepted() && shift.lengths().windows(2).any(|pair| pair[0] != pair[1])),
    ("too few ends", |shift| shift.answer == "no 14 0" && shift.room < shift.count),
    ("too few numbers", |shift| shift.answer == "no 14 0" && shift.room >= shift.count),
];

impl Shift<'_> {
    pub fn of<'a>(words: &[&str], answer: &'a str) -> Option<Shift<'a>> {
        let lines: Vec<&str> = answer.lines().collect();
        match (words, &lines[..]) {
            (["turns", count, _, room], [answer, lists, ends, _]) => {
                Some(Shift { count: count.parse().ok()?, room: room.parse().ok()?, answer, lists, ends })
            }
            _ => None,
        }
    }

    fn accepted(&self) -> bool {
        self.answer == "ok"
    }

    fn keeps(&self, slice: &str) -> bool {
        slice.contains("kept")
    }

    /// The lengths of the lists.
    fn lengths(&self) -> Vec<u64> {
        let ends = self.ends.split(' ').filter_map(|word| u64::from_str_radix(word, 16).ok());
        let mut start = 0;
        ends.map(|end| end - std::mem::replace(&mut start, end)).collect()
    }
}
