//! Kinds of `named` lines that a wrong look-up would stumble over.

use crate::names::model::{rows_of, Row};
use crate::names::{Texts, NAME_LIMIT};
use crate::planner::model::Session;

/// A `named` line in the grammar, with the rows of the lists (nothing where one is ill-formed), and the letter of the open
/// device before it; its answer is the number of the refusal, or 0 for `ok`.
pub struct Looked<'a> {
    name: &'a [u8],
    answer: usize,
    letter: Option<u8>,
    site: Option<Vec<Row<'a>>>,
    house: Option<Vec<Row<'a>>>,
}

type Test = fn(&Looked) -> bool;

pub const KINDS: [(&str, Test); 17] = [
    ("1 by the site's list alone", |line| line.answer == 1 && line.site.is_none() && line.house.is_some()),
    ("1 by the house's list alone", |line| line.answer == 1 && line.site.is_some() && line.house.is_none()),
    ("1 by a list before open", |line| line.answer == 1 && line.letter.is_none()),
    ("4 or 5, the name is in neither list", |line| line.refused(&[4, 5]) && line.found().is_none()),
    ("4 or 5, the row is for another device", |line| line.refused(&[4, 5]) && line.is_foreign()),
    ("7, a row below is for this device", |line| line.refused(&[7]) && line.own_below()),
    ("7, the house's row is for this device", |line| line.refused(&[7]) && line.own_in_house()),
    ("8, a row's name begins with it", |line| line.refused(&[8]) && line.begins(|row, name| row.starts_with(name))),
    ("8, it begins with a row's name", |line| line.refused(&[8]) && line.begins(|row, name| name.starts_with(row))),
    ("8, both lists are empty", |line| line.refused(&[8]) && line.rows().next().is_none()),
    ("8 by the row's own pair", |line| line.refused(&[8]) && line.found().is_some()),
    ("ok by the site's row", |line| line.answer == 0 && line.in_site()),
    ("ok by the house's row", |line| line.answer == 0 && !line.in_site()),
    ("ok by the site's row, the house's is another", |line| line.answer == 0 && line.in_site() && line.other_in_house()),
    ("ok by the topmost of two rows", |line| line.answer == 0 && line.other_below()),
    ("ok by the last of all rows", |line| line.answer == 0 && line.rows().last().map(|row| row.0) == Some(line.name)),
    ("ok by a name of 40 bytes", |line| line.answer == 0 && line.name.len() == NAME_LIMIT),
];

impl<'a> Looked<'a> {
    pub fn at(session: &Session, texts: &'a Texts, name: &'a [u8], answer: usize) -> Looked<'a> {
        let letter = session.setup.map(|setup| setup.device.letter);
        Looked { name, answer, letter, site: rows_of(&texts.site), house: rows_of(&texts.house) }
    }

    /// Whether one of these numbers refuses it, where both lists are well-formed.
    fn refused(&self, numbers: &[usize]) -> bool {
        self.site.is_some() && self.house.is_some() && numbers.contains(&self.answer)
    }

    /// The rows of both lists, the site's first.
    fn rows(&self) -> impl Iterator<Item = &Row<'a>> {
        self.site.iter().flatten().chain(self.house.iter().flatten())
    }

    fn named<'b>(&'b self, rows: &'b Option<Vec<Row<'a>>>) -> impl Iterator<Item = &'b Row<'a>> {
        rows.iter().flatten().filter(|row| row.0 == self.name)
    }

    fn found(&self) -> Option<&Row<'a>> {
        self.rows().find(|row| row.0 == self.name)
    }

    fn in_site(&self) -> bool {
        self.named(&self.site).next().is_some()
    }

    fn is_own(&self, row: &Row) -> bool {
        self.letter == Some(row.1.letter)
    }

    fn is_foreign(&self) -> bool {
        self.found().is_some_and(|row| !self.is_own(row))
    }

    /// The rows of this name below the found one, in its list.
    fn below(&self) -> impl Iterator<Item = &Row<'a>> {
        let list = if self.in_site() { &self.site } else { &self.house };
        self.named(list).skip(1)
    }

    fn own_below(&self) -> bool {
        self.below().any(|row| self.is_own(row))
    }

    fn other_below(&self) -> bool {
        self.below().any(|row| Some(row) != self.found())
    }

    fn own_in_house(&self) -> bool {
        self.in_site() && self.named(&self.house).next().is_some_and(|row| self.is_own(row))
    }

    fn other_in_house(&self) -> bool {
        self.named(&self.house).next().is_some_and(|row| Some(row) != self.found())
    }

    /// Whether no row has the name, but one stands so to it.
    fn begins(&self, test: fn(&[u8], &[u8]) -> bool) -> bool {
        self.found().is_none() && self.rows().any(|row| test(row.0, self.name))
    }
}
