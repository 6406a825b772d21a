//! The fastest look-up known: both lists are checked once, and their names kept in a table by their hashes.

use super::road::front_of;
use super::{Lists, Texts};
use crate::planner::refusal::Refusal;
use crate::planner::requests::NamedEvent;
use std::collections::HashMap;
use std::hash::{BuildHasherDefault, Hasher};

/// A hash of few instructions for short names (FNV-1a), which nobody chooses against us.
pub struct ShortHash(u64);

impl Default for ShortHash {
    fn default() -> ShortHash {
        ShortHash(0xCBF2_9CE4_8422_2325)
    }
}

impl Hasher for ShortHash {
    fn write(&mut self, bytes: &[u8]) {
        for &byte in bytes {
            self.0 = (self.0 ^ byte as u64).wrapping_mul(0x100_0000_01B3);
        }
    }

    fn write_usize(&mut self, length: usize) {
        self.0 ^= length as u64;
    }

    fn finish(&self) -> u64 {
        self.0
    }
}

type Table<'a> = HashMap<&'a [u8], NamedEvent, BuildHasherDefault<ShortHash>>;

/// The table, or nothing where a row is ill-formed.
pub struct Index<'a> {
    table: Option<Table<'a>>,
}

/// Adds the rows of a list; a name that is there keeps its row.
fn enter<'a>(table: &mut Table<'a>, list: &'a [u8]) -> Option<()> {
    let mut rest = list;
    while !rest.is_empty() {
        let front = front_of(rest)?;
        table.entry(front.name).or_insert(front.event);
        rest = front.below;
    }
    Some(())
}

fn table_of(texts: &Texts) -> Option<Table<'_>> {
    let mut table = Table::default();
    enter(&mut table, &texts.site)?;
    enter(&mut table, &texts.house)?;
    Some(table)
}

impl Index<'_> {
    pub fn of(texts: &Texts) -> Index<'_> {
        Index { table: table_of(texts) }
    }
}

impl Lists for Index<'_> {
    fn look_up(&self, name: &[u8]) -> Result<Option<NamedEvent>, Refusal> {
        let table = self.table.as_ref().ok_or(Refusal::whole(1))?;
        Ok(table.get(name).copied())
    }
}
