//! The words of the lent session: `rows N`, N vacant records in place of those before; `row I ID KIND ..`, the host writes
//! record I, counted from 0; and the calls `ropen`, `radd`, `rdrop` and `rturn`, with the words of `open`, `add`, `drop` and
//! `turn`. After a call the line `rows` has all records. `rrun N LENGTH` is N turns, each told without its list, and the rows
//! after the last.

use super::texts;
use super::words::{decimal, opening, request, slice};
use crate::planner::requests::{Entry, VACANT};
use crate::planner::LentCalls;

/// The most records that a script can have, more than can be lent.
const MOST_ROWS: u64 = 512;

/// The most turns of one line.
const MOST_TURNS: u64 = 1024;

/// A lent session, and the rows that the host lends to its calls. At the start of a script there are none.
#[derive(Clone)]
pub struct Lent<Session> {
    pub session: Session,
    pub rows: Vec<Entry>,
}

impl<Session: LentCalls> Lent<Session> {
    pub fn new() -> Lent<Session> {
        Lent { session: Session::new(), rows: Vec::new() }
    }

    /// So many vacant records in place of those before.
    fn lend(&mut self, count: &str) -> Option<()> {
        let count = decimal(count).filter(|count| *count <= MOST_ROWS)?;
        self.rows = vec![VACANT; count as usize];
        Some(())
    }

    /// The host writes a record.
    fn write(&mut self, at: &str, id: &str, words: &[&str]) -> Option<()> {
        let row = Entry { id: decimal(id)?, request: request(words)? };
        *self.rows.get_mut(usize::try_from(decimal(at)?).ok()?)? = row;
        Some(())
    }

    fn turn(&mut self, length: &str) -> Option<String> {
        let mut list = slice(length)?;
        let result = self.session.turn(&mut self.rows, &mut list);
        Some(texts::turn(&result, &list))
    }

    /// Turns one after another with one slice.
    fn turns(&mut self, count: &str, length: &str) -> Option<String> {
        let count = decimal(count).filter(|count| *count <= MOST_TURNS)?;
        let mut list = slice(length)?;
        let turn = |_| texts::taken(&self.session.turn(&mut self.rows, &mut list)) + "\n";
        Some((0..count).map(turn).collect())
    }

    /// What is printed for an edit, nothing, or for a call; none where the words are not in the notation.
    pub fn answer(&mut self, words: &[&str]) -> Option<String> {
        let answer = match words {
            ["rows", count] => return self.lend(count).map(|()| String::new()),
            ["row", at, id, rest @ ..] => return self.write(at, id, rest).map(|()| String::new()),
            ["ropen", rest @ ..] => texts::answer(&self.session.open(&mut self.rows, opening(rest)?)),
            ["radd", id, rest @ ..] => texts::answer(&self.session.add(&mut self.rows, decimal(id)?, request(rest)?)),
            ["rdrop", id] => texts::answer(&self.session.drop(&mut self.rows, decimal(id)?)),
            ["rturn", length] => self.turn(length)?,
            ["rrun", count, length] => self.turns(count, length)?,
            _ => return None,
        };
        let rows = texts::rows(&self.rows);
        Some(if answer.ends_with('\n') || answer.is_empty() { answer + &rows } else { format!("{answer}\n{rows}") })
    }
}
