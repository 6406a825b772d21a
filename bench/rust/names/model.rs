//! The look-up as order 9 words it: all rows of both lists are read, and the first with the name is the one.

use super::{Lists, Texts};
use crate::call::row_of;
use crate::planner::refusal::Refusal;
use crate::planner::requests::NamedEvent;

/// A name and its event.
pub type Row<'a> = (&'a [u8], NamedEvent);

pub struct Plain<'a> {
    texts: &'a Texts,
}

/// The rows of a list from the top; nothing where one is ill-formed, or the last lacks its newline.
pub fn rows_of(list: &[u8]) -> Option<Vec<Row<'_>>> {
    list.split_inclusive(|&byte| byte == b'\n').map(|row| row_of(row.strip_suffix(b"\n")?)).collect()
}

impl Plain<'_> {
    pub fn of(texts: &Texts) -> Plain<'_> {
        Plain { texts }
    }
}

impl Lists for Plain<'_> {
    fn look_up(&self, name: &[u8]) -> Result<Option<NamedEvent>, Refusal> {
        let rows = |list| rows_of(list).ok_or(Refusal::whole(1));
        let (site, house) = (rows(&self.texts.site)?, rows(&self.texts.house)?);
        let row = site.into_iter().chain(house).find(|row| row.0 == name);
        Ok(row.map(|(_, event)| event))
    }
}
