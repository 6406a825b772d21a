//! The look-up on the road of the proved program: at each name both lists are checked byte by byte, then searched row by row.

use super::{is_name_byte, Lists, Texts, NAME_LIMIT};
use crate::planner::devices::Device;
use crate::planner::refusal::Refusal;
use crate::planner::requests::NamedEvent;

/// The bytes of a row behind its name: three fields with the tab before each, and the newline.
const BEHIND_NAME: usize = "\tG\tC0\t00\n".len();

pub struct EachTime<'a> {
    texts: &'a Texts,
}

/// A row at the front of a list: its name and its event, and the rows below it.
pub struct Front<'a> {
    pub name: &'a [u8],
    pub event: NamedEvent,
    pub below: &'a [u8],
}

fn digit_of(byte: u8) -> Option<u8> {
    match byte {
        b'0'..=b'9' => Some(byte - b'0'),
        b'A'..=b'F' => Some(byte - b'A' + 10),
        _ => None,
    }
}

/// The event in the bytes behind a name.
fn event_behind(bytes: &[u8]) -> Option<NamedEvent> {
    let &[b'\t', letter, b'\t', c1, c0, b'\t', m1, m0, b'\n'] = bytes else { return None };
    Device::named(letter as u64)?;
    let (code, mask) = (digit_of(c1)? << 4 | digit_of(c0)?, digit_of(m1)? << 4 | digit_of(m0)?);
    Some(NamedEvent { letter, code, mask })
}

/// The row at the front of a list that is not empty; nothing where it is ill-formed.
pub fn front_of(list: &[u8]) -> Option<Front<'_>> {
    let length = list.iter().position(|&byte| !is_name_byte(byte))?;
    if length == 0 || length > NAME_LIMIT {
        return None;
    }
    let (name, rest) = list.split_at(length);
    let event = event_behind(rest.get(..BEHIND_NAME)?)?;
    Some(Front { name, event, below: &rest[BEHIND_NAME..] })
}

/// Whether every row is well-formed.
fn well_formed(list: &[u8]) -> bool {
    let mut rest = list;
    while !rest.is_empty() {
        match front_of(rest) {
            Some(front) => rest = front.below,
            None => return false,
        }
    }
    true
}

/// The event of the topmost row with this name; every row is well-formed.
fn search(list: &[u8], name: &[u8]) -> Option<NamedEvent> {
    let mut rest = list;
    loop {
        let (named, behind) = rest.split_at(rest.iter().position(|&byte| byte == b'\t')?);
        if named == name {
            return event_behind(&behind[..BEHIND_NAME]);
        }
        rest = &behind[BEHIND_NAME..];
    }
}

impl EachTime<'_> {
    pub fn of(texts: &Texts) -> EachTime<'_> {
        EachTime { texts }
    }
}

impl Lists for EachTime<'_> {
    fn look_up(&self, name: &[u8]) -> Result<Option<NamedEvent>, Refusal> {
        let Texts { site, house } = self.texts;
        match well_formed(site) && well_formed(house) {
            true => Ok(search(site, name).or_else(|| search(house, name))),
            false => Err(Refusal::whole(1)),
        }
    }
}
