//! The site's list and the house's (order 9): what a name is looked up in. A row is a name, a device's letter, a code and a
//! mask, parted by tabs and closed by a newline; each program here uses a part.
//! `model` says what the look-up answers; `road` goes the way of the proved program, `index` the fastest one known.
#![allow(dead_code)]

pub mod files;
pub mod index;
pub mod model;
pub mod road;

use crate::planner::refusal::Refusal;
use crate::planner::requests::NamedEvent;

/// The most bytes of a name.
pub const NAME_LIMIT: usize = 40;

/// For each byte, whether names have it: upper-case letters, digits and underscore.
static NAME_BYTES: [bool; 256] = {
    let mut table = [false; 256];
    let mut byte = 0;
    while byte < table.len() {
        table[byte] = matches!(byte as u8, b'A'..=b'Z' | b'0'..=b'9' | b'_');
        byte += 1;
    }
    table
};

pub fn is_name_byte(byte: u8) -> bool {
    NAME_BYTES[byte as usize]
}

/// The two lists as they were given.
#[derive(Clone, PartialEq, Eq, Default, Debug)]
pub struct Texts {
    pub site: Vec<u8>,
    pub house: Vec<u8>,
}

/// The look-up in two lists.
pub trait Lists {
    /// The event of the row with this name: of the site's list first, and within a list of the topmost row. Refuses with 1,
    /// before any search, where a row of either list is ill-formed: that is at field 0.
    fn look_up(&self, name: &[u8]) -> Result<Option<NamedEvent>, Refusal>;
}
