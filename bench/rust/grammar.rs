//! The grammar once more, as tables: what stands in each field behind a verb. It says which field breaks the grammar (order 11).
#![allow(dead_code)]

use crate::names::NAME_LIMIT;
use crate::planner::devices::Device;

/// Whether a field is as its place asks.
type Format = fn(&str) -> bool;

const EVENT: &[Format] = &[is_decimal, is_hex::<2>, is_hex::<2>, is_decimal];
const PACKET: &[Format] = &[is_decimal, is_hex::<16>, is_hex::<16>, is_decimal];
const OFFCORE: &[Format] = &[is_decimal, is_hex::<16>, is_decimal];
const LATENCY: &[Format] = &[is_decimal, is_hex::<4>, is_decimal, is_decimal];
const NAMED: &[Format] = &[is_decimal, is_name, is_decimal];
/// The letter, the usable set, the fixed enables, the freeze and the core; where there are several boxes, the box before these.
const OPEN: &[Format] = &[is_letter, is_decimal, is_decimal, is_decimal, is_core];
const OPEN_BOX: &[Format] = &[is_letter, is_decimal, is_decimal, is_decimal, is_decimal, is_core];

/// No leading zero, and at most five digits.
fn is_decimal(field: &str) -> bool {
    (1..=5).contains(&field.len()) && field.bytes().all(|byte| byte.is_ascii_digit()) && (field == "0" || !field.starts_with('0'))
}

fn is_hex<const WIDTH: usize>(field: &str) -> bool {
    field.len() == WIDTH && field.chars().all(|digit| "0123456789ABCDEF".contains(digit))
}

fn is_name(field: &str) -> bool {
    let letters = |c: char| c.is_ascii_uppercase() || c.is_ascii_digit() || c == '_';
    !field.is_empty() && field.len() <= NAME_LIMIT && field.chars().all(letters)
}

fn is_core(field: &str) -> bool {
    field == "-" || is_decimal(field)
}

fn device_of(field: &str) -> Option<&'static Device> {
    match field.as_bytes() {
        [letter] => Device::named(*letter as u64),
        _ => None,
    }
}

fn is_letter(field: &str) -> bool {
    device_of(field).is_some()
}

/// What the fields behind the verb are to be.
fn formats_of(fields: &[&str]) -> Option<&'static [Format]> {
    Some(match fields {
        ["open", letter, ..] if device_of(letter).is_some_and(Device::has_boxes) => OPEN_BOX,
        ["open", ..] => OPEN,
        ["event", ..] => EVENT,
        ["packet", ..] => PACKET,
        ["offcore", ..] => OFFCORE,
        ["latency", ..] => LATENCY,
        ["named", ..] => NAMED,
        ["drop", ..] => &[is_decimal],
        ["turn", ..] => &[],
        _ => return None,
    })
}

/// The fields of a line beside what they are to be; nothing where the verb is unknown.
struct Fields<'a> {
    fields: Vec<&'a str>,
    formats: &'static [Format],
}

/// A byte that is no ASCII character is in no field of the grammar: here it stands as `?`, which is in none either.
fn text_of(line: &[u8]) -> String {
    line.iter().map(|&byte| if byte.is_ascii() { byte as char } else { '?' }).collect()
}

impl Fields<'_> {
    fn of(text: &str) -> Option<Fields<'_>> {
        let fields: Vec<&str> = text.split('\t').collect();
        let formats = formats_of(&fields)?;
        Some(Fields { fields, formats })
    }

    /// Of each field behind the verb that has a format, whether it is good.
    fn good(&self) -> impl Iterator<Item = bool> + '_ {
        self.fields[1..].iter().zip(self.formats).map(|(field, format)| format(field))
    }
}

/// The first field of a line that breaks the grammar, or the number of its fields where it stops too soon or its newline is
/// missing; nothing where it is in the grammar. A line that is too long has such a field.
pub fn fault(line: &[u8], newline: bool) -> Option<usize> {
    let text = text_of(line);
    let Some(fields) = Fields::of(&text) else { return Some(0) };
    let good = fields.good().take_while(|good| *good).count();
    match good == fields.formats.len() && fields.fields.len() == good + 1 {
        true if newline => None,
        _ => Some(good + 1),
    }
}

/// How many fields the verb of a line asks for, itself among them, and how many of those that are there are bad.
pub fn asked_and_bad(line: &[u8]) -> Option<(usize, usize)> {
    let text = text_of(line);
    let fields = Fields::of(&text)?;
    let bad = fields.good().filter(|good| !good).count();
    Some((fields.formats.len() + 1, bad))
}
