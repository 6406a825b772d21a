//! The grammar of document 01, 'Lines', with the fields that the orders add to `open` and the line `named`: a line without its
//! newline becomes a call, or the first field that breaks the grammar. So does a row of a list of names become an event.

use crate::names::{is_name_byte, NAME_LIMIT};
use crate::planner::devices::{Device, Opening};
use crate::planner::requests::{NamedEvent, Request};

/// The most bytes of a line, without its newline.
pub const LINE_LIMIT: usize = 80;
/// The most digits of a decimal.
const DECIMAL_DIGITS: usize = 5;

#[derive(Clone, Copy, PartialEq, Eq, Debug)]
pub enum Call<'a> {
    Open(Opening),
    Add { id: u64, request: Request },
    Named { id: u64, name: &'a [u8], allowed: u64 },
    Drop { id: u64 },
    Turn,
}

/// The fields of a line, each as the part of the line where it begins and ends.
struct Fields<'a> {
    rest: Option<&'a [u8]>,
    /// How many were read and are good: the number of the first that is not, and of all fields where the line stops too soon.
    good: u8,
}

impl<'a> Fields<'a> {
    fn of(line: &'a [u8]) -> Fields<'a> {
        Fields { rest: Some(line), good: 0 }
    }

    /// The part up to the next tab or to the line's end; nothing after the last field.
    fn next(&mut self) -> Option<&'a [u8]> {
        let rest = self.rest?;
        match rest.iter().position(|&byte| byte == b'\t') {
            Some(tab) => {
                self.rest = Some(&rest[tab + 1..]);
                Some(&rest[..tab])
            }
            None => {
                self.rest = None;
                Some(rest)
            }
        }
    }

    /// The next field by its format.
    fn read<T>(&mut self, format: impl FnOnce(&'a [u8]) -> Option<T>) -> Option<T> {
        let value = format(self.next()?)?;
        self.good += 1;
        Some(value)
    }

    fn decimal(&mut self) -> Option<u64> {
        self.read(decimal_of)
    }

    fn core(&mut self) -> Option<Option<u64>> {
        self.read(core_of)
    }

    fn hex(&mut self, width: usize) -> Option<u64> {
        self.read(|field| hex_of(field, width))
    }

    fn name(&mut self) -> Option<&'a [u8]> {
        self.read(name_of)
    }

    fn device(&mut self) -> Option<&'static Device> {
        self.read(device_of)
    }
}

/// A core, or `-` for none.
fn core_of(field: &[u8]) -> Option<Option<u64>> {
    match field {
        b"-" => Some(None),
        _ => decimal_of(field).map(Some),
    }
}

/// A name: 1 to 40 bytes of upper-case letters, digits and underscore.
fn name_of(field: &[u8]) -> Option<&[u8]> {
    let fits = !field.is_empty() && field.len() <= NAME_LIMIT && field.iter().all(|&byte| is_name_byte(byte));
    fits.then_some(field)
}

/// A decimal of at most five digits and without a leading zero.
fn decimal_of(field: &[u8]) -> Option<u64> {
    let leading_zero = field.len() > 1 && field[0] == b'0';
    if field.is_empty() || field.len() > DECIMAL_DIGITS || leading_zero {
        return None;
    }
    let mut number = 0;
    for &byte in field {
        if !byte.is_ascii_digit() {
            return None;
        }
        number = 10 * number + (byte - b'0') as u64;
    }
    Some(number)
}

/// A hex number in upper case of exactly this width.
fn hex_of(field: &[u8], width: usize) -> Option<u64> {
    if field.len() != width {
        return None;
    }
    let mut number = 0;
    for &byte in field {
        let digit = match byte {
            b'0'..=b'9' => byte - b'0',
            b'A'..=b'F' => byte - b'A' + 10,
            _ => return None,
        };
        number = number << 4 | digit as u64;
    }
    Some(number)
}

/// The device of a letter; the grammar has the letters of the devices alone.
fn device_of(field: &[u8]) -> Option<&'static Device> {
    match field {
        [letter] => Device::named(*letter as u64),
        _ => None,
    }
}

/// Where the device has several boxes the box is one more field; what is asked of an overflow is the last two.
fn opening(fields: &mut Fields) -> Option<Opening> {
    let device = fields.device()?;
    let (usable, fixed) = (fields.decimal()?, fields.decimal()?);
    let box_number = if device.has_boxes() { fields.decimal()? } else { 0 };
    let (freeze, core) = (fields.decimal()?, fields.core()?);
    Some(Opening { letter: device.letter as u64, usable, fixed, box_number, freeze, core })
}

fn event(fields: &mut Fields) -> Option<Request> {
    let (code, mask) = (fields.hex(2)? as u8, fields.hex(2)? as u8);
    Some(Request::Event { code, mask, allowed: fields.decimal()? })
}

fn packet(fields: &mut Fields) -> Option<Request> {
    let (match_word, mask_word) = (fields.hex(16)?, fields.hex(16)?);
    Some(Request::Packet { match_word, mask_word, allowed: fields.decimal()? })
}

fn offcore(fields: &mut Fields) -> Option<Request> {
    let word = fields.hex(16)?;
    Some(Request::Offcore { word, allowed: fields.decimal()? })
}

fn latency(fields: &mut Fields) -> Option<Request> {
    let types = fields.hex(4)? as u16;
    Some(Request::Latency { types, first: fields.decimal()?, second: fields.decimal()? })
}

/// The name and the event of a list's row, without its newline; nothing where the row is ill-formed.
pub fn row_of(row: &[u8]) -> Option<(&[u8], NamedEvent)> {
    let mut fields = Fields::of(row);
    let (name, device) = (fields.name()?, fields.device()?);
    let (code, mask) = (fields.hex(2)? as u8, fields.hex(2)? as u8);
    match fields.rest {
        None => Some((name, NamedEvent { letter: device.letter, code, mask })),
        Some(_) => None,
    }
}

/// The call that the fields behind a verb make.
fn behind<'a>(verb: &[u8], fields: &mut Fields<'a>) -> Option<Call<'a>> {
    fields.good = 1;
    Some(match verb {
        b"open" => Call::Open(opening(fields)?),
        b"event" => Call::Add { id: fields.decimal()?, request: event(fields)? },
        b"packet" => Call::Add { id: fields.decimal()?, request: packet(fields)? },
        b"offcore" => Call::Add { id: fields.decimal()?, request: offcore(fields)? },
        b"latency" => Call::Add { id: fields.decimal()?, request: latency(fields)? },
        b"named" => Call::Named { id: fields.decimal()?, name: fields.name()?, allowed: fields.decimal()? },
        b"drop" => Call::Drop { id: fields.decimal()? },
        b"turn" => Call::Turn,
        _ => {
            fields.good = 0;
            return None;
        }
    })
}

/// The call of a line; or the number of the first field that is ill-formed or left over, or of all fields where one is missing.
/// No call has more than 58 bytes, so that every longer line has such a field, and the first 80 bytes tell which it is.
pub fn call_of(line: &[u8]) -> Result<Call<'_>, u8> {
    let mut fields = Fields::of(&line[..line.len().min(LINE_LIMIT)]);
    let call = fields.next().and_then(|verb| behind(verb, &mut fields));
    match (call, fields.rest) {
        (Some(call), None) => Ok(call),
        _ => Err(fields.good),
    }
}

/// The field at fault of a line whose newline is missing: the first that breaks the grammar, or else the number of fields.
pub fn fault_without_newline(line: &[u8]) -> u8 {
    match call_of(line) {
        Err(field) => field,
        Ok(_) => line.split(|&byte| byte == b'\t').count() as u8,
    }
}
