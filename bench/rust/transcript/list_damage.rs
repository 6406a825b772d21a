//! What can be wrong with a list of names.

use crate::numbers::Numbers;

/// Damages a list that has a row; each row has its newline.
type Damage = fn(&mut Numbers, &mut Vec<Vec<u8>>);

/// All but the last leave a row ill-formed.
pub const DAMAGES: [(&str, Damage); 14] = [
    ("no newline at the end", no_newline),
    ("an empty row", empty_row),
    ("a carriage return", carriage_return),
    ("lower-case hex", |numbers, rows| hex_field(numbers, rows, &["c0", "3c", "0f", "aB"])),
    ("hex of another width", |numbers, rows| hex_field(numbers, rows, &["", "0", "000", "0x0"])),
    ("no hex", |numbers, rows| hex_field(numbers, rows, &["0G", "@0", "/0", "0:", " 0", "-1"])),
    ("an unknown letter", |numbers, rows| field(numbers, rows, 1, &["Q", "H", "g", "0", "", "GG", "F", "T"])),
    ("a name too long", name_too_long),
    ("an empty name", |numbers, rows| field(numbers, rows, 0, &[""])),
    ("a byte that no name has", |numbers, rows| field(numbers, rows, 0, &BAD_NAMES)),
    ("a fifth field", |numbers, rows| at_end(numbers, rows, &["\t", "\t00", "\t15", "\tG"])),
    ("a field too few", field_too_few),
    ("blanks for tabs", blanks),
    ("another byte", other_byte),
];

const BAD_NAMES: [&str; 10] =
    ["cycles", "CYCLEs", "CYC-LES", "CYC LES", " CYCLES", "CYCLES ", "CYCL\u{c9}S", "A\0", "A@", "\u{feff}CYCLES"];

fn any_row<'a>(numbers: &mut Numbers, rows: &'a mut [Vec<u8>]) -> &'a mut Vec<u8> {
    let at = numbers.below(rows.len() as u64) as usize;
    &mut rows[at]
}

/// Puts one of these into a field of a row.
fn field(numbers: &mut Numbers, rows: &mut [Vec<u8>], field: usize, values: &[&str]) {
    let value = numbers.pick(values);
    let row = any_row(numbers, rows);
    row.pop();
    let mut fields: Vec<&[u8]> = row.split(|&byte| byte == b'\t').collect();
    fields[field] = value.as_bytes();
    *row = [fields.join(&b'\t'), b"\n".to_vec()].concat();
}

/// Puts one of these into the code or the mask of a row.
fn hex_field(numbers: &mut Numbers, rows: &mut [Vec<u8>], values: &[&str]) {
    let at = numbers.pick(&[2, 3]);
    field(numbers, rows, at, values)
}

/// Puts one of these before the newline of a row.
fn at_end(numbers: &mut Numbers, rows: &mut [Vec<u8>], values: &[&str]) {
    let value = numbers.pick(values);
    let row = any_row(numbers, rows);
    row.pop();
    row.extend_from_slice(value.as_bytes());
    row.push(b'\n');
}

fn no_newline(_: &mut Numbers, rows: &mut Vec<Vec<u8>>) {
    rows.last_mut().expect("a row").pop();
}

fn empty_row(numbers: &mut Numbers, rows: &mut Vec<Vec<u8>>) {
    let at = numbers.below(rows.len() as u64 + 1) as usize;
    rows.insert(at, b"\n".to_vec());
}

/// At the end of one row, or of all.
fn carriage_return(numbers: &mut Numbers, rows: &mut Vec<Vec<u8>>) {
    match numbers.chance(50) {
        true => at_end(numbers, rows, &["\r"]),
        false => rows.iter_mut().for_each(|row| row.insert(row.len() - 1, b'\r')),
    }
}

fn name_too_long(numbers: &mut Numbers, rows: &mut Vec<Vec<u8>>) {
    let name = "N".repeat(numbers.pick(&[41, 41, 41, 42, 72, 73, 300]));
    field(numbers, rows, 0, &[&name])
}

fn field_too_few(numbers: &mut Numbers, rows: &mut Vec<Vec<u8>>) {
    let row = any_row(numbers, rows);
    let tab = row.iter().rposition(|&byte| byte == b'\t').expect("a tab");
    row.truncate(tab);
    row.push(b'\n');
}

fn blanks(numbers: &mut Numbers, rows: &mut Vec<Vec<u8>>) {
    any_row(numbers, rows).iter_mut().filter(|byte| **byte == b'\t').for_each(|byte| *byte = b' ');
}

/// Any byte in any place; a name or a number may become another.
fn other_byte(numbers: &mut Numbers, rows: &mut Vec<Vec<u8>>) {
    let byte = numbers.below(256) as u8;
    let row = any_row(numbers, rows);
    let at = numbers.below(row.len() as u64) as usize;
    row[at] = byte;
}
