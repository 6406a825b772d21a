//! Lines of which fields are damaged, so that the grammar is broken at any of them (order 11).

use crate::numbers::Numbers;

/// Damages a line that is given as its fields, of which the first is the verb.
type Damage = fn(&mut Numbers, &mut Vec<Vec<u8>>);

const DAMAGES: [Damage; 17] = [
    one_field,
    one_field,
    one_field,
    one_field,
    two_fields,
    two_fields,
    too_few,
    too_few,
    too_many,
    too_many,
    verb,
    verb,
    at_the_ends,
    tabs,
    long_field,
    long_field,
    long_behind,
];

/// Fields that stand in no place of the grammar, or in few.
const ODD_FIELDS: [&str; 14] = ["", " ", "-", "--", "00", "01", "+1", "1.", "100000", "g", "0x1", "FFF", "X", "turn"];
const VERBS: [&str; 12] = ["", "TURN", "Turn", "turn ", " turn", "turns", "tur", "evnt", "close", "add", "#", "opened"];

fn any(numbers: &mut Numbers, fields: &[Vec<u8>]) -> usize {
    numbers.below(fields.len() as u64) as usize
}

/// Another field in place of this one, or it with a byte more, less or changed.
fn damage(numbers: &mut Numbers, field: &mut Vec<u8>) {
    match numbers.below(8) {
        0 => field.insert(0, b'0'),
        1 => field.push(numbers.pick(&[b' ', b'0', b'\r', 0, 0xFF])),
        2 => field.insert(0, b' '),
        3 => drop(field.pop()),
        4 if field.iter().any(u8::is_ascii_alphabetic) => field.make_ascii_lowercase(),
        _ => *field = numbers.pick(&ODD_FIELDS).into(),
    }
}

fn one_field(numbers: &mut Numbers, fields: &mut Vec<Vec<u8>>) {
    let at = any(numbers, fields);
    damage(numbers, &mut fields[at]);
}

fn two_fields(numbers: &mut Numbers, fields: &mut Vec<Vec<u8>>) {
    one_field(numbers, fields);
    one_field(numbers, fields);
}

/// The first fields alone, the last of them sometimes damaged.
fn too_few(numbers: &mut Numbers, fields: &mut Vec<Vec<u8>>) {
    let count = any(numbers, fields) + 1;
    fields.truncate(count);
    if numbers.chance(20) {
        one_field(numbers, fields);
    }
}

fn too_many(numbers: &mut Numbers, fields: &mut Vec<Vec<u8>>) {
    for _ in 0..numbers.pick(&[1, 1, 1, 2, 5]) {
        fields.push(numbers.pick(&["", "0", "15", "-", "C0", "turn"]).into());
    }
    if numbers.chance(20) {
        one_field(numbers, fields);
    }
}

fn verb(numbers: &mut Numbers, fields: &mut Vec<Vec<u8>>) {
    match numbers.below(3) {
        0 => fields[0].make_ascii_uppercase(),
        1 => fields[0] = numbers.pick(&VERBS).into(),
        _ => *fields = vec![Vec::new()],
    }
}

/// A tab, a blank or a carriage return before the line or behind it.
fn at_the_ends(numbers: &mut Numbers, fields: &mut Vec<Vec<u8>>) {
    let last = fields.len() - 1;
    match numbers.below(5) {
        0 => fields.insert(0, Vec::new()),
        1 => fields[0].insert(0, b' '),
        2 => fields.push(Vec::new()),
        _ => fields[last].push(numbers.pick(b" \r")),
    }
}

/// Two tabs for one, or a blank for one, or for each.
fn tabs(numbers: &mut Numbers, fields: &mut Vec<Vec<u8>>) {
    let at = any(numbers, fields);
    match numbers.below(3) {
        0 => fields.insert(at, Vec::new()),
        1 if at > 0 => {
            let joined = fields.remove(at);
            fields[at - 1] = [&fields[at - 1][..], b" ", &joined].concat();
        }
        _ => *fields = vec![fields.join(&b' ')],
    }
}

/// A field that makes the line longer than 80 bytes, and itself reaches past them.
fn long_field(numbers: &mut Numbers, fields: &mut Vec<Vec<u8>>) {
    let at = any(numbers, fields);
    let byte = fields[at].last().copied().unwrap_or(b'0');
    let length = numbers.pick(&[75, 80, 81, 160]) + numbers.below(8);
    fields[at].resize(length as usize, byte);
}

/// What makes the line longer than 80 bytes stands behind it, good or damaged: as one field, or as many.
fn long_behind(numbers: &mut Numbers, fields: &mut Vec<Vec<u8>>) {
    if numbers.chance(50) {
        one_field(numbers, fields);
    }
    let length = 75 + numbers.below(40) as usize;
    match numbers.chance(50) {
        true => fields.push(vec![numbers.pick(b"0FA_ "); length]),
        false => fields.extend(vec![b"0".to_vec(); length / 2]),
    }
}

/// The first fields of a call's line, which may be all.
pub fn cut(numbers: &mut Numbers, line: &[u8]) -> Vec<u8> {
    let fields: Vec<&[u8]> = line.split(|&byte| byte == b'\t').collect();
    fields[..=numbers.below(fields.len() as u64) as usize].join(&b'\t')
}

/// A call's line with its fields damaged; a few stay in the grammar.
pub fn damaged(numbers: &mut Numbers, line: &[u8]) -> Vec<u8> {
    let mut fields: Vec<Vec<u8>> = line.split(|&byte| byte == b'\t').map(<[u8]>::to_vec).collect();
    let damage = numbers.pick(&DAMAGES);
    damage(numbers, &mut fields);
    fields.join(&b'\t')
}
