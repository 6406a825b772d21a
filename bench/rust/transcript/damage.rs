//! Lines that are mostly not in the grammar: damaged calls, overlong lines, and bytes at random.

use crate::numbers::Numbers;

/// Bytes that a careless reader might treat in a way of their own.
const ODD_BYTES: [u8; 16] = [0, b'\r', b'\t', b'\n', b' ', b'0', b'9', b'a', b'g', b'-', b'+', 0x7F, 0x80, 0xC2, 0xFE, 0xFF];

fn place(numbers: &mut Numbers, line: &[u8]) -> usize {
    numbers.below(line.len() as u64 + 1) as usize
}

/// Puts a zero before a field.
fn leading_zero(numbers: &mut Numbers, line: &mut Vec<u8>) {
    let starts: Vec<usize> = (1..=line.len()).filter(|&i| line[i - 1] == b'\t').collect();
    match starts.is_empty() {
        true => line.insert(0, b'0'),
        false => line.insert(numbers.pick(&starts), b'0'),
    }
}

const FILLERS: [u8; 6] = [b' ', b'0', b'\t', b'F', 0, 0xFF];

/// Fills a line up to this length, at its end or inside it.
fn pad(numbers: &mut Numbers, line: &mut Vec<u8>, length: usize) {
    let byte = numbers.pick(&FILLERS);
    let at = if numbers.chance(50) { line.len() } else { place(numbers, line) };
    while line.len() < length {
        line.insert(at, byte);
    }
}

/// An overlong line with a whole call at its end, which must not be taken for a line of its own.
fn hidden(numbers: &mut Numbers, line: &[u8]) -> Vec<u8> {
    let mut overlong = vec![numbers.pick(&FILLERS); numbers.pick(&[80, 81, 81, 82, 160])];
    overlong.extend_from_slice(line);
    overlong
}

/// A call's line with one damage; a few of them leave it in the grammar.
pub fn damaged(numbers: &mut Numbers, line: &[u8]) -> Vec<u8> {
    let mut line = line.to_vec();
    let at = place(numbers, &line);
    let inside = at.min(line.len().saturating_sub(1));
    match numbers.below(15) {
        0 | 1 if !line.is_empty() => line[inside] ^= 1 << numbers.below(8),
        2 if !line.is_empty() => line[inside] = numbers.pick(&ODD_BYTES),
        3 => line.insert(at, numbers.pick(&ODD_BYTES)),
        4 if !line.is_empty() => drop(line.remove(inside)),
        5 => line.make_ascii_lowercase(),
        6 => leading_zero(numbers, &mut line),
        7 => line.push(numbers.pick(&[b'\t', b' ', b'\r', 0, b'0', 0xFF])),
        8 => line.insert(0, numbers.pick(&[b'\t', b' ', 0, 0xEF])),
        9 => line.truncate(at),
        10 => line.iter_mut().filter(|byte| **byte == b'\t').for_each(|byte| *byte = b' '),
        11 => line.extend_from_slice(&line.clone()),
        12 => {
            let length = numbers.pick(&[79, 80, 81, 82]);
            pad(numbers, &mut line, length)
        }
        13 => line = hidden(numbers, &line),
        _ => {
            let length = 79 + numbers.below(122) as usize;
            pad(numbers, &mut line, length)
        }
    }
    line
}

/// A line that owes nothing to a call.
pub fn noise(numbers: &mut Numbers) -> Vec<u8> {
    let length = match numbers.below(8) {
        0 => 0,
        1 => 80,
        2 => 81,
        3 => 79 + numbers.below(122),
        _ => numbers.below(60),
    };
    match numbers.below(4) {
        0 => (0..length).map(|_| numbers.below(256) as u8).collect(),
        1 => (0..length).map(|_| numbers.pick(&ODD_BYTES)).collect(),
        2 => (0..length).map(|_| numbers.pick(b"turn\tdop0123456789ABCDEF")).collect(),
        _ => vec![numbers.pick(&ODD_BYTES); length as usize],
    }
}

/// A line longer than a block of input, or nearly so.
pub fn huge(numbers: &mut Numbers) -> Vec<u8> {
    let length = numbers.pick(&[65_455, 65_535, 65_536, 65_537, 65_617, 131_152]) + numbers.below(3);
    vec![numbers.pick(&[b'0', b'\t', b't', 0]); length as usize]
}
