//! Random lists of names, good and damaged, and names as they are typed.

use super::calls::Bench;
use super::list_damage::DAMAGES;
use crate::names::Texts;
use crate::planner::devices::{Device, DEVICES};

/// The lists that a transcript is run with. Where none are given both are empty.
#[derive(Default)]
pub struct DrawnLists {
    pub given: bool,
    pub texts: Texts,
    /// The damage that was done to one of them, by its place in the table.
    pub damage: Option<usize>,
}

/// Names of rows, so few that many stand twice; some begin others, and two of the longest differ in their last byte.
const NAMES: [&str; 16] = [
    "CYCLES",
    "CYCLE",
    "CYCLES_",
    "CYCLES_REF",
    "INSTR",
    "LLC_MISS",
    "LLC_MIS",
    "STARVED",
    "A",
    "AA",
    "_",
    "0",
    "9_Z",
    "ABCDEFGHIJKLMNOPQRSTUVWXYZ_0123456789_AZ",
    "ABCDEFGHIJKLMNOPQRSTUVWXYZ_0123456789_A9",
    "ABCDEFGHIJKLMNOPQRSTUVWXYZ_0123456789_A",
];
/// Names that no list has; most are not in the grammar.
const ODD_NAMES: [&str; 12] = [
    "",
    "cycles",
    "CYC-LES",
    "CYCLES ",
    " CYCLES",
    "CYCLES\r",
    "CYCL\u{c9}S",
    "3C.00",
    "C\0",
    "NNNNNNNNNNNNNNNNNNNNNNNNNNNNNNNNNNNNNNNN",
    "NNNNNNNNNNNNNNNNNNNNNNNNNNNNNNNNNNNNNNNNN",
    "CYCLES\tG",
];
/// The rows of a short list, and those before them in a long one, which all but fills the proved program's room of 65,536 bytes.
const SHORT: [u64; 7] = [0, 1, 2, 3, 5, 8, 20];
const LONG: u64 = 3500;

/// A row of any device, mostly the bench's, with a pair that is mostly listed there.
fn row(bench: &mut Bench) -> Vec<u8> {
    let name = bench.numbers.pick(&NAMES);
    bench.names.push(name.into());
    let any: &Device = &DEVICES[bench.numbers.below(DEVICES.len() as u64) as usize];
    let device = bench.numbers.pick(&[any, bench.device, bench.device]);
    let (code, mask) = match bench.numbers.chance(25) {
        true => bench.odd_pair(),
        false => bench.numbers.pick(&device.pairs()),
    };
    format!("{name}\t{}\t{code:02X}\t{mask:02X}\n", device.letter as char).into()
}

/// The rows of a list, each with its newline.
fn rows(bench: &mut Bench) -> Vec<Vec<u8>> {
    let before = if bench.numbers.chance(1) { LONG } else { 0 };
    let count = bench.numbers.pick(&SHORT);
    let mut rows: Vec<Vec<u8>> = (0..before).map(|n| format!("ROW_{n}\tG\tC0\t00\n").into()).collect();
    rows.extend((0..count).map(|_| row(bench)));
    rows
}

/// The lists of a transcript: in one of four a damaged one, in one of eight none.
pub fn drawn(bench: &mut Bench) -> DrawnLists {
    let (mut site, mut house) = (rows(bench), rows(bench));
    let kind = bench.numbers.below(8);
    let mut damage = None;
    if kind < 2 {
        let last = row(bench);
        let list = if bench.numbers.chance(50) { &mut site } else { &mut house };
        if list.is_empty() {
            list.push(last);
        }
        let at = bench.numbers.below(DAMAGES.len() as u64) as usize;
        DAMAGES[at].1(&mut bench.numbers, list);
        damage = Some(at);
    }
    match kind {
        2 => DrawnLists::default(),
        _ => DrawnLists { given: true, texts: Texts { site: site.concat(), house: house.concat() }, damage },
    }
}

/// One of the names that there are rows of, if any, or of all names.
fn known(bench: &mut Bench) -> String {
    match bench.names.len() as u64 {
        0 => bench.numbers.pick(&NAMES).into(),
        count => bench.names[bench.numbers.below(count) as usize].clone(),
    }
}

/// A name as it is typed: mostly one that a row has, or its beginning, or a longer one.
fn typed(bench: &mut Bench) -> String {
    let name = known(bench);
    match bench.numbers.below(14) {
        0 => name[..bench.numbers.below(name.len() as u64) as usize + 1].into(),
        1 => format!("{name}{}", bench.numbers.pick(&["_", "0", "X"])),
        2 => "NO_SUCH_NAME".into(),
        3 => bench.numbers.pick(&NAMES).into(),
        _ => name,
    }
}

/// An add by a name; in odd cases by one that no list has.
pub fn named(bench: &mut Bench) -> String {
    let id = bench.id();
    let name = match bench.odd() {
        true => bench.numbers.pick(&ODD_NAMES).into(),
        false => typed(bench),
    };
    format!("named\t{id}\t{name}\t{}", bench.set())
}
