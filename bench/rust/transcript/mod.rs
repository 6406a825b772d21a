//! Whole transcripts: long mixed ones for measuring, and short valid, damaged and adversarial ones for comparing.
#![allow(dead_code)]

pub mod calls;
mod damage;
pub mod faults;
mod field_damage;
pub mod list_damage;
pub mod lists;
pub mod long;

use crate::numbers::Numbers;
use crate::planner::devices::{Device, Filters, Opening, DEVICES};
use crate::planner::u_box;
use calls::{open_line, Bench};
use lists::DrawnLists;

/// So many ids that the queue can get full, and so few that many of them are waiting.
const IDS: u64 = 30;

/// Starts a generator; near seeds give unlike numbers.
pub fn numbers_from(seed: u64) -> Numbers {
    let mut numbers = Numbers((seed + 1).wrapping_mul(0x9E37_79B9_7F4A_7C15));
    for _ in 0..8 {
        numbers.below(2);
    }
    numbers
}

fn push(transcript: &mut Vec<u8>, line: &[u8]) {
    transcript.extend_from_slice(line);
    transcript.push(b'\n');
}

/// The usable set of this round: every one in turn, but mostly all counters where an event can need all of them.
pub fn usable_in(device: &Device, round: u64) -> u64 {
    match device.has_precise() && round % 2 == 0 {
        true => device.all(),
        false => round % device.all() + 1,
    }
}

/// A bench on this device, with any fixed enables and box that it has, and in three of four cases on the uncore with
/// something asked of an overflow.
pub fn bench_on(device: &'static Device, usable: u64, odd: u64, mut numbers: Numbers) -> Bench {
    let fixed = numbers.below(device.fixed + 1);
    let box_number = numbers.below(device.boxes.len() as u64);
    let freeze = if device.uncore { numbers.below(2) } else { 0 };
    let core = (device.uncore && numbers.chance(50)).then(|| numbers.below(u_box::CORES));
    Bench { numbers, device, usable, fixed, box_number, freeze, core, ids: IDS, odd, named: 0, names: Vec::new(), tight: false }
}

/// More adds than the queue has room for, each of which has a plan alone.
fn overflow(bench: &mut Bench, transcript: &mut Vec<u8>) {
    for id in 101..118 + bench.numbers.below(4) {
        let (code, mask) = bench.device.pairs()[0];
        push(transcript, format!("event\t{id}\t{code:02X}\t{mask:02X}\t{}", bench.usable).as_bytes());
    }
    for line in own_adds(bench) {
        push(transcript, line.as_bytes());
    }
}

/// An add of each kind that the device has, by ids of their own, for all usable counters.
pub fn own_adds(bench: &Bench) -> Vec<String> {
    let usable = bench.usable;
    match bench.device.filters {
        Filters::Absent => Vec::new(),
        Filters::PacketMatch => vec![format!("packet\t201\t{:016X}\t{:016X}\t{usable}", 1, 1)],
        Filters::OffcoreResponse => {
            vec![format!("offcore\t202\t{:016X}\t{usable}", 0x10001), format!("latency\t203\t0001\t{usable}\t{usable}")]
        }
    }
}

fn call(bench: &mut Bench) -> String {
    if bench.named > 0 && bench.numbers.below(100) < bench.named {
        return lists::named(bench);
    }
    if bench.numbers.chance(bench.odd / 2) {
        return faults::add(bench);
    }
    match bench.numbers.below(20) {
        0 => bench.open(),
        1..=11 => bench.add(),
        12..=14 => bench.drop(),
        _ => "turn".into(),
    }
}

/// A damaged line: its bytes or its fields.
fn damaged(numbers: &mut Numbers, line: &[u8]) -> Vec<u8> {
    match numbers.chance(50) {
        true => damage::damaged(numbers, line),
        false => field_damage::damaged(numbers, line),
    }
}

/// The end of the input: after a newline, or inside a line, which may be damaged or overlong.
fn ending(bench: &mut Bench, transcript: &mut Vec<u8>) {
    match bench.numbers.below(10) {
        0 => drop(transcript.pop()),
        1 => transcript.extend_from_slice(call(bench).as_bytes()),
        2 => transcript.extend_from_slice(&damage::noise(&mut bench.numbers)),
        3 => {
            let line = call(bench);
            transcript.extend_from_slice(&field_damage::cut(&mut bench.numbers, line.as_bytes()));
        }
        4 => {
            let line = call(bench);
            transcript.extend_from_slice(&damaged(&mut bench.numbers, line.as_bytes()));
        }
        _ => {}
    }
}

/// How a transcript is mixed: its calls, where it opens and overfills the queue, and how many of a hundred lines are
/// damaged or noise.
struct Mix {
    calls: u64,
    opened_at: u64,
    overflow_at: u64,
    damage: u64,
    noise: u64,
}

/// An opening that is mostly refused, for one reason or for many; or none.
pub fn refused_opening(bench: &mut Bench) -> Option<Opening> {
    let own = bench.opening();
    let usable = bench.numbers.pick(&[0, bench.device.all() + 1, 17, 99999]);
    let fixed = bench.numbers.pick(&[bench.device.fixed + 1, 8, 99999]);
    let box_number = bench.numbers.pick(&[8, 9, 99999]);
    let (freeze, core) = (bench.bad_freeze(), bench.bad_core());
    match bench.numbers.below(12) {
        0 => Some(Opening { usable, ..own }),
        1 => Some(Opening { fixed, ..own }),
        2 => Some(Opening { usable, fixed, box_number, freeze, core, ..own }),
        3 if bench.device.has_boxes() => Some(Opening { box_number, ..own }),
        4 => Some(Opening { freeze, ..own }),
        5 => Some(Opening { core, ..own }),
        6 => Some(Opening { freeze, core, ..own }),
        7 => Some(Opening { usable, freeze, ..own }),
        8 | 9 => Some(faults::opening(bench)),
        _ => None,
    }
}

/// The open, sometimes after one that is refused, and so many of a hundred after some whose fields are damaged.
fn opening(bench: &mut Bench, transcript: &mut Vec<u8>, damage: u64) {
    while bench.numbers.chance(damage) {
        let line = bench.own_open();
        push(transcript, &field_damage::damaged(&mut bench.numbers, line.as_bytes()));
    }
    if let Some(refused) = refused_opening(bench) {
        push(transcript, open_line(refused).as_bytes());
    }
    push(transcript, bench.own_open().as_bytes());
}

/// A line of a call, so many of a hundred damaged or noise.
pub fn line(bench: &mut Bench, damage: u64, noise: u64) -> Vec<u8> {
    let line: Vec<u8> = call(bench).into();
    match (bench.numbers.chance(damage), bench.numbers.chance(noise)) {
        (_, true) => damage::noise(&mut bench.numbers),
        (true, _) => damaged(&mut bench.numbers, &line),
        _ => line,
    }
}

fn mixed_lines(bench: &mut Bench, mix: Mix) -> Vec<u8> {
    let mut transcript = Vec::new();
    for n in 0..mix.calls {
        if n == mix.opened_at {
            opening(bench, &mut transcript, 2 * mix.damage);
        }
        if n == mix.overflow_at {
            overflow(bench, &mut transcript);
        }
        push(&mut transcript, &line(bench, mix.damage, mix.noise));
    }
    transcript
}

/// One transcript of so many calls with every kind of line. On S its last line lacks the newline.
pub fn mixed(device: char, usable: u64, calls: u64, seed: u64) -> Vec<u8> {
    let named = Device::named(device as u64).expect("a device");
    let mut bench = bench_on(named, usable, 8, numbers_from(seed));
    let mut transcript = mixed_lines(&mut bench, Mix { calls, opened_at: 6, overflow_at: calls / 2, damage: 12, noise: 4 });
    if device == 'S' {
        transcript.pop();
    }
    transcript
}

/// A transcript whose turns are hard: accepted calls, most on all counters, with requests that get in each other's way, and
/// few names.
fn tight(mut bench: Bench, calls: u64) -> Vec<u8> {
    let all = bench.device.all();
    (bench.odd, bench.named) = (0, bench.named / 5);
    let unusable = 1 << bench.numbers.below(bench.device.counters);
    bench.usable = bench.numbers.pick(&[all, all, all & !unusable]);
    bench.ids = bench.numbers.pick(&[4, 8, IDS]);
    bench.tight = true;
    mixed_lines(&mut bench, Mix { calls, opened_at: 0, overflow_at: calls, damage: 0, noise: 0 })
}

/// A transcript of any kind, from valid to noise alone.
fn loose(mut bench: Bench, calls: u64) -> Vec<u8> {
    let mix = Mix {
        calls,
        opened_at: if bench.numbers.chance(80) { 0 } else { bench.numbers.below(8) },
        overflow_at: if bench.numbers.chance(25) { bench.numbers.below(calls + 1) } else { calls },
        damage: bench.numbers.pick(&[0, 0, 10, 40]),
        noise: bench.numbers.pick(&[0, 0, 5, 50]),
    };
    let mut transcript = mixed_lines(&mut bench, mix);
    if bench.numbers.chance(2) {
        push(&mut transcript, &damage::huge(&mut bench.numbers));
        push(&mut transcript, call(&mut bench).as_bytes());
    }
    ending(&mut bench, &mut transcript);
    transcript
}

/// What line programs are given: a text, and the lists of its names.
pub struct Transcript {
    pub text: Vec<u8>,
    pub lists: DrawnLists,
}

/// The transcript of this number: every device and every usable set in turn, and every fourth one tight.
pub fn random(number: u64, seed: u64) -> Transcript {
    let mut numbers = numbers_from(seed ^ number << 20);
    let count = DEVICES.len() as u64;
    let device = &DEVICES[(number % count) as usize];
    let round = number / count;
    let calls = if round % 250 == 249 { 6000 } else { numbers.below(100) };
    let usable = usable_in(device, round);
    let odd = [0, 4, 15, 40][(round / device.all() % 4) as usize];
    let mut bench = bench_on(device, usable, odd, numbers);
    let lists = lists::drawn(&mut bench);
    bench.named = bench.numbers.pick(&[0, 10, 25, 50]);
    let text = match round % 4 {
        3 => tight(bench, calls),
        _ => loose(bench, calls),
    };
    Transcript { text, lists }
}
