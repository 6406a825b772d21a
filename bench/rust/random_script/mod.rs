//! Random scripts of library calls: sessions of any device with slices that fit, just fit or are too short, shifts of turns,
//! and readings of what plans leave, whole and with a value changed; and mixed with them the calls and the edits of a lent
//! session, mostly of another device, and pieces of a text.

mod edits;
mod feeds;
mod lent;
mod openings;
mod promised;
mod readings;

use crate::call::{call_of, Call};
use crate::numbers::Numbers;
use crate::planner::devices::DEVICES;
use crate::planner::fast::session::Session;
use crate::planner::requests::Entry;
use crate::planner::{Calls, LIST, SHIFT};
use crate::script::words::LONGEST_SLICE;
use crate::script::{words_in, Host};
use crate::transcript::calls::Bench;
use crate::transcript::{bench_on, faults, numbers_from, own_adds, usable_in};

/// Words that are in no place of the notation, or in few.
const ODD_WORDS: [&str; 14] =
    ["x", "-", "-1", "+1", "0x1", "1f", "A", "18446744073709551616", "10000000000000000", "8193", "event", "GG", "\\", "\\r"];

/// So many of a hundred calls in a text are adds by a name, which no list has.
const NAMED: u64 = 5;

/// A script on its way: what the calls of the session and those of the lent one are drawn for, what of the feed's text is not
/// yet sent, the host that the calls leave, and their lines. So many of a hundred calls are damaged, of the lent session, and
/// of the feed.
struct Script {
    bench: Bench,
    lent_bench: Bench,
    unsent: Vec<u8>,
    damage: u64,
    lent: u64,
    fed: u64,
    host: Host<Session>,
    text: String,
}

/// A line of the line program as words of a call.
fn words_of(line: &str) -> Vec<String> {
    let fields: Vec<&str> = line.split('\t').collect();
    let words = match fields[..] {
        ["open", device, usable, fixed, freeze, core] => vec!["open", device, usable, fixed, "0", freeze, core],
        [kind @ ("event" | "packet" | "offcore" | "latency"), id, ref rest @ ..] => [&["add", id, kind], rest].concat(),
        _ => fields,
    };
    words.into_iter().map(String::from).collect()
}

/// The id and the request of an add's line.
fn entry_of(line: &str) -> Option<Entry> {
    match call_of(line.as_bytes()) {
        Ok(Call::Add { id, request }) => Some(Entry { id, request }),
        _ => None,
    }
}

/// A length around the one that is needed: it fits mostly.
fn length(numbers: &mut Numbers, needed: u64) -> u64 {
    let more = numbers.below(5);
    let any = numbers.below(needed + 1);
    numbers.pick(&[needed, needed, needed, needed + 1, needed + more, needed.saturating_sub(1), any, LONGEST_SLICE])
}

/// A call with a word too few, too many or odd, or a number that is too wide for what it says.
fn damaged(numbers: &mut Numbers, mut words: Vec<String>) -> Vec<String> {
    let at = numbers.below(words.len() as u64) as usize;
    let odd = numbers.pick(&ODD_WORDS).to_string();
    let wide = numbers.pick(&[1 << 8, 1 << 16, 1 << 32, 1 << 63]);
    match numbers.below(5) {
        0 => drop(words.remove(at)),
        1 => words.insert(at, odd),
        2 => words[at] = odd,
        _ => match words[at].parse::<u64>() {
            Ok(number) => words[at] = number.wrapping_add(wide).to_string(),
            Err(_) => words.push(odd),
        },
    }
    words
}

impl Script {
    /// Puts a line, and answers it, so that the next one can be drawn for what it leaves.
    fn answered(&mut self, words: &[String]) -> String {
        let line = words.join(" ");
        self.text += &format!("{line}\n");
        self.host.answer(&words_in(&line))
    }

    fn put(&mut self, words: &[String]) {
        self.answered(words);
    }

    /// Puts a line that may be damaged.
    fn put_or_damage(&mut self, words: Vec<String>) -> String {
        let damage = self.bench.numbers.chance(self.damage);
        let words = if damage { damaged(&mut self.bench.numbers, words) } else { words };
        self.answered(&words)
    }

    /// The numbers that so many turns write; as many as there may be where there is no session or there are too many turns.
    fn needed(&self, count: u64) -> u64 {
        let mut copy = self.host.session.clone();
        let one = |_| copy.turn(&mut [0; LIST]).map_or(LIST, |turn| 2 * turn.writes) as u64;
        (0..count.min(SHIFT)).map(one).sum()
    }

    fn turn(&mut self) -> Vec<String> {
        let needed = self.needed(1);
        vec!["turn".into(), length(&mut self.bench.numbers, needed).to_string()]
    }

    /// Mostly few turns; sometimes as many as there may be, or more.
    fn turns(&mut self) -> Vec<String> {
        let few = self.bench.numbers.below(9);
        let many = self.bench.numbers.pick(&[17, SHIFT - 1, SHIFT, SHIFT, SHIFT + 1, 128, u64::MAX, SHIFT + (1 << 32)]);
        let count = self.bench.numbers.pick(&[0, 1, 2, 3, few, few, few, few, few, many]);
        let needed = self.needed(count);
        let (lists, ends) = (length(&mut self.bench.numbers, needed), length(&mut self.bench.numbers, count.min(SHIFT)));
        ["turns".into(), count.to_string(), lists.to_string(), ends.to_string()].into()
    }

    fn call(&mut self) -> Vec<String> {
        match self.bench.numbers.below(20) {
            0 => openings::second(&mut self.bench),
            1..=3 if self.bench.odd() => words_of(&faults::add(&mut self.bench)),
            1..=8 => words_of(&self.bench.add()),
            9 | 10 => words_of(&self.bench.drop()),
            11..=13 => self.turn(),
            14..=17 => self.turns(),
            _ => readings::reading(&mut self.bench),
        }
    }

    /// More adds than the queue has room for, each of which has a plan alone.
    fn overfill(&mut self) {
        for id in 101..118 {
            let (code, mask) = self.bench.device.pairs()[0];
            let line = format!("event\t{id}\t{code:02X}\t{mask:02X}\t{}", self.bench.usable);
            self.put(&words_of(&line));
        }
        own_adds(&self.bench).iter().for_each(|line| self.put(&words_of(line)));
    }

    /// So many calls, mostly after an open.
    fn calls(&mut self, count: u64) {
        while self.bench.numbers.chance(30) {
            let words = openings::first(&mut self.bench);
            self.put(&words);
        }
        if self.bench.numbers.chance(90) {
            self.put(&words_of(&self.bench.own_open()));
        }
        if self.lent > 0 {
            self.lend_and_open();
        }
        for _ in 0..count {
            match (self.bench.numbers.chance(self.lent), self.bench.numbers.chance(self.fed)) {
                (true, _) => self.lent_step(),
                (_, true) => self.feed_step(),
                _ => {
                    let words = self.call();
                    self.put_or_damage(words);
                }
            }
        }
    }

    /// Both sessions and the feed afresh.
    fn renew(&mut self) {
        self.put(&["new".into()]);
    }
}

/// The script of this number: every device and every usable set in turn, and every fourth one tight.
pub fn random(number: u64, seed: u64) -> String {
    let mut numbers = numbers_from(seed ^ number << 20 ^ 2);
    let count = DEVICES.len() as u64;
    let device = &DEVICES[(number % count) as usize];
    let round = number / count;
    let usable = usable_in(device, round);
    let odd = [0, 4, 15, 40][(round / device.all() % 4) as usize];
    let damage = numbers.pick(&[0, 0, 5, 20]);
    let calls = numbers.below(60);
    let (lent, fed) = (numbers.pick(&[0, 30, 50, 90]), numbers.pick(&[0, 10, 40]));
    let lent_bench = lent::bench(numbers_from(seed ^ number << 20 ^ 3), odd);
    let mut bench = bench_on(device, usable, odd, numbers);
    bench.tight = round % 4 == 3;
    (bench.ids, bench.named) = (bench.numbers.pick(&[4, 8, 30]), NAMED);
    let mut script = Script { bench, lent_bench, unsent: Vec::new(), damage, lent, fed, host: Host::new(), text: String::new() };
    script.calls(calls);
    match round % 32 {
        5 => readings::every_bit(&mut script),
        9 | 25 => script.feed_run(),
        13 => script.overfill(),
        1 | 17 => script.waiting_run(),
        21 => script.lent_run(),
        29 => script.lent_overfill(),
        _ => {}
    }
    script.calls(calls / 2);
    script.renew();
    script.calls(calls / 4);
    script.text
}
