//! Random pieces of a text and its end: cut anywhere, with outputs that fit, just fit or are too short, and calls after the end.

use super::Script;
use crate::feed::Feed;
use crate::script::feed::text_of;
use crate::script::words::LONGEST_SLICE;
use crate::transcript;

/// The most bytes of a piece: written out it is still shorter than a line of a script may be.
const LONGEST_PIECE: usize = 1500;
/// A line of so many bytes is too long.
const LONG: u64 = 81;
/// The longest answer to one line.
const ANSWER: u64 = 665;
/// So many of a hundred lines are damaged, and so many noise; some of both are too long.
const DAMAGE: u64 = 25;
const NOISE: u64 = 10;

/// A call of the feed: a piece with this text, or the end.
type Fed = Option<Vec<u8>>;

impl Script {
    /// One more line of the text that is to be sent: an open at first, and then lines of every kind. A `\` has no notation.
    fn write_line(&mut self) {
        let line = match self.unsent.is_empty() && self.bench.numbers.chance(30) {
            true => self.bench.own_open().into(),
            false => transcript::line(&mut self.bench, DAMAGE, NOISE),
        };
        self.unsent.extend(line.into_iter().map(|byte| if byte == b'\\' { b'/' } else { byte }));
        self.unsent.push(b'\n');
    }

    /// How many bytes of the unsent text come next: none, one, a few, up to a newline or its neighbours, or all.
    fn cut(&mut self) -> usize {
        let newline = self.unsent.iter().position(|&byte| byte == b'\n').unwrap_or(0) as u64;
        let (few, some) = (self.bench.numbers.below(9), self.bench.numbers.below(120));
        let all = self.unsent.len() as u64;
        let count = self.bench.numbers.pick(&[0, 1, 7, few, few, some, some, newline, newline + 1, newline + 2, 80, 81, all]);
        (count as usize).min(self.unsent.len()).min(LONGEST_PIECE)
    }

    /// The bytes that a call of the feed answers where there is room; of one that is refused, any number.
    fn fed_needed(&self, call: &Fed) -> u64 {
        let (mut copy, mut output) = (self.host.feed.clone(), vec![0; LONGEST_SLICE as usize]);
        let result = match call {
            Some(text) => copy.piece(text, &mut output),
            None => copy.end(&mut output),
        };
        result.map_or(7, |count| count as u64)
    }

    fn output_length(&mut self, needed: u64) -> u64 {
        let (more, any) = (self.bench.numbers.below(40), self.bench.numbers.below(needed + 1));
        let less = needed.saturating_sub(1);
        match self.bench.numbers.chance(2) {
            true => self.bench.numbers.pick(&[LONGEST_SLICE, LONGEST_SLICE + 1]),
            false => self.bench.numbers.pick(&[needed, needed, needed, needed, needed + 1, needed + more, less, any, ANSWER]),
        }
    }

    /// Whether the call is accepted.
    fn put_fed(&mut self, call: &Fed) -> bool {
        let needed = self.fed_needed(call);
        let length = self.output_length(needed).to_string();
        let words = match call {
            None => vec!["end".into(), length],
            Some(text) if text.is_empty() => vec!["piece".into(), length],
            Some(text) => vec!["piece".into(), length, text_of(text)],
        };
        self.put_or_damage(words).starts_with("ok")
    }

    /// A piece. What is refused is mostly sent again, whole or cut in another way.
    fn send_piece(&mut self) {
        while self.unsent.len() < 40 || self.bench.numbers.chance(20) {
            self.write_line();
        }
        let count = self.cut();
        let text = self.unsent[..count].to_vec();
        if self.put_fed(&Some(text)) || self.bench.numbers.chance(5) {
            self.unsent.drain(..count);
        }
    }

    /// A call of the feed amid others; the end comes seldom.
    pub fn feed_step(&mut self) {
        match self.bench.numbers.chance(4) {
            true => drop(self.put_fed(&None)),
            false => self.send_piece(),
        }
    }

    /// A fresh feed, its text, which may end in a line too long, its end, and calls after that.
    pub fn feed_run(&mut self) {
        self.renew();
        self.unsent.clear();
        for _ in 0..10 + self.bench.numbers.below(40) {
            self.send_piece();
        }
        if self.bench.numbers.chance(30) {
            let length = LONG + self.bench.numbers.below(LONG);
            self.put_fed(&Some(vec![b'A'; length as usize]));
        }
        for _ in 0..1 + self.bench.numbers.below(3) {
            self.put_fed(&None);
        }
        for _ in 0..self.bench.numbers.below(4) {
            self.feed_step();
        }
    }
}
