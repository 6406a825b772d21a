//! How many lines there were of each kind that is not in the grammar, and that a wrong count of fields would stumble over.

use crate::call::LINE_LIMIT;
use crate::grammar;
use crate::names::model::rows_of;
use crate::names::Texts;

/// The bytes that one read of the input brings at most.
const BLOCK: usize = 65_536;

/// A line that is not in the grammar: without its newline, whether it has one, and the field at fault.
struct Faulty<'a> {
    line: &'a [u8],
    newline: bool,
    fault: usize,
    lists: &'a Texts,
}

type Test = fn(&Faulty) -> bool;

const KINDS: [(&str, Test); 26] = [
    ("an empty line", |faulty| faulty.newline && faulty.line.is_empty()),
    ("a verb in upper case", |faulty| faulty.verb_becomes(<[u8]>::to_ascii_lowercase)),
    ("a blank beside a verb", |faulty| faulty.verb_becomes(|verb| verb.trim_ascii().to_vec())),
    ("blanks for tabs", |faulty| faulty.is_blank()),
    ("a tab before the verb", |faulty| faulty.line.starts_with(b"\t")),
    ("two tabs for one", |faulty| faulty.is_doubled()),
    ("a tab behind a record", |faulty| faulty.ends(b"\t")),
    ("a blank behind a record", |faulty| faulty.ends(b" ")),
    ("a carriage return behind a record", |faulty| faulty.ends(b"\r")),
    ("one field too many", |faulty| faulty.over() == Some(1)),
    ("several fields too many", |faulty| faulty.over() > Some(1)),
    ("fields too few", |faulty| faulty.newline && faulty.stops()),
    ("a bad field, and fields too few", |faulty| faulty.bad(|asked| faulty.fields().len() < asked) > 0),
    ("a bad field, and fields too many", |faulty| faulty.bad(|asked| faulty.fields().len() > asked) > 0),
    ("two bad fields", |faulty| faulty.bad(|asked| faulty.fields().len() == asked) > 1),
    ("80 bytes", |faulty| faulty.line.len() == LINE_LIMIT),
    ("81 bytes", |faulty| faulty.line.len() == LINE_LIMIT + 1),
    ("over 80 bytes, the fault before them", |faulty| faulty.is_long() && faulty.end() <= LINE_LIMIT),
    ("over 80 bytes, the fault reaches past them", |faulty| faulty.is_long() && faulty.end() > LINE_LIMIT),
    ("over 80 bytes, a record before them", |faulty| faulty.is_long() && faulty.over().is_some()),
    ("over a block of input", |faulty| faulty.line.len() > BLOCK),
    ("no newline, a record", |faulty| !faulty.newline && is_record(faulty.line)),
    ("no newline, fields too few", |faulty| !faulty.newline && faulty.stops()),
    ("no newline, a bad field", |faulty| !faulty.newline && faulty.bad(|_| true) > 0),
    ("no newline, over 80 bytes", |faulty| !faulty.newline && faulty.is_long()),
    ("a bad named line, and a bad list", |faulty| faulty.line.starts_with(b"named\t") && faulty.list_is_bad()),
];

fn is_record(line: &[u8]) -> bool {
    grammar::fault(line, true).is_none()
}

impl<'a> Faulty<'a> {
    fn fields(&self) -> Vec<&'a [u8]> {
        self.line.split(|&byte| byte == b'\t').collect()
    }

    /// Whether the first field is no verb, and this makes one of it.
    fn verb_becomes(&self, change: impl Fn(&[u8]) -> Vec<u8>) -> bool {
        let verb = self.fields()[0];
        self.fault == 0 && grammar::asked_and_bad(&change(verb)).is_some()
    }

    fn is_blank(&self) -> bool {
        let tabs = |byte: &u8| if *byte == b' ' { b'\t' } else { *byte };
        is_record(&self.line.iter().map(tabs).collect::<Vec<u8>>())
    }

    /// A record but for an empty field inside it.
    fn is_doubled(&self) -> bool {
        let fields = self.fields();
        let without = |at: usize| [&fields[..at], &fields[at + 1..]].concat().join(&b'\t');
        !self.is_long() && (1..fields.len() - 1).any(|at| fields[at].is_empty() && is_record(&without(at)))
    }

    fn ends(&self, with: &[u8]) -> bool {
        self.line.strip_suffix(with).is_some_and(is_record)
    }

    /// How many fields stand behind a whole record.
    fn over(&self) -> Option<usize> {
        let fields = self.fields();
        let before = fields.get(..self.fault)?;
        (fields.len() > self.fault && is_record(&before.join(&b'\t'))).then(|| fields.len() - self.fault)
    }

    /// All fields are good, and more are asked for.
    fn stops(&self) -> bool {
        self.fault == self.fields().len() && !is_record(self.line)
    }

    /// How many fields are bad, where so many are asked for.
    fn bad(&self, test: impl Fn(usize) -> bool) -> usize {
        grammar::asked_and_bad(self.line).map_or(0, |(asked, bad)| if test(asked) { bad } else { 0 })
    }

    fn is_long(&self) -> bool {
        self.line.len() > LINE_LIMIT
    }

    /// Where the field at fault ends.
    fn end(&self) -> usize {
        let fields = self.fields();
        let fault = self.fault.min(fields.len() - 1);
        fields[..=fault].iter().map(|field| field.len()).sum::<usize>() + fault
    }

    fn list_is_bad(&self) -> bool {
        rows_of(&self.lists.site).is_none() || rows_of(&self.lists.house).is_none()
    }
}

pub struct FaultTally {
    counts: [u64; KINDS.len()],
}

impl FaultTally {
    pub fn new() -> FaultTally {
        FaultTally { counts: [0; KINDS.len()] }
    }

    /// Counts a line that is not in the grammar, with its newline if it has one.
    pub fn count(&mut self, part: &[u8], lists: &Texts) {
        let line = part.strip_suffix(b"\n");
        let (newline, line) = (line.is_some(), line.unwrap_or(part));
        let Some(fault) = grammar::fault(line, newline) else { return };
        let faulty = Faulty { line, newline, fault, lists };
        for (count, (_, test)) in self.counts.iter_mut().zip(KINDS) {
            *count += test(&faulty) as u64;
        }
    }

    fn rows(&self) -> impl Iterator<Item = (&str, u64)> {
        KINDS.iter().zip(self.counts).map(|((name, _), count)| (*name, count))
    }

    pub fn print(&self) {
        self.rows().for_each(|(name, count)| println!("{name:46}{count:>8}"));
    }

    /// There was every kind.
    pub fn nothing_missed(&self) {
        self.rows().for_each(|(name, count)| assert!(count > 0, "never in a line: {name}"));
    }
}
