//! Kinds of calls of the feed: how the text was cut, what was unfinished before the call, and what was answered.

use crate::call::LINE_LIMIT;
use crate::feed::whole::Whole;
use crate::planner::model::Session;
use crate::script::feed::bytes_of;
use crate::script::Host;

/// A call of the feed: the feed before it, the length of its output, the text of a piece (none at the end), and its answer with
/// the bytes written.
pub struct FedCall<'a> {
    feed: &'a Whole,
    length: usize,
    text: Option<Vec<u8>>,
    answer: &'a str,
    written: usize,
}

type Test = fn(&FedCall) -> bool;

pub const FEEDS: [(&str, Test); 20] = [
    ("an empty piece", |call| call.accepted() && call.piece().is_some_and(<[u8]>::is_empty)),
    ("a piece that closes no line", |call| {
        call.accepted() && call.lines() == 0 && call.piece().is_some_and(|text| !text.is_empty())
    }),
    ("a piece that closes several lines", |call| call.accepted() && call.lines() > 1),
    ("a line closed that was begun before", |call| call.closes(|before, _| before > 0)),
    ("a line closed by its newline alone", |call| call.closes(|before, now| before > 0 && now == 0)),
    ("a line of 80 bytes from several pieces", |call| call.closes(|before, now| before > 0 && before + now == LINE_LIMIT)),
    ("a line of 81 bytes from several pieces", |call| call.closes(|before, now| before > 0 && before + now == LINE_LIMIT + 1)),
    ("a line closed that was too long before", |call| call.closes(|before, _| before > LINE_LIMIT)),
    ("a line closed that becomes too long", |call| call.closes(|before, now| before <= LINE_LIMIT && before + now > LINE_LIMIT)),
    ("a line too long goes on", |call| call.accepted() && call.lines() == 0 && call.unfinished() > LINE_LIMIT),
    ("answers that just fit", |call| call.accepted() && call.written > 0 && call.written == call.length),
    ("room behind the answers", |call| call.accepted() && call.written > 0 && call.written < call.length),
    ("no room for a piece's answers", |call| call.answer == "no 14 0" && call.text.is_some()),
    ("no room for several answers", |call| call.answer == "no 14 0" && call.lines() > 1),
    ("no room for the end's answer", |call| call.answer == "no 14 0" && call.text.is_none()),
    ("the end of an unfinished line", |call| call.ends() && (1..=LINE_LIMIT).contains(&call.unfinished())),
    ("the end of a line too long", |call| call.ends() && call.unfinished() > LINE_LIMIT),
    ("the end where no line is unfinished", |call| call.ends() && call.unfinished() == 0),
    ("after the end, an empty piece", |call| call.feed.ended && call.piece().is_some_and(<[u8]>::is_empty)),
    ("after the end, answers that would not fit", |call| call.feed.ended && call.lines() > call.length),
];

/// The bytes before the first newline.
fn first_line(text: &[u8]) -> usize {
    text.iter().take_while(|&&byte| byte != b'\n').count()
}

impl FedCall<'_> {
    pub fn of<'a>(before: &'a Host<Session>, words: &[&str], answer: &'a str, printed: &str) -> Option<FedCall<'a>> {
        let (length, text) = match words {
            ["end", length] => (length, None),
            ["piece", length, rest @ ..] => (length, Some(bytes_of(rest.first().unwrap_or(&""))?)),
            _ => return None,
        };
        let written = printed.lines().next()?.strip_prefix("ok ").map_or(0, |count| count.parse().expect("a number"));
        Some(FedCall { feed: &before.feed, length: length.parse().ok()?, text, answer, written })
    }

    fn accepted(&self) -> bool {
        self.answer == "ok"
    }

    fn ends(&self) -> bool {
        self.accepted() && self.text.is_none()
    }

    fn piece(&self) -> Option<&[u8]> {
        self.text.as_deref()
    }

    /// How many lines a piece closes.
    fn lines(&self) -> usize {
        self.piece().map_or(0, |text| text.iter().filter(|&&byte| byte == b'\n').count())
    }

    /// The bytes of the line that is unfinished before the call.
    fn unfinished(&self) -> usize {
        self.feed.text.iter().rev().take_while(|&&byte| byte != b'\n').count()
    }

    /// The first line that an accepted piece closes: its bytes from before, and those of the piece.
    fn closes(&self, test: impl Fn(usize, usize) -> bool) -> bool {
        self.accepted() && self.lines() > 0 && self.piece().is_some_and(|text| test(self.unfinished(), first_line(text)))
    }
}
