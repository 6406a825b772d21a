//! Scripts of library calls and their answers; the notation is in docs/MAINTAINING.md. A script holds any bytes: byte b stands
//! as the character of this number. Each program here uses a part.
#![allow(dead_code)]

pub mod feed;
pub mod lent;
pub mod texts;
pub mod words;

use crate::feed::{Fed, Feed};
use crate::planner::model::reader::{read, Registers};
use crate::planner::{Calls, PLACES};
use lent::Lent;
use words::{decimal, hex, opening, request, slice};

const LONGEST_LINE: usize = 4096;

/// What the calls of a script are made on: a session, and apart from it a lent one with its rows, and a feed.
#[derive(Clone)]
pub struct Host<Session: Fed> {
    pub session: Session,
    pub lent: Lent<Session::Lent>,
    pub feed: Session::Feed,
}

fn turn(s: &mut impl Calls, length: &str) -> Option<String> {
    let mut list = slice(length)?;
    let result = s.turn(&mut list);
    Some(texts::turn(&result, &list))
}

fn turns(s: &mut impl Calls, count: &str, length: &str, room: &str) -> Option<String> {
    let (count, mut lists, mut ends) = (decimal(count)?, slice(length)?, slice(room)?);
    let result = s.turns(count, &mut lists, &mut ends);
    Some(format!("{}\n{}\n{}", texts::answer(&result), texts::slice("list", &lists), texts::slice("ends", &ends)))
}

fn reading(words: &[&str]) -> Option<String> {
    let (opened, values) = words.split_at_checked(6)?;
    let opening = opening(opened)?;
    let v: Vec<u64> = values.iter().map(|word| hex(word)).collect::<Option<_>>()?;
    let [c0, c1, c2, c3, c4, c5, f0, f1, f2, global, u_box, pebs] = v[..] else { return None };
    let mut control = [0; PLACES];
    control[..6].copy_from_slice(&[c0, c1, c2, c3, c4, c5]);
    let registers = Registers { control, rsp: [f0, f1], mm_cfg: f0, match_word: f1, mask_word: f2, global, u_box, pebs };
    Some(match read(opening, &registers) {
        Err(number) => format!("no {number}"),
        Ok(states) => states.into_iter().fold("ok".into(), |text, state| format!("{text} {}", texts::told(state))),
    })
}

/// The answer of a call of the session, with the queue after it.
fn call(s: &mut impl Calls, words: &[&str]) -> Option<String> {
    let answer = match words {
        ["turn", length] => turn(s, length)?,
        ["turns", count, length, room] => turns(s, count, length, room)?,
        ["open", rest @ ..] => texts::answer(&s.open(opening(rest)?)),
        ["add", id, rest @ ..] => texts::answer(&s.add(decimal(id)?, request(rest)?)),
        ["drop", id] => texts::answer(&s.drop(decimal(id)?)),
        _ => return None,
    };
    Some(format!("{answer}\n{}", texts::queue(s.queue())))
}

impl<Session: Fed> Host<Session> {
    pub fn new() -> Host<Session> {
        Host { session: Session::new(), lent: Lent::new(), feed: Session::Feed::new() }
    }

    fn answered(&mut self, words: &[&str]) -> Option<String> {
        match words {
            ["new"] => {
                *self = Host::new();
                Some(String::new())
            }
            ["read", rest @ ..] => reading(rest),
            ["piece" | "end", ..] => feed::answer(&mut self.feed, words),
            ["rows" | "row" | "ropen" | "radd" | "rdrop" | "rturn" | "rrun", ..] => self.lent.answer(words),
            _ => call(&mut self.session, words),
        }
    }

    /// The lines that are printed for the words of one: `?` where they are not in the notation, and none for `new` and edits.
    pub fn answer(&mut self, words: &[&str]) -> String {
        match self.answered(words) {
            None => "?\n".into(),
            Some(text) if text.is_empty() => text,
            Some(text) => text + "\n",
        }
    }
}

/// The words of a line, up to a remark. Behind the length of a piece and one blank all is its text.
pub fn words_in(line: &str) -> Vec<&str> {
    match line.trim_start_matches(' ').strip_prefix("piece ") {
        None => line.split('#').next().unwrap_or_default().split(' ').filter(|word| !word.is_empty()).collect(),
        Some(rest) => ["piece"].into_iter().chain(rest.trim_start_matches(' ').splitn(2, ' ')).collect(),
    }
}

/// Answers a script, and shows of each line the host before it, its words, and the lines that are printed.
pub fn answer_calls<Session: Fed + Clone>(script: &str, mut show: impl FnMut(&Host<Session>, &[&str], &str)) {
    let mut host = Host::<Session>::new();
    for line in script.split('\n') {
        let words = words_in(line);
        if words.is_empty() {
            continue;
        }
        let before = host.clone();
        let answer = if line.chars().count() > LONGEST_LINE { "?\n".into() } else { host.answer(&words) };
        show(&before, &words, &answer);
    }
}
