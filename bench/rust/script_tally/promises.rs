//! The promises held to the calls of a script, those of the session and those of the lent one.

use crate::planner::devices::Setup;
use crate::planner::model::{rules, Session};
use crate::planner::requests::Entry;
use crate::planner::{Calls, LIST};
use crate::promises::{History, PromiseTally};
use crate::script::words::{opening, request};
use crate::script::Host;

#[derive(Default)]
pub struct ScriptPromises {
    own: History,
    lent: History,
    /// Whether the host has edited the rows since the last call on them: that starts a history.
    edited: bool,
    pub tally: PromiseTally,
}

/// The ids taken in each completed turn of what was printed.
fn plans_in(printed: &str) -> Vec<Vec<u64>> {
    let (mut plans, mut plan) = (Vec::new(), Vec::new());
    for line in printed.lines() {
        match line.split(' ').collect::<Vec<_>>()[..] {
            ["take", id, ..] => plan.push(id.parse().expect("an id")),
            ["ok"] => plans.push(std::mem::take(&mut plan)),
            _ => {}
        }
    }
    plans
}

/// The plans of so many single turns.
fn plans_of(session: &Session, count: &str) -> Vec<Vec<u64>> {
    let mut session = session.clone();
    let mut plan = |_| {
        let turn = session.turn(&mut [0; LIST]).expect("a turn");
        turn.taken[..turn.count].iter().map(|entry| entry.id).collect()
    };
    (0..count.parse::<u64>().expect("a number")).map(&mut plan).collect()
}

fn opened(words: &[&str]) -> History {
    let setup = opening(words).map(Setup::of).expect("an opening").expect("an accepted one");
    History::starts(setup, &[])
}

fn added(id: &str, words: &[&str]) -> Entry {
    Entry { id: id.parse().expect("an id"), request: request(words).expect("a request") }
}

impl ScriptPromises {
    /// An accepted call of the session.
    fn count_own(&mut self, before: &Session, words: &[&str], printed: &str) {
        match words {
            ["open", rest @ ..] => self.own = opened(rest),
            ["add", id, rest @ ..] => self.own.added(added(id, rest)),
            ["drop", id] => self.own.dropped(id.parse().expect("an id")),
            ["turn", _] => plans_in(printed).iter().for_each(|plan| self.own.turned(plan, &mut self.tally)),
            ["turns", count, ..] => plans_of(before, count).iter().for_each(|plan| self.own.turned(plan, &mut self.tally)),
            _ => {}
        }
    }

    /// An accepted call of the lent session; on edited rows it is the first of a history that starts with them.
    fn count_lent(&mut self, before: &Host<Session>, words: &[&str], printed: &str) {
        if let (true, Some(setup)) = (self.edited, before.lent.session.setup) {
            let queue: Vec<Entry> = rules::waiting(&before.lent.rows).copied().collect();
            self.lent = History::starts(setup, &queue);
        }
        self.edited = false;
        match words {
            ["ropen", rest @ ..] => self.lent = opened(rest),
            ["radd", id, rest @ ..] => self.lent.added(added(id, rest)),
            ["rdrop", id] => self.lent.dropped(id.parse().expect("an id")),
            ["rturn" | "rrun", ..] => plans_in(printed).iter().for_each(|plan| self.lent.turned(plan, &mut self.tally)),
            _ => {}
        }
    }

    /// A line of a script, with the host before it and what was printed for it.
    pub fn count(&mut self, before: &Host<Session>, words: &[&str], printed: &str) {
        let accepted = printed.lines().any(|line| line == "ok");
        match words[0] {
            "new" => (self.own, self.lent, self.edited) = Default::default(),
            "rows" | "row" => self.edited = true,
            "ropen" | "radd" | "rdrop" | "rturn" | "rrun" if accepted => self.count_lent(before, words, printed),
            _ if accepted => self.count_own(&before.session, words, printed),
            _ => {}
        }
    }
}
