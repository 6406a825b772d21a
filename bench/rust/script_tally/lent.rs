//! Kinds of calls on lent rows: what the rows were, which of their rules were broken, and what was answered.

use crate::planner::devices::Setup;
use crate::planner::model::rules::{equal_ids, front, waiting, RULES};
use crate::planner::model::{refusal_of, Session};
use crate::planner::requests::{Entry, Request, VACANT};
use crate::planner::{LIMIT, RECORDS};
use crate::script::{words, Host};

/// Ids so far apart that a search among neighbours does not see that they are equal.
const FAR: usize = 100;

/// A call on lent rows: the session, that beside it and the rows before it, its words and its answer; whether the host has
/// edited the rows since the last call on them, and lent another number of them.
pub struct LentCall<'a> {
    pub setup: Option<Setup>,
    pub beside: Option<Setup>,
    pub rows: &'a [Entry],
    pub words: &'a [&'a str],
    pub answer: &'a str,
    pub edited: bool,
    pub other_number: bool,
}

type Test = fn(&LentCall) -> bool;

pub const KINDS: [(&str, Test); 29] = [
    ("opened over rows that are not vacant", |call| call.is("ropen", "ok") && !call.all_vacant()),
    ("a refused open, and rows that are not vacant", |call| call.opens() && call.answer.starts_with("no 3") && !call.all_vacant()),
    ("an open with no record", |call| call.is("ropen", "no 3 0") && call.rows.is_empty()),
    ("an open with too many records", |call| call.is("ropen", "no 3 0") && call.rows.len() > RECORDS),
    ("too few or many records, and a field that is refused with 3", |call| call.length_before(&[3])),
    ("too few or many records, and an asking that is refused", |call| call.length_before(&[7, 10])),
    ("not open, and rows that break a rule of their own", |call| {
        call.answer == "no 2 0" && call.setup.is_none() && call.odd_vacant()
    }),
    ("no record", |call| call.refused_rows() && call.rows.is_empty()),
    ("too many records", |call| call.refused_rows() && call.rows.len() > RECORDS),
    ("equal ids side by side", |call| call.only(0) && call.apart() == 1),
    ("equal ids far apart", |call| call.only(0) && call.apart() >= FAR),
    ("an id of 65536", |call| call.only(1) && call.has(|row| row.id == 65536)),
    ("an id whose low 16 bits are those of another", |call| call.same_low_bits()),
    ("a request refused with 7", |call| call.refused_rows() && call.refuses(7)),
    ("a request refused with 8", |call| call.refused_rows() && call.refuses(8)),
    ("a request refused with 9", |call| call.refused_rows() && call.refuses(9)),
    ("a request refused with 10", |call| call.refused_rows() && call.refuses(10)),
    ("a request refused with 11", |call| call.refused_rows() && call.refuses(11)),
    ("a vacant record of another kind", |call| call.only(5) && call.has(|row| row.id == 0 && !is_event(row))),
    ("broken rows hide another refusal", |call| call.hides()),
    ("accepted on rows that the host edited", |call| call.accepted() && call.edited),
    ("accepted on another number of rows", |call| call.accepted() && call.other_number),
    ("accepted beside an open session of another device", |call| call.accepted() && call.beside_another()),
    ("added behind more than a queue holds", |call| call.is("radd", "ok") && front(call.rows) >= LIMIT),
    ("no room in one record", |call| call.is("radd", "no 13 0") && call.rows.len() == 1),
    ("no room in as many as can be lent", |call| call.is("radd", "no 13 0") && call.rows.len() == RECORDS),
    ("dropped from more than a queue holds", |call| call.is("rdrop", "ok") && front(call.rows) > LIMIT),
    ("a turn of more than a queue holds", |call| call.is("rturn", "ok") && front(call.rows) > LIMIT),
    ("a turn of as many as can be lent", |call| call.is("rturn", "ok") && front(call.rows) == RECORDS),
];

fn is_event(row: &Entry) -> bool {
    matches!(row.request, Request::Event { .. })
}

/// The kinds of a call: those of the list, and the rule of the rows for which alone it is refused.
pub fn kinds_of<'a>(call: &'a LentCall) -> impl Iterator<Item = &'static str> + 'a {
    let kinds = KINDS.iter().filter(|(_, test)| test(call)).map(|(kind, _)| *kind);
    kinds.chain((0..RULES.len()).filter(|rule| call.only(*rule)).map(|rule| RULES[rule].0))
}

impl LentCall<'_> {
    pub fn of<'a>(before: &'a Host<Session>, words: &'a [&'a str], answer: &'a str) -> LentCall<'a> {
        let (setup, beside) = (before.lent.session.setup, before.session.setup);
        LentCall { setup, beside, rows: &before.lent.rows, words, answer, edited: false, other_number: false }
    }

    fn opens(&self) -> bool {
        self.words[0] == "ropen"
    }

    fn is(&self, verb: &str, answer: &str) -> bool {
        self.words[0] == verb && self.answer == answer
    }

    fn accepted(&self) -> bool {
        self.answer == "ok" && !self.opens()
    }

    fn refused_rows(&self) -> bool {
        self.answer == "no 3 0" && !self.opens()
    }

    fn all_vacant(&self) -> bool {
        self.rows.iter().all(|row| *row == VACANT)
    }

    fn has(&self, test: fn(&Entry) -> bool) -> bool {
        self.rows.iter().any(test)
    }

    fn odd_vacant(&self) -> bool {
        self.has(|row| row.id == 0 && *row != VACANT)
    }

    /// Two open sessions of different devices.
    fn beside_another(&self) -> bool {
        let letter = |setup: Option<Setup>| setup.map(|setup| setup.device.letter);
        self.setup.is_some() && self.beside.is_some() && letter(self.setup) != letter(self.beside)
    }

    /// An open with 3 for the number of rows, where its words would get one of these numbers.
    fn length_before(&self, numbers: &[u8]) -> bool {
        let refused = |opening| Setup::of(opening).is_err_and(|refusal| numbers.contains(&refusal.number));
        self.is("ropen", "no 3 0") && words::opening(&self.words[1..]).is_some_and(refused)
    }

    /// Whether the call is refused for this rule of the rows and for no other.
    fn only(&self, rule: usize) -> bool {
        let Some(setup) = self.setup else { return false };
        let lendable = (1..=RECORDS).contains(&self.rows.len());
        self.refused_rows()
            && lendable
            && RULES.iter().enumerate().all(|(at, (_, broken))| broken(setup, self.rows) == (at == rule))
    }

    /// How far apart the first equal ids are.
    fn apart(&self) -> usize {
        equal_ids(self.rows).map_or(0, |(earlier, later)| later - earlier)
    }

    fn same_low_bits(&self) -> bool {
        let ids = |high: bool| waiting(self.rows).map(|row| row.id).filter(move |id| (*id > 65535) == high);
        self.only(1) && ids(true).any(|high| ids(false).any(|low| low == high & 0xFFFF))
    }

    /// A request that add would refuse with this number.
    fn refuses(&self, number: u8) -> bool {
        let Some(setup) = self.setup else { return false };
        waiting(self.rows).any(|row| refusal_of(setup.device, row.request).is_some_and(|refusal| refusal.number == number))
    }

    /// The call has an id or a length that is refused on any rows.
    fn hides(&self) -> bool {
        self.refused_rows()
            && match self.words {
                ["radd" | "rdrop", id, ..] => matches!(id.parse::<u64>(), Ok(0 | 65536..)),
                ["rturn", length] => matches!(length.parse::<u64>(), Ok(0..=5)),
                _ => false,
            }
    }
}
