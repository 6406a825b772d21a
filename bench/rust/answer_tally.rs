//! How often each kind of call got each answer, beside a table of those that it can get.

use std::collections::BTreeMap;

/// A kind of call, and every answer that it can get.
pub type Answers = (&'static str, &'static str);

#[derive(Default)]
pub struct AnswerTally {
    counts: BTreeMap<(String, String), u64>,
}

/// The answers of a row, each by itself.
fn answers_in(row: &'static str) -> impl Iterator<Item = &'static str> {
    row.split(", ")
}

impl AnswerTally {
    pub fn count(&mut self, kind: &str, answer: &str) {
        *self.counts.entry((kind.into(), answer.into())).or_default() += 1;
    }

    fn of(&self, kind: &str, answer: &str) -> u64 {
        self.counts.get(&(kind.into(), answer.into())).copied().unwrap_or(0)
    }

    pub fn print(&self, table: &[Answers]) {
        for (kind, row) in table {
            let counts: Vec<String> = answers_in(row).map(|answer| format!("{answer}: {}", self.of(kind, answer))).collect();
            println!("{kind:14}{}", counts.join(", "));
        }
    }

    /// No call got an answer that the table does not have.
    pub fn nothing_else(&self, table: &[Answers]) {
        for (kind, answer) in self.counts.keys() {
            let listed = table.iter().any(|(row, answers)| row == kind && answers_in(answers).any(|one| one == answer));
            assert!(listed, "{kind} was answered {answer}");
        }
    }

    /// Every call got every answer.
    pub fn nothing_missed(&self, table: &[Answers]) {
        for (kind, row) in table {
            answers_in(row).for_each(|answer| assert!(self.of(kind, answer) > 0, "{kind} was never answered {answer}"));
        }
    }
}
