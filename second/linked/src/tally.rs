//! What was compared: how many calls of each name gave which answer, how many cases of each sort there were, and how
//! often checks looked at records.

use second::Answer;
use std::collections::BTreeMap;
use std::fmt::Display;

#[derive(Default)]
pub struct Tally {
    /// Calls by name, and then by the answer's number and kind.
    answers: BTreeMap<&'static str, BTreeMap<(u8, u8), u64>>,
    cases: BTreeMap<&'static str, u64>,
    looks: u64,
}

impl Tally {
    pub fn add(&mut self, call: &'static str, answer: Answer) {
        let of_call = self.answers.entry(call).or_default();
        *of_call.entry((answer.number, answer.kind)).or_default() += 1;
    }

    /// One more case of this sort.
    pub fn case(&mut self, sort: &'static str) {
        *self.cases.entry(sort).or_default() += 1;
    }

    pub fn cases(&self, sort: &str) -> u64 {
        self.cases.get(sort).copied().unwrap_or(0)
    }

    /// A check looked so often at records.
    pub fn look(&mut self, looks: u32) {
        self.looks += u64::from(looks);
    }

    /// All checks' looks.
    pub fn looks(&self) -> u64 {
        self.looks
    }

    pub fn calls(&self) -> u64 {
        self.answers.values().flat_map(BTreeMap::values).sum()
    }

    /// All calls' answers by number, such as `0: 12, 5: 3`.
    pub fn by_number(&self) -> String {
        listed(self.answers.values().flatten().map(|((number, _), times)| (number, *times)))
    }

    pub fn by_call(&self) -> String {
        listed(self.answers.iter().map(|(call, answers)| (call, answers.values().sum())))
    }

    /// A line with the number of calls for each name, and behind it one by number and one by kind.
    pub fn by_call_number_and_kind(&self) -> String {
        self.answers.iter().map(|(call, answers)| told(call, answers)).collect()
    }
}

fn told(call: &str, answers: &BTreeMap<(u8, u8), u64>) -> String {
    let calls: u64 = answers.values().sum();
    let numbers = listed(answers.iter().map(|((number, _), times)| (number, *times)));
    let kinds = listed(answers.iter().map(|((_, kind), times)| (kind, *times)));
    format!("{call}: {calls} calls\n    by number {numbers}\n    by kind {kinds}\n")
}

/// Names with their sums, in order.
fn listed<N: Ord + Display>(counts: impl Iterator<Item = (N, u64)>) -> String {
    let mut sums: BTreeMap<N, u64> = BTreeMap::new();
    for (name, times) in counts {
        *sums.entry(name).or_default() += times;
    }
    let texts: Vec<String> = sums.iter().map(|(name, times)| format!("{name}: {times}")).collect();
    texts.join(", ")
}
