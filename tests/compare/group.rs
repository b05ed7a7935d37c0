//! Groups of compared cases.

use std::collections::BTreeMap;

/// How many answers there were under each refusal number, 0 for none.
#[derive(Clone, Default)]
pub struct Answers(BTreeMap<u8, usize>);

impl Answers {
    pub fn add(&mut self, refusal: u8, times: usize) {
        *self.0.entry(refusal).or_default() += times;
    }

    pub fn add_all(&mut self, others: &Answers) {
        others.0.iter().for_each(|(refusal, times)| self.add(*refusal, *times));
    }

    /// The numbers that were seen.
    pub fn seen(&self) -> Vec<u8> {
        self.0.keys().copied().collect()
    }

    pub fn text(&self) -> String {
        let counted: Vec<String> = self.0.iter().map(|(n, times)| format!("{n}: {times}")).collect();
        format!(" (by refusal, 0 is none: {})", counted.join(", "))
    }
}

/// One group of cases: how many agreed, and the first that did not.
pub struct Group {
    name: &'static str,
    pub agreed: usize,
    pub differing: Option<String>,
}

impl Group {
    pub fn new(name: &'static str) -> Group {
        Group { name, agreed: 0, differing: None }
    }

    pub fn case<T: PartialEq + std::fmt::Debug>(&mut self, what: impl Fn() -> String, ours: T, theirs: T) {
        if ours == theirs {
            self.agreed += 1;
        } else if self.differing.is_none() {
            self.differing = Some(format!("{}: ours {:?}, second {:?}", what(), ours, theirs));
        }
    }

    /// A case that is one statement, which has to hold.
    pub fn holds(&mut self, what: impl Fn() -> String, fact: bool) {
        if fact {
            self.agreed += 1;
        } else if self.differing.is_none() {
            self.differing = Some(format!("{}, which does not hold", what()));
        }
    }

    pub fn report(self, note: &str) -> bool {
        match self.differing {
            None => println!("compare: {}: {} cases agree{}", self.name, self.agreed, note),
            Some(ref first) => println!("compare: {}: DIFFERENT at {}", self.name, first),
        }
        self.differing.is_none() && self.agreed > 0
    }
}

pub fn hex(bytes: &[u8]) -> String {
    bytes.iter().map(|b| format!("{b:02x}")).collect()
}

/// Bytes that are shown in hex.
#[derive(PartialEq)]
pub struct Hex(pub Vec<u8>);

impl std::fmt::Debug for Hex {
    fn fmt(&self, formatter: &mut std::fmt::Formatter) -> std::fmt::Result {
        formatter.write_str(&hex(&self.0))
    }
}
