//! What stands beside a log, one line an exchange: NAME.grants has why each was granted (02, request
//! 5), NAME.counts how many AES blocks each took (02, request 10).

use std::fmt;

use crate::grant::Grant;
use crate::tag::Explained;

/// The grant and the blocks of each exchange.
#[derive(Default, PartialEq, Eq, Debug)]
pub struct Beside {
    pub grants: Vec<Grant>,
    pub counts: Vec<usize>,
}

/// The texts of the two files, each as far as it is there.
#[derive(Default)]
pub struct Stored {
    pub grants: Option<String>,
    pub counts: Option<String>,
}

impl Beside {
    pub fn push(&mut self, explained: &Explained) {
        self.grants.push(explained.grant);
        self.counts.push(explained.blocks);
    }

    /// The stored lines that aren't ours.
    pub fn differences(&self, stored: &Stored) -> Vec<Difference> {
        let grants = stored.grants.iter();
        let grants = grants.flat_map(|text| differences("grant", text, &self.grants));
        let counts = stored.counts.iter();
        let counts = counts.flat_map(|text| differences("count", text, &self.counts));
        grants.chain(counts).collect()
    }
}

/// The text of such a file.
pub fn text<T: fmt::Display>(ours: &[T]) -> String {
    ours.iter().map(|line| format!("{line}\n")).collect()
}

/// A line that isn't ours, numbered from 1: wrong, missing or surplus.
#[derive(PartialEq, Eq, Debug)]
pub struct Difference {
    pub what: &'static str,
    pub number: usize,
    pub logged: Option<String>,
    pub ours: Option<String>,
}

impl fmt::Display for Difference {
    fn fmt(&self, out: &mut fmt::Formatter) -> fmt::Result {
        let or_missing = |line: &Option<String>| line.clone().unwrap_or("missing".to_string());
        let (logged, ours) = (or_missing(&self.logged), or_missing(&self.ours));
        write!(out, "{} {} {logged}, ours {ours}", self.number, self.what)
    }
}

/// Compares the text of such a file with ours, line by line.
pub fn differences<T: fmt::Display>(what: &'static str, text: &str, ours: &[T]) -> Vec<Difference> {
    let logged: Vec<&str> = text.split_terminator('\n').collect();
    let differing = (0..logged.len().max(ours.len())).filter_map(|place| {
        let logged = logged.get(place).map(|line| line.to_string());
        let ours = ours.get(place).map(T::to_string);
        (logged != ours).then_some(Difference {
            what,
            number: place + 1,
            logged,
            ours,
        })
    });
    differing.collect()
}
