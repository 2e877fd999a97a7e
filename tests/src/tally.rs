//! How often each kind of case was met, so that a kind that was never met is a failure too.

use crate::boundary::Answer;
use std::collections::BTreeMap;

#[derive(Default)]
pub struct Tally(BTreeMap<String, u64>);

impl Tally {
    pub fn add(&mut self, what: &str) {
        *self.0.entry(what.to_string()).or_default() += 1;
    }

    /// Notes what a function answered: a refusal by its number, and by its place where that has only a few values.
    pub fn answer(&mut self, function: &str, answer: Answer) {
        let kind = match answer {
            Answer::Hit => "hit".to_string(),
            Answer::Fetched => "fetched".to_string(),
            Answer::FetchedFor(_) => "fetched for another".to_string(),
            Answer::Done(_) => "done".to_string(),
            Answer::Page(_) => "page".to_string(),
            Answer::NoPolicy(_) => "no such policy".to_string(),
            Answer::NoMemory => "no memory".to_string(),
            Answer::Refused(1, place) => format!("refused 1 at {place}"),
            Answer::Refused(reason, _) => format!("refused {reason}"),
            Answer::Unknown(number) => panic!("{function} answers {number}, which means nothing"),
        };
        self.add(&format!("{function}: {kind}"));
    }

    /// Fails unless each of these was met at least so often.
    pub fn need(&self, at_least: u64, kinds: &[&str]) {
        for kind in kinds {
            let met = self.0.get(*kind).copied().unwrap_or(0);
            assert!(met >= at_least, "'{kind}' was met {met} times, and should be at least {at_least}");
        }
    }

    pub fn print(&self) {
        for (what, count) in &self.0 {
            println!("{count:>9}  {what}");
        }
    }
}
