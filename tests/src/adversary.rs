//! An adversary of our own, written round by round from docs/FORMATS.md ("The adversary's requests").

use std::collections::{HashSet, VecDeque};

/// Where a challenge stands: the next new page, the pages of the round that are listed, those that were picked, and how many picks there were.
pub struct State {
    pub next: u64,
    pub listed: Vec<u64>,
    pub noted: Vec<u64>,
    pub picks: u64,
}

/// The requests against a policy with k places, beside a schedule with h.
pub struct Adversary {
    k: usize,
    h: usize,
    next: u64,
    /// The schedule's list as the round began, and then the round's new pages.
    list: Vec<u64>,
    /// New pages of the opening or the round that are not requested yet.
    new: VecDeque<u64>,
    /// What the second part has requested.
    second: Vec<u64>,
}

impl Adversary {
    pub fn new(k: usize, h: usize) -> Adversary {
        let opening: Vec<u64> = (1..=h as u64).collect();
        Adversary { k, h, next: h as u64 + 1, list: opening.clone(), new: opening.into(), second: Vec::new() }
    }

    fn begin_round(&mut self) {
        let news = (self.k - self.h + 1) as u64;
        self.new = (self.next..self.next + news).collect();
        self.list.extend(&self.new);
        self.next += news;
        self.second.clear();
    }

    /// The schedule's list at the end of a round: what the second part requested, the last new page, the round's list; each once, h of them.
    fn end_round(&mut self) {
        let mut seen = HashSet::new();
        let last_new = self.next - 1;
        let all = self.second.iter().chain([&last_new]).chain(&self.list);
        self.list = all.filter(|page| seen.insert(**page)).take(self.h).copied().collect();
    }

    /// The page that is requested where the policy shows this.
    pub fn ask(&mut self, shown: &[u64]) -> u64 {
        if self.new.is_empty() && self.round_is_over() {
            if self.list.len() > self.h {
                self.end_round();
            }
            self.begin_round();
        }
        if let Some(page) = self.new.pop_front() {
            return page;
        }
        let shown: HashSet<&u64> = shown.iter().collect();
        let page = *self.list.iter().find(|page| !shown.contains(page)).expect("a page that is not shown");
        self.second.push(page);
        page
    }

    /// What the state row and the adversary row hold of this after a request (docs/FORMATS.md, "State row"). A round ends with its last request.
    pub fn state(&mut self) -> State {
        if self.new.is_empty() && self.round_is_over() && self.list.len() > self.h {
            self.end_round();
            self.second.clear();
        }
        let mut seen = HashSet::new();
        let noted = self.second.iter().filter(|page| seen.insert(**page)).copied().collect();
        let to_come = self.new.len();
        State { next: self.next - to_come as u64, listed: self.list[..self.list.len() - to_come].to_vec(), noted, picks: self.second.len() as u64 }
    }

    /// After the opening, or after h - 1 picks.
    fn round_is_over(&self) -> bool {
        self.list.len() == self.h || self.second.len() == self.h - 1
    }
}

/// Where what a policy shows breaks the rules of a cache of k places: after a request for a page, before which it showed `before`.
pub fn broken(k: usize, asked: Option<u64>, before: &[u64], shown: &[u64]) -> Option<(u64, u64)> {
    if shown.len() > k {
        return Some((7, shown.len() as u64));
    }
    let allowed = |page: &u64| asked == Some(*page) || before.contains(page);
    if let Some(at) = (0..shown.len()).find(|i| shown[..*i].contains(&shown[*i]) || !allowed(&shown[*i])) {
        return Some((7, at as u64));
    }
    match asked {
        Some(page) if !shown.contains(&page) => Some((7, shown.len() as u64)),
        _ => None,
    }
}
