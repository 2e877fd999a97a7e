//! Caches of our own, each written from the words of docs/FORMATS.md: which page goes is found by comparing times, counts or next uses.

use std::collections::{BTreeSet, HashMap};

/// What became of a request.
#[derive(Clone, Copy, PartialEq, Eq, Debug)]
pub enum Event {
    Hit,
    Fetched,
    FetchedFor(u64),
}

impl Event {
    pub fn fetches(self) -> u64 {
        (self != Event::Hit) as u64
    }

    pub fn line(self, page: u64) -> String {
        match self {
            Event::Hit => format!("{page}: here\n"),
            Event::Fetched => format!("{page}: fetched\n"),
            Event::FetchedFor(other) => format!("{page}: fetched for {other}\n"),
        }
    }
}

/// Which page of a full cache goes.
#[derive(Clone, Copy, PartialEq, Eq, Debug)]
pub enum Rule {
    /// The one requested longest ago.
    Lru,
    /// The one that came first.
    Fifo,
    /// The one requested least since it came; of several the one requested longest ago.
    LeastRequested,
    /// The one requested last.
    Mru,
}

pub const RULES: [Rule; 4] = [Rule::Lru, Rule::Fifo, Rule::LeastRequested, Rule::Mru];

#[derive(Clone, Copy)]
struct Entry {
    came: u64,
    used: u64,
    count: u64,
}

/// A cache of k places: the page with the least key goes.
pub struct Cache {
    k: usize,
    rule: Rule,
    time: u64,
    entries: HashMap<u64, Entry>,
    keys: BTreeSet<(u64, u64, u64)>,
}

impl Cache {
    pub fn new(k: usize, rule: Rule) -> Cache {
        Cache { k, rule, time: 0, entries: HashMap::new(), keys: BTreeSet::new() }
    }

    fn key(&self, page: u64, e: Entry) -> (u64, u64, u64) {
        match self.rule {
            Rule::Lru => (e.used, 0, page),
            Rule::Fifo => (e.came, 0, page),
            Rule::LeastRequested => (e.count, e.used, page),
            Rule::Mru => (u64::MAX - e.used, 0, page),
        }
    }

    pub fn request(&mut self, page: u64) -> Event {
        self.time += 1;
        let time = self.time;
        let known = self.entries.get(&page).copied();
        let mut event = Event::Fetched;
        if let Some(e) = known {
            self.keys.remove(&self.key(page, e));
            event = Event::Hit;
        } else if self.entries.len() == self.k {
            let (_, _, gone) = self.keys.pop_first().expect("a full cache");
            self.entries.remove(&gone);
            event = Event::FetchedFor(gone);
        }
        let e = known.unwrap_or(Entry { came: time, used: 0, count: 0 });
        let e = Entry { used: time, count: e.count + 1, ..e };
        self.entries.insert(page, e);
        self.keys.insert(self.key(page, e));
        event
    }

    /// The pages, the one requested last first.
    pub fn pages(&self) -> Vec<u64> {
        let mut pages: Vec<u64> = self.entries.keys().copied().collect();
        pages.sort_by_key(|page| std::cmp::Reverse(self.entries[page].used));
        pages
    }
}

pub fn lru_fetches(k: usize, trace: &[u64]) -> u64 {
    let mut cache = Cache::new(k, Rule::Lru);
    trace.iter().map(|page| cache.request(*page).fetches()).sum()
}

/// The place of the next request for the page of each request; the length where there is none.
fn next_uses(trace: &[u64]) -> Vec<usize> {
    let mut last: HashMap<u64, usize> = HashMap::new();
    let mut nexts = vec![trace.len(); trace.len()];
    for (i, page) in trace.iter().enumerate().rev() {
        nexts[i] = last.insert(*page, i).unwrap_or(trace.len());
    }
    nexts
}

/// Belady's rule with c places: of a full cache the page goes whose next request is furthest away.
pub fn fewest_fetches(c: usize, trace: &[u64]) -> u64 {
    let nexts = next_uses(trace);
    let mut held: HashMap<u64, usize> = HashMap::new();
    let mut order: BTreeSet<(usize, u64)> = BTreeSet::new();
    let mut fetches = 0;
    for (page, next) in trace.iter().zip(nexts) {
        match held.insert(*page, next) {
            Some(now) => {
                order.remove(&(now, *page));
            }
            None => {
                fetches += 1;
                if order.len() == c {
                    let (_, gone) = order.pop_last().expect("a full cache");
                    held.remove(&gone);
                }
            }
        }
        order.insert((next, *page));
    }
    fetches
}

/// The numbers of a report: what LRU fetches with 1, 2 .. m places, then the fewest. With more places than pages nothing changes any more.
pub fn report(trace: &[u64], m: usize) -> Vec<u64> {
    let pages = trace.iter().collect::<BTreeSet<_>>().len().max(1);
    let all = |fetches: fn(usize, &[u64]) -> u64| {
        let some: Vec<u64> = (1..=m.min(pages)).map(|c| fetches(c, trace)).collect();
        (0..m).map(|i| some[i.min(pages - 1)]).collect::<Vec<u64>>()
    };
    [all(lru_fetches), all(fewest_fetches)].concat()
}
