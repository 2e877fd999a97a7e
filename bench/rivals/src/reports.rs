//! The report in plain Rust: by the same two passes, and as one would write it first, a simulation for each capacity.
use std::collections::HashMap;
use std::slice;

fn lru_hits(trace: &[u64], m: usize, hits: &mut [u64]) {
    let mut pages: Vec<u64> = Vec::with_capacity(m + 1);
    for page in trace {
        match pages.iter().position(|p| p == page) {
            Some(at) => {
                hits[at] += 1;
                pages.copy_within(0..at, 1);
                pages[0] = *page;
            }
            None => {
                pages.truncate(m - 1);
                pages.insert(0, *page);
            }
        }
    }
}

fn next_uses(trace: &[u64]) -> Vec<u64> {
    let n = trace.len();
    (0..n).map(|i| trace[i + 1..].iter().position(|p| *p == trace[i]).map_or(n, |d| i + 1 + d) as u64).collect()
}

fn fewest_hits(trace: &[u64], m: usize, hits: &mut [u64]) {
    let next = next_uses(trace);
    let mut row: Vec<(u64, u64)> = Vec::with_capacity(m);
    for (i, page) in trace.iter().enumerate() {
        let mut carry = (*page, i as u64);
        let mut found = None;
        for (at, place) in row.iter_mut().enumerate() {
            if place.0 == *page {
                found = Some(at);
                *place = carry;
                break;
            }
            if place.1 > carry.1 {
                std::mem::swap(place, &mut carry);
            }
        }
        match found {
            Some(at) => hits[at] += 1,
            None if row.len() < m => row.push(carry),
            None => {}
        }
        row[0].1 = next[i];
    }
}

fn settle(hits: &mut [u64], requests: usize) {
    let mut left = requests as u64;
    for place in hits {
        left -= *place;
        *place = left;
    }
}

/// The same two passes as ours.
#[no_mangle]
pub unsafe extern "C" fn rust_report(trace: *const u64, n: usize, m: usize, row: *mut u64) {
    let trace = slice::from_raw_parts(trace, n);
    let (house, known) = slice::from_raw_parts_mut(row, 2 * m).split_at_mut(m);
    house.fill(0);
    lru_hits(trace, m, house);
    settle(house, n);
    known.fill(0);
    fewest_hits(trace, m, known);
    settle(known, n);
}

fn lru_fetches(trace: &[u64], c: usize) -> u64 {
    let mut cache = lru::LruCache::new(c);
    trace.iter().filter(|page| cache.push(**page, ()).map_or(true, |(old, ())| old != **page)).count() as u64
}

fn belady_fetches(trace: &[u64], next: &[u64], c: usize) -> u64 {
    let mut cache: HashMap<u64, u64> = HashMap::new();
    let mut fetches = 0;
    for (page, next) in trace.iter().zip(next) {
        if !cache.contains_key(page) {
            fetches += 1;
            if cache.len() == c {
                let gone = *cache.iter().max_by_key(|(_, next)| **next).unwrap().0;
                cache.remove(&gone);
            }
        }
        cache.insert(*page, *next);
    }
    fetches
}

/// A cache and a run of Belady's rule for each capacity, one after the other.
#[no_mangle]
pub unsafe extern "C" fn first_report(trace: *const u64, n: usize, m: usize, row: *mut u64) {
    let trace = slice::from_raw_parts(trace, n);
    let row = slice::from_raw_parts_mut(row, 2 * m);
    let next = next_uses(trace);
    for c in 1..=m {
        row[c - 1] = lru_fetches(trace, c);
        row[m + c - 1] = belady_fetches(trace, &next, c);
    }
}
