//! `dq_report` beside Belady's rule for each capacity, and an LRU cache for each.

use crate::boundary::{self, Answer, Lent};
use crate::caches;
use crate::random::Random;
use crate::tally::Tally;

fn refusal(trace: &[u64], m: usize, row_len: usize) -> Option<(u64, u64)> {
    if let Some(page) = trace.iter().find(|page| **page >= 1 << 32) {
        return Some((3, *page));
    }
    if trace.len() > 4096 {
        return Some((4, trace.len() as u64));
    }
    if m == 0 || m > 4096 {
        return Some((5, m as u64));
    }
    (row_len < 2 * m).then_some((5, row_len as u64))
}

fn reported(random: &mut Random, tally: &mut Tally, trace: &[u64], m: usize, row_len: usize) {
    let before = Lent::new(&random.numbers(row_len));
    let mut after = before.clone();
    let answer = boundary::report(trace, m, &mut after);
    tally.answer("dq_report", answer);
    if let Some(reason) = refusal(trace, m, row_len) {
        assert_eq!(answer, Answer::refused(reason), "report of {} requests for {m} capacities", trace.len());
        if reason.0 == 5 {
            tally.add(if (1..=4096).contains(&m) { "dq_report: refused 5, for the row" } else { "dq_report: refused 5, for the capacities" });
        }
        assert_eq!(after.row(), before.row(), "the report row after a refusal");
        return;
    }
    assert_eq!(answer, Answer::Done(m as u64), "report of {} requests for {m} capacities", trace.len());
    let expected = [&caches::report(trace, m)[..], &before.row()[2 * m..]].concat();
    assert_eq!(after.row(), expected, "the report of {trace:?} for {m} capacities");
}

/// A short day with any number of capacities, or one with something wrong.
fn any_day(random: &mut Random, tally: &mut Tally) {
    let (len, pages) = (random.between(0, 60), random.between(1, 20));
    let mut trace = random.trace(len, pages);
    let mut m = random.between(1, 24);
    let mut row_len = 2 * m + random.between(0, 3);
    match random.below(12) {
        0 => {
            let at = random.between(0, trace.len());
            trace.insert(at, (1 << 32) + random.below(1 << 40) * random.below(2));
        }
        1 => m = [0, 4097, usize::MAX][random.between(0, 2)],
        2 => row_len = random.between(0, 2 * m - 1),
        3 => trace = random.trace(4097, 9),
        _ => {}
    }
    reported(random, tally, &trace, m, row_len);
}

/// The same day for every number of capacities up to the pages and some more.
fn every_m(random: &mut Random, tally: &mut Tally) {
    let (len, pages) = (random.between(1, 80), random.between(1, 16));
    let trace = random.trace(len, pages);
    for m in 1..=pages + 4 {
        reported(random, tally, &trace, m, 2 * m + 1);
    }
}

pub fn run(random: &mut Random, tally: &mut Tally) {
    for _ in 0..8_000 {
        any_day(random, tally);
    }
    for _ in 0..500 {
        every_m(random, tally);
    }
    for (len, pages, m) in [(4096, 4096, 4096), (4096, 300, 4096), (4096, 60, 64), (1000, 700, 1024), (4096, 1, 4096), (0, 1, 4096)] {
        let trace = random.trace(len, pages);
        reported(random, tally, &trace, m, 2 * m);
        tally.add("dq_report: long days");
    }
    tally.need(200, &["dq_report: done", "dq_report: refused 3", "dq_report: refused 4"]);
    tally.need(200, &["dq_report: refused 5, for the capacities", "dq_report: refused 5, for the row"]);
}
