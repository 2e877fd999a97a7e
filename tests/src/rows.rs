//! Caches on lent rows: `dq_open`, `dq_serve` and `dq_play` beside a cache of our own.

use crate::boundary::{self, Answer, Lent};
use crate::caches::{Cache, Event, Rule};
use crate::random::Random;
use crate::tally::Tally;

const WIDE: u64 = 1 << 32;

/// Why a cache row is none, with an index row of so many numbers: the table of refusals, row by row.
fn fault(cache: &[u64], index_len: usize) -> Option<(u64, u64)> {
    if cache.len() < 2 || cache[0] == 0 || cache[0] > 4096 {
        return Some((1, 0));
    }
    let k = cache[0] as usize;
    if cache.len() < 2 + k || index_len < 9 * k + 5 {
        return Some((1, 0));
    }
    if cache[1] > cache[0] {
        return Some((1, 1));
    }
    let pages = &cache[2..2 + cache[1] as usize];
    let bad = (0..pages.len()).find(|i| pages[*i] >= WIDE || pages[..*i].contains(&pages[*i]));
    bad.map(|i| (2, 2 + i as u64))
}

fn refusal(cache: &[u64], index_len: usize, trace: &[u64]) -> Option<(u64, u64)> {
    fault(cache, index_len).or(trace.iter().find(|page| **page >= WIDE).map(|page| (3, *page)))
}

/// A cache of our own that holds the pages of a good row.
fn cache_of(row: &[u64]) -> Cache {
    let mut cache = Cache::new(row[0] as usize, Rule::Lru);
    for page in row[2..2 + row[1] as usize].iter().rev() {
        cache.request(*page);
    }
    cache
}

/// The cache row that holds these pages, with what stood beyond it.
fn row_of(k: usize, pages: &[u64], before: &[u64]) -> Vec<u64> {
    let mut row = vec![k as u64, pages.len() as u64];
    row.extend(pages);
    row.resize(2 + k, 0);
    row.extend(&before[2 + k..]);
    row
}

/// The pages of an index row, by its ring from slot 0 (docs/ARCHITECTURE.md, "recency"): five numbers for each slot, of which the first says which
/// slot was used before it, the second which after it, and the third its page; the fourth of slot 0 says how many slots hold a page.
fn indexed(index: &[u64]) -> Vec<u64> {
    let mut pages = Vec::new();
    let (mut newer, mut slot) = (0, index[0] as usize);
    while slot != 0 && pages.len() <= index[3] as usize {
        assert_eq!(index[5 * slot + 1], newer, "the slot used after slot {slot}");
        pages.push(index[5 * slot + 2]);
        (newer, slot) = (slot as u64, index[5 * slot] as usize);
    }
    assert!(index[1] == newer && index[3] == pages.len() as u64, "the other end of the ring, and how many slots there are");
    pages
}

/// Sees that both rows hold exactly these pages, and are beyond their lengths as they were.
fn left(k: usize, pages: &[u64], before: (&Lent, &Lent), after: (&Lent, &Lent)) {
    assert_eq!(after.0.row(), row_of(k, pages, before.0.row()), "the cache row of {k} places");
    assert_eq!(indexed(after.1.row()), pages, "the ring of the index row of {k} places");
    let len = 9 * k + 5;
    assert_eq!(after.1.row()[len..], before.1.row()[len..], "beyond the index row of {k} places");
}

fn same(before: (&Lent, &Lent), after: (&Lent, &Lent)) {
    assert_eq!(after.0.row(), before.0.row(), "the cache row after a refusal");
    assert_eq!(after.1.row(), before.1.row(), "the index row after a refusal");
}

/// A good cache row with any number of pages, anything in the free places, and something beyond.
fn good_row(random: &mut Random, k: usize) -> Vec<u64> {
    let n = if random.one_in(3) { k } else { random.between(0, k) };
    let mut pages = random.trace(2 * k, 3 * k);
    pages.sort();
    pages.dedup();
    let mut row = vec![k as u64, n.min(pages.len()) as u64];
    while row.len() < 2 + row[1] as usize {
        let i = random.between(0, pages.len() - 1);
        row.push(pages.swap_remove(i));
    }
    let more = 2 + k - row.len() + random.between(0, 3);
    row.extend(random.numbers(more));
    row
}

/// A number that is not below 2^32, mostly just so.
fn wide(random: &mut Random) -> u64 {
    match random.below(4) {
        0 => WIDE,
        1 => WIDE + random.below(9),
        2 => u64::MAX,
        _ => random.next() | WIDE,
    }
}

/// Puts something wrong into a cache row or the length of its index row, and gives the latter.
fn damaged(random: &mut Random, row: &mut Vec<u64>, index_len: usize) -> usize {
    let (k, n) = (row[0] as usize, row[1] as usize);
    match random.below(9) {
        0 => row.truncate(random.between(0, 1)),
        1 => row[0] = 0,
        2 => row[0] = [4097, WIDE, u64::MAX, u64::MAX / 9][random.between(0, 3)],
        3 => row.truncate(random.between(2, 1 + k)),
        4 => return random.between(0, 9 * k + 4),
        5 => row[1] = if random.one_in(2) { row[0] + 1 } else { random.next().max(row[0] + 1) },
        6 if n > 1 => {
            let (from, to) = (random.between(0, n - 2), n - 1);
            row[2 + to] = row[2 + from];
        }
        7 if n > 0 => {
            let at = 2 + random.between(0, n - 1);
            row[at] = wide(random);
        }
        _ => {}
    }
    index_len
}

/// Requests over the pages of the row and some others.
fn requests(random: &mut Random, row: &[u64], len: usize) -> Vec<u64> {
    let mut pages = random.trace(random_size(row), random_size(row) + 1);
    pages.extend(row.iter().skip(2).filter(|page| **page < WIDE));
    pages.push(random.below(WIDE));
    (0..len).map(|_| pages[random.between(0, pages.len() - 1)]).collect()
}

fn random_size(row: &[u64]) -> usize {
    row.len().min(5000)
}

/// One request by `dq_serve`.
fn served(tally: &mut Tally, cache: &mut Lent, index: &mut Lent, page: u64) {
    let before = (cache.clone(), index.clone());
    let answer = boundary::serve(cache, index, page);
    tally.answer("dq_serve", answer);
    let (before, after) = ((&before.0, &before.1), (&*cache, &*index));
    if let Some(reason) = refusal(before.0.row(), before.1.row().len(), &[page]) {
        assert_eq!(answer, Answer::refused(reason), "serve of {page}");
        return same(before, after);
    }
    let mut ours = cache_of(before.0.row());
    let expected = match ours.request(page) {
        Event::Hit => Answer::Hit,
        Event::Fetched => Answer::Fetched,
        Event::FetchedFor(other) => Answer::FetchedFor(other),
    };
    assert_eq!(answer, expected, "serve of {page} on {:?}", before.0.row());
    left(before.0.row()[0] as usize, &ours.pages(), before, after);
}

/// A trace by `dq_play`. Answers how many were fetched, where it was played.
fn played(tally: &mut Tally, cache: &mut Lent, index: &mut Lent, trace: &[u64]) -> Option<u64> {
    let before = (cache.clone(), index.clone());
    let answer = boundary::play(cache, index, trace);
    tally.answer("dq_play", answer);
    let (before, after) = ((&before.0, &before.1), (&*cache, &*index));
    if let Some(reason) = refusal(before.0.row(), before.1.row().len(), trace) {
        assert_eq!(answer, Answer::refused(reason), "play of {} requests", trace.len());
        same(before, after);
        return None;
    }
    let mut ours = cache_of(before.0.row());
    let fetches = trace.iter().map(|page| ours.request(*page).fetches()).sum();
    assert_eq!(answer, Answer::Done(fetches), "play of {} requests", trace.len());
    left(before.0.row()[0] as usize, &ours.pages(), before, after);
    Some(fetches)
}

/// The same trace whole, in pieces and request by request ends in the same row with the same number of fetches.
fn three_ways(random: &mut Random, tally: &mut Tally, cache: &Lent, index: &Lent, trace: &[u64]) {
    let mut whole = (cache.clone(), index.clone());
    let mut pieces = (cache.clone(), index.clone());
    let mut single = (cache.clone(), index.clone());
    let Some(fetches) = played(tally, &mut whole.0, &mut whole.1, trace) else {
        return;
    };
    // An empty piece first, since a row is written again by a trace with no requests too.
    let (mut piece, mut rest, mut sum) = (&trace[..0], trace, 0);
    loop {
        sum += played(tally, &mut pieces.0, &mut pieces.1, piece).expect("a good row stays one");
        if rest.is_empty() {
            break;
        }
        (piece, rest) = rest.split_at(random.between(0, rest.len()));
    }
    assert_eq!(sum, fetches, "fetches in pieces");
    assert_eq!(pieces.0.row(), whole.0.row(), "the cache row after pieces");
    if cache.row()[0] <= 64 && !trace.is_empty() {
        for page in trace {
            served(tally, &mut single.0, &mut single.1, *page);
        }
        assert_eq!(single.0.row(), whole.0.row(), "the cache row after single requests");
    }
    tally.add("traces whole, in pieces and request by request");
}

/// Rows good and damaged, requests good and too large.
fn any_rows(random: &mut Random, tally: &mut Tally) {
    let k = random.capacity();
    let mut row = good_row(random, k);
    let mut index_len = 9 * k + 5 + random.between(0, 3);
    if random.one_in(2) {
        index_len = damaged(random, &mut row, index_len);
    }
    let len = random.between(0, 40);
    let mut trace = requests(random, &row, len);
    if random.one_in(6) {
        for _ in 0..random.between(1, 2) {
            let at = random.between(0, trace.len());
            trace.insert(at, wide(random));
        }
    }
    let (cache, index) = (Lent::new(&row), Lent::new(&random.numbers(index_len)));
    let page = if random.one_in(8) { wide(random) } else { requests(random, &row, 1)[0] };
    served(tally, &mut cache.clone(), &mut index.clone(), page);
    three_ways(random, tally, &cache, &index, &trace);
}

/// `dq_open` on rows of any length, and a trace from there on.
fn opened(random: &mut Random, tally: &mut Tally) {
    let mut k = random.capacity();
    let mut lens = (2 + k + random.between(0, 3), 9 * k + 5 + random.between(0, 3));
    match random.below(8) {
        0 => k = [0, 4097, usize::MAX, usize::MAX / 9, 1 << 32][random.between(0, 4)],
        1 => lens.0 = random.between(0, 1 + k),
        2 => lens.1 = random.between(0, 9 * k + 4),
        _ => {}
    }
    let before = (Lent::new(&random.numbers(lens.0)), Lent::new(&random.numbers(lens.1)));
    let mut after = before.clone();
    let answer = boundary::open(k, &mut after.0, &mut after.1);
    tally.answer("dq_open", answer);
    if k == 0 || k > 4096 || lens.0 < 2 + k || lens.1 < 9 * k + 5 {
        assert_eq!(answer, Answer::Refused(1, 0), "open of {k} places on {lens:?}");
        return same((&before.0, &before.1), (&after.0, &after.1));
    }
    assert_eq!(answer, Answer::Done(0), "open of {k} places");
    left(k, &[], (&before.0, &before.1), (&after.0, &after.1));
    let len = random.between(0, 60);
    let trace = random.trace(len, 2 * k);
    three_ways(random, tally, &after.0, &after.1, &trace);
}

/// A long trace on a large cache, in pieces.
fn long(random: &mut Random, tally: &mut Tally, k: usize) {
    let mut rows = (Lent::new(&vec![0; 2 + k]), Lent::new(&vec![0; 9 * k + 5]));
    assert_eq!(boundary::open(k, &mut rows.0, &mut rows.1), Answer::Done(0));
    let trace = random.trace(100_000, 2 * k);
    let mut ours = Cache::new(k, Rule::Lru);
    let mut rest = &trace[..];
    while !rest.is_empty() {
        let (piece, more) = rest.split_at(random.between(1, rest.len().min(20_000)));
        let fetches = piece.iter().map(|page| ours.request(*page).fetches()).sum();
        assert_eq!(boundary::play(&mut rows.0, &mut rows.1, piece), Answer::Done(fetches), "a piece of {}", piece.len());
        assert_eq!(rows.0.row(), row_of(k, &ours.pages(), rows.0.row()), "the cache row of {k} places");
        rest = more;
    }
    let mut bad = trace;
    let at = random.between(0, bad.len() - 1);
    bad[at] = wide(random);
    let before = rows.clone();
    assert_eq!(boundary::play(&mut rows.0, &mut rows.1, &bad), Answer::refused((3, bad[at])), "a long trace with {} at {at}", bad[at]);
    same((&before.0, &before.1), (&rows.0, &rows.1));
    tally.add("long traces, 100,000 requests each");
}

pub fn run(random: &mut Random, tally: &mut Tally) {
    for _ in 0..15_000 {
        any_rows(random, tally);
        opened(random, tally);
    }
    for k in [1, 2, 63, 64, 65, 1000, 4095, 4096] {
        long(random, tally, k);
    }
    tally.need(200, &["dq_open: done", "dq_open: refused 1 at 0", "dq_serve: hit", "dq_serve: fetched", "dq_serve: fetched for another", "dq_play: done"]);
    tally.need(200, &["dq_serve: refused 1 at 0", "dq_serve: refused 1 at 1", "dq_serve: refused 2", "dq_serve: refused 3"]);
    tally.need(200, &["dq_play: refused 1 at 0", "dq_play: refused 1 at 1", "dq_play: refused 2", "dq_play: refused 3"]);
}
