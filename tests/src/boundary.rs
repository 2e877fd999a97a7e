//! The library's functions as docs/FORMATS.md has them ("The C boundary"), on rows with guards on both sides.

use std::sync::atomic::{AtomicU64, Ordering};

mod c {
    unsafe extern "C" {
        pub fn dq_open(k: usize, cache: *mut u64, cache_len: usize, index: *mut u64, index_len: usize) -> u64;
        pub fn dq_serve(cache: *mut u64, cache_len: usize, index: *mut u64, index_len: usize, page: u64) -> u64;
        pub fn dq_play(cache: *mut u64, cache_len: usize, index: *mut u64, index_len: usize, trace: *const u64, trace_len: usize) -> u64;
        pub fn dq_report(trace: *const u64, trace_len: usize, m: usize, row: *mut u64, row_len: usize) -> u64;
        pub fn dq_begin(k: usize, h: usize, state: *mut u64, state_len: usize, row: *const u64, row_len: usize) -> u64;
        pub fn dq_step(state: *mut u64, state_len: usize, row: *mut u64, row_len: usize, shown: *const u64, shown_len: usize) -> u64;
        pub fn dq_contest(number: u64, k: usize, h: usize, rounds: u16, counts: *mut u64, counts_len: usize) -> u64;
        pub fn dq_accept(state: *const u64, state_len: usize, row: *const u64, row_len: usize, shown: *const u64, shown_len: usize) -> u64;
    }
}

/// What a function answers: the low byte says which of these, and the rest is its number.
#[derive(Clone, Copy, PartialEq, Eq, Debug)]
pub enum Answer {
    Hit,
    Fetched,
    FetchedFor(u64),
    Done(u64),
    Page(u64),
    NoPolicy(u64),
    NoMemory,
    Refused(u64, u64),
    Unknown(u64),
}

/// How many answers there were.
static ANSWERS: AtomicU64 = AtomicU64::new(0);

pub fn answers() -> u64 {
    ANSWERS.load(Ordering::Relaxed)
}

const LARGEST: u64 = (1 << 56) - 1;

impl Answer {
    fn of(number: u64) -> Answer {
        ANSWERS.fetch_add(1, Ordering::Relaxed);
        let value = number >> 8;
        match number & 0xff {
            0 if value == 0 => Answer::Hit,
            1 if value == 0 => Answer::Fetched,
            2 => Answer::FetchedFor(value),
            3 => Answer::Done(value),
            4 => Answer::Page(value),
            5 => Answer::NoPolicy(value),
            6 if value == 0 => Answer::NoMemory,
            tag @ 17..=24 => Answer::Refused(tag - 16, value),
            _ => Answer::Unknown(number),
        }
    }

    /// A number that does not fit is told as the largest that does.
    pub fn no_policy(number: u64) -> Answer {
        Answer::NoPolicy(number.min(LARGEST))
    }

    /// The same of a refusal's place.
    pub fn refused((reason, place): (u64, u64)) -> Answer {
        Answer::Refused(reason, place.min(LARGEST))
    }
}

const GUARDS: usize = 6;
const GUARD: u64 = 0x5ca1_ab1e_0ff1_ce00;

/// A row that is lent, between numbers that nobody may touch.
#[derive(Clone)]
pub struct Lent(Vec<u64>);

impl Lent {
    pub fn new(numbers: &[u64]) -> Lent {
        let guards: Vec<u64> = (0..GUARDS as u64).map(|i| GUARD + i).collect();
        Lent([&guards, numbers, &guards].concat())
    }

    pub fn row(&self) -> &[u64] {
        &self.0[GUARDS..self.0.len() - GUARDS]
    }

    pub fn row_mut(&mut self) -> &mut [u64] {
        let end = self.0.len() - GUARDS;
        &mut self.0[GUARDS..end]
    }

    fn guarded(&self) {
        let end = self.0.len() - GUARDS;
        let whole = |guards: &[u64]| guards.iter().zip(GUARD..).all(|(g, expected)| *g == expected);
        assert!(whole(&self.0[..GUARDS]), "a number before a row of {} was written", self.row().len());
        assert!(whole(&self.0[end..]), "a number behind a row of {} was written", self.row().len());
    }
}

/// Lends rows that are only read, and sees that nothing was written.
fn reading(rows: [&[u64]; 3], call: impl FnOnce([&[u64]; 3]) -> u64) -> u64 {
    let lent = rows.map(Lent::new);
    let number = call([lent[0].row(), lent[1].row(), lent[2].row()]);
    for (after, before) in lent.iter().zip(rows) {
        after.guarded();
        assert_eq!(after.row(), before, "a row that is only read was written");
    }
    number
}

pub fn open(k: usize, cache: &mut Lent, index: &mut Lent) -> Answer {
    let (a, b) = (cache.row_mut(), index.row_mut());
    let number = unsafe { c::dq_open(k, a.as_mut_ptr(), a.len(), b.as_mut_ptr(), b.len()) };
    cache.guarded();
    index.guarded();
    Answer::of(number)
}

pub fn serve(cache: &mut Lent, index: &mut Lent, page: u64) -> Answer {
    let (a, b) = (cache.row_mut(), index.row_mut());
    let number = unsafe { c::dq_serve(a.as_mut_ptr(), a.len(), b.as_mut_ptr(), b.len(), page) };
    cache.guarded();
    index.guarded();
    Answer::of(number)
}

pub fn play(cache: &mut Lent, index: &mut Lent, trace: &[u64]) -> Answer {
    let (a, b) = (cache.row_mut(), index.row_mut());
    let number = reading([trace, &[], &[]], |[t, ..]| unsafe {
        c::dq_play(a.as_mut_ptr(), a.len(), b.as_mut_ptr(), b.len(), t.as_ptr(), t.len())
    });
    cache.guarded();
    index.guarded();
    Answer::of(number)
}

pub fn report(trace: &[u64], m: usize, row: &mut Lent) -> Answer {
    let a = row.row_mut();
    let number = reading([trace, &[], &[]], |[t, ..]| unsafe { c::dq_report(t.as_ptr(), t.len(), m, a.as_mut_ptr(), a.len()) });
    row.guarded();
    Answer::of(number)
}

pub fn begin(k: usize, h: usize, state: &mut Lent, row: &[u64]) -> Answer {
    let a = state.row_mut();
    let number = reading([row, &[], &[]], |[r, ..]| unsafe { c::dq_begin(k, h, a.as_mut_ptr(), a.len(), r.as_ptr(), r.len()) });
    state.guarded();
    Answer::of(number)
}

pub fn step(state: &mut Lent, row: &mut Lent, shown: &[u64]) -> Answer {
    let (a, b) = (state.row_mut(), row.row_mut());
    let number = reading([shown, &[], &[]], |[s, ..]| unsafe {
        c::dq_step(a.as_mut_ptr(), a.len(), b.as_mut_ptr(), b.len(), s.as_ptr(), s.len())
    });
    state.guarded();
    row.guarded();
    Answer::of(number)
}

pub fn accept(state: &[u64], row: &[u64], shown: &[u64]) -> Answer {
    Answer::of(reading([state, row, shown], |[a, b, s]| unsafe {
        c::dq_accept(a.as_ptr(), a.len(), b.as_ptr(), b.len(), s.as_ptr(), s.len())
    }))
}

pub fn contest(number: u64, k: usize, h: usize, rounds: u16, counts: &mut Lent) -> Answer {
    let a = counts.row_mut();
    let answer = unsafe { c::dq_contest(number, k, h, rounds, a.as_mut_ptr(), a.len()) };
    counts.guarded();
    Answer::of(answer)
}
