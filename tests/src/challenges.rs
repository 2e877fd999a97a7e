//! Challenges whose policy is ours, by `dq_begin`, `dq_step` and `dq_accept`: policies that keep the rules, and such as break each. And
//! whole challenges of the library's own, by `dq_contest`.

use crate::adversary::{Adversary, State, broken};
use crate::boundary::{self, Answer, Lent};
use crate::caches::{self, Cache, RULES};
use crate::random::Random;
use crate::tally::Tally;

/// A policy of ours: a rule, or whim, which drops pages as it likes, but keeps the rules of a cache.
enum Policy {
    Ruled(Cache),
    Whim(usize, Vec<u64>),
}

impl Policy {
    fn new(random: &mut Random, k: usize) -> Policy {
        match random.between(0, RULES.len()) {
            i if i < RULES.len() => Policy::Ruled(Cache::new(k, RULES[i])),
            _ => Policy::Whim(k, Vec::new()),
        }
    }

    fn serve(&mut self, random: &mut Random, page: u64) {
        match self {
            Policy::Ruled(cache) => {
                cache.request(page);
            }
            Policy::Whim(k, pages) => {
                pages.retain(|other| *other != page);
                while pages.len() >= *k || (!pages.is_empty() && random.one_in(9)) {
                    pages.swap_remove(random.between(0, pages.len() - 1));
                }
                let at = random.between(0, pages.len());
                pages.insert(at, page);
            }
        }
    }

    fn shown(&self) -> Vec<u64> {
        match self {
            Policy::Ruled(cache) => cache.pages(),
            Policy::Whim(_, pages) => pages.clone(),
        }
    }
}

/// Both rows of a challenge, with something beyond each.
struct Stand {
    k: usize,
    state: Lent,
    row: Lent,
    asked: Option<u64>,
    before: Vec<u64>,
}

impl Stand {
    fn new(random: &mut Random, k: usize, h: usize) -> Stand {
        let more = random.between(0, 3);
        let (mut state, row) = (Lent::new(&random.numbers(8 + more)), Lent::new(&random.numbers(3 * k + 1 + more)));
        let beyond = state.row()[8..].to_vec();
        assert_eq!(boundary::begin(k, h, &mut state, row.row()), Answer::Done(0), "begin of {k} beside {h}");
        let expected = [&[k as u64, h as u64, 1, 0, 0, 0, 0, 0][..], &beyond].concat();
        assert_eq!(state.row(), expected, "where a challenge of {k} beside {h} begins");
        Stand { k, state, row, asked: None, before: Vec::new() }
    }

    /// Something that breaks a rule is shown: it is refused at its place, and nothing is changed.
    fn refuse(&mut self, tally: &mut Tally, shown: &[u64]) {
        let Some(reason) = broken(self.k, self.asked, &self.before, shown) else {
            return;
        };
        let (state, row) = (self.state.clone(), self.row.clone());
        let answer = boundary::step(&mut self.state, &mut self.row, shown);
        assert_eq!(answer, Answer::refused(reason), "step where {shown:?} is shown after {:?} and {:?}", self.before, self.asked);
        assert_eq!((self.state.row(), self.row.row()), (state.row(), row.row()), "the rows after a refusal");
        assert_eq!(boundary::accept(state.row(), row.row(), shown), answer, "accept where {shown:?} is shown");
        let form = match shown.len() {
            n if n > self.k => "too many pages",
            n if reason.1 == n as u64 => "the page requested is not there",
            _ => "a page twice, or from nowhere",
        };
        tally.add(&format!("dq_step and dq_accept: refused 7, {form}"));
    }

    /// The next page, where the policy shows this.
    fn step(&mut self, shown: &[u64]) -> Answer {
        assert_eq!(boundary::accept(self.state.row(), self.row.row(), shown), Answer::Done(0), "accept where {shown:?} is shown");
        let beyond = (self.state.row()[8..].to_vec(), self.row.row()[3 * self.k + 1..].to_vec());
        let answer = boundary::step(&mut self.state, &mut self.row, shown);
        assert_eq!(self.state.row()[8..], beyond.0, "beyond the state");
        assert_eq!(self.row.row()[3 * self.k + 1..], beyond.1, "beyond the adversary's row");
        if let Answer::Page(page) = answer {
            let from = 2 * self.k + 1;
            assert_eq!(self.row.row()[from..from + shown.len()], *shown, "what was shown last");
            assert_eq!(self.state.row()[6..8], [shown.len() as u64, page], "how many were shown last, and the page");
            (self.asked, self.before) = (Some(page), shown.to_vec());
        }
        answer
    }

    /// Sees that both rows say where the challenge stands, number by number.
    fn stands(&self, h: usize, ours: &State) {
        let (state, row) = (self.state.row(), self.row.row());
        let State { next, listed, noted, picks } = ours;
        assert_eq!(state[..6], [self.k as u64, h as u64, *next, listed.len() as u64, noted.len() as u64, *picks], "the state of {} beside {h}", self.k);
        assert_eq!(row[..listed.len()], *listed, "the pages of the round of {} beside {h}", self.k);
        assert_eq!(row[self.k + 1..][..noted.len()], *noted, "the pages picked of {} beside {h}", self.k);
    }
}

/// What is shown with something wrong in it.
fn damaged(random: &mut Random, k: usize, shown: &[u64]) -> Vec<u64> {
    let mut bad = shown.to_vec();
    let at = random.between(0, bad.len());
    match random.below(5) {
        0 => bad.extend(random.numbers(k + 1 - bad.len().min(k))),
        1 => bad.insert(at, random.below(1 << 33)),
        2 if !bad.is_empty() => bad.insert(at, shown[random.between(0, shown.len() - 1)]),
        3 if at < bad.len() => bad[at] = random.below(40),
        _ if at < bad.len() => drop(bad.remove(at)),
        _ => bad.push(random.next()),
    }
    bad
}

/// A whole challenge of a policy that keeps the rules, with wrong shows in between: the requests are the construction's, and all are fetched.
fn challenged(random: &mut Random, tally: &mut Tally, k: usize, h: usize, rounds: usize) {
    let mut policy = Policy::new(random, k);
    let mut stand = Stand::new(random, k, h);
    let mut ours = Adversary::new(k, h);
    let mut trace = Vec::new();
    for _ in 0..h + rounds * k {
        let shown = policy.shown();
        if random.one_in(4) {
            stand.refuse(tally, &damaged(random, k, &shown));
        }
        let page = ours.ask(&shown);
        assert_eq!(stand.step(&shown), Answer::Page(page), "request {} of {k} beside {h}", trace.len());
        assert!(!shown.contains(&page), "page {page} is shown and is requested");
        stand.stands(h, &ours.state());
        trace.push(page);
        policy.serve(random, page);
    }
    assert_eq!(boundary::accept(stand.state.row(), stand.row.row(), &policy.shown()), Answer::Done(0), "accept at the end");
    let beside = (h + rounds * (k - h + 1)) as u64;
    assert!(caches::fewest_fetches(h, &trace) <= beside, "nobody with {h} places fetches as few as {beside}");
    tally.add("challenges played to their end");
}

/// `dq_begin` with anything.
fn begun(random: &mut Random, tally: &mut Tally) {
    let mut k = random.between(1, 20);
    let mut h = random.between(1, k);
    let mut lens = (random.between(8, 10), 3 * k + random.between(1, 3));
    match random.below(6) {
        0 => k = [0, 4097, usize::MAX, usize::MAX / 3, 1 << 32][random.between(0, 4)],
        1 => h = [0, k + 1, usize::MAX, 1 << 60][random.between(0, 3)],
        2 => lens.0 = random.between(0, 7),
        3 => lens.1 = random.between(0, 3 * k),
        _ => {}
    }
    let before = Lent::new(&random.numbers(lens.0));
    let mut after = before.clone();
    let answer = boundary::begin(k, h, &mut after, &random.numbers(lens.1));
    tally.answer("dq_begin", answer);
    let expected = if lens.0 < 8 || k == 0 || k > 4096 || lens.1 < 3 * k + 1 {
        Answer::Refused(1, 0)
    } else if h == 0 || h > k {
        Answer::refused((6, h as u64))
    } else {
        Answer::Done(0)
    };
    assert_eq!(answer, expected, "begin of {k} beside {h} on {lens:?}");
    if expected != Answer::Done(0) {
        return assert_eq!(after.row(), before.row(), "the state after a refusal");
    }
    let begun = [&[k as u64, h as u64, 1, 0, 0, 0, 0, 0][..], &before.row()[8..]].concat();
    assert_eq!(after.row(), begun, "the state of {k} beside {h}");
}

/// Whether the first eight numbers are those of a challenge, and its row is long enough: the table of docs/FORMATS.md.
fn stands(state: &[u64], row_len: usize) -> bool {
    let [k, h, next, listed, noted, picks, shown, _, ..] = *state else {
        return false;
    };
    (1..=k).contains(&h)
        && k <= 4096
        && listed <= k + 1
        && listed < next
        && next <= 1 << 32
        && noted <= picks
        && picks < h
        && shown <= k
        && !(next == 1 && shown > 0)
        && row_len >= 3 * k as usize + 1
}

/// A step from any numbers, good or bad, with a row that may hold anything: what the lists say is what is requested.
fn any_state(random: &mut Random, tally: &mut Tally) {
    let k = random.between(1, 6);
    let h = random.between(1, k);
    let listed = random.between(0, k + 1) as u64;
    let picks = random.between(0, h - 1);
    let next = if random.one_in(3) { (1 << 32) - random.below(2) } else { listed + 1 + random.below(9) };
    let shown = if next == 1 { 0 } else { random.between(0, k) };
    let noted = random.between(0, picks) as u64;
    let mut state = vec![k as u64, h as u64, next, listed, noted, picks as u64, shown as u64, random.below(9), random.next()];
    let mut row: Vec<u64> = (0..3 * k + 2).map(|_| random.below(9)).collect();
    match random.below(4) {
        0 => {
            let at = random.between(0, 6);
            state[at] = [0, 1, 7, 4097, (1 << 32) + 1, u64::MAX][random.between(0, 5)];
        }
        1 if random.one_in(4) => state.truncate(random.between(0, 7)),
        2 if random.one_in(4) => row.truncate(random.between(0, 3 * k)),
        _ => {}
    }
    stepped(random, tally, &state, &row);
}

fn stepped(random: &mut Random, tally: &mut Tally, state: &[u64], row: &[u64]) {
    let good = stands(state, row.len());
    let k = if good { state[0] as usize } else { 4 };
    let asked = (good && state[2] > 1).then(|| state[7]);
    let before = if good { row[2 * k + 1..][..state[6] as usize].to_vec() } else { Vec::new() };
    let mut shown: Vec<u64> = before.iter().chain(&asked).copied().collect();
    shown.sort();
    shown.dedup();
    shown.truncate(k);
    if random.one_in(4) {
        shown = damaged(random, k, &shown);
    }
    let (mut a, mut b) = (Lent::new(state), Lent::new(row));
    let answer = boundary::step(&mut a, &mut b, &shown);
    tally.answer("dq_step", answer);
    let accepted = boundary::accept(state, row, &shown);
    tally.answer("dq_accept", accepted);
    let fault = if good { broken(k, asked, &before, &shown) } else { Some((1, 0)) };
    assert_eq!(accepted, fault.map_or(Answer::Done(0), Answer::refused), "accept of {shown:?} at {state:?}");
    let expected = match fault {
        Some(reason) => Answer::refused(reason),
        None if state[3] as usize == k + 1 => {
            Answer::Page(row[..k + 1].iter().copied().find(|page| !shown.contains(page)).unwrap_or(0))
        }
        None if state[2] == 1 << 32 => Answer::Refused(8, 1 << 32),
        None => Answer::Page(state[2]),
    };
    assert_eq!(answer, expected, "step at {state:?} on {row:?} where {shown:?} is shown");
    let Answer::Page(page) = answer else {
        return assert_eq!((a.row(), b.row()), (state, row), "the rows after a refusal");
    };
    let noted = &row[k + 1..][..state[4] as usize];
    if (1..noted.len()).any(|i| noted[..i].contains(&noted[i])) {
        // No challenge comes there, and docs/FORMATS.md does not say what its list is at the end of the round.
        return;
    }
    let (state_after, row_after) = entered(state, row, &shown, page);
    assert_eq!(a.row(), state_after, "the state after {page} was requested at {state:?} on {row:?}");
    for (at, number) in row_after {
        assert_eq!(b.row()[at], number, "number {at} of the row after {page} was requested at {state:?} on {row:?}");
    }
    assert_eq!(b.row()[3 * k + 1..], row[3 * k + 1..], "beyond the row");
}

/// The state row after a request, and those numbers of the adversary row that it gives a meaning, each with its place.
fn entered(state: &[u64], row: &[u64], shown: &[u64], page: u64) -> (Vec<u64>, Vec<(usize, u64)>) {
    let [k, h, next, listed, noted, picks] = [0, 1, 2, 3, 4, 5].map(|i| state[i] as usize);
    let mut list = row[..listed].to_vec();
    let mut picked = row[k + 1..][..noted].to_vec();
    let mut counts = (next, picks);
    let was_new = listed <= k;
    if was_new {
        list.push(page);
        counts.0 += 1;
    } else {
        counts.1 += 1;
        if !picked.contains(&page) {
            picked.push(page);
        }
    }
    // The round is over after its last new page where the schedule has one place, and else after h - 1 picks.
    if list.len() == k + 1 && (if was_new { picks + 1 } else { picks + 2 }) >= h {
        let mut seen = std::collections::HashSet::new();
        let all = picked.iter().copied().chain([counts.0 as u64 - 1]).chain(list.iter().copied());
        list = all.filter(|page| seen.insert(*page)).take(h).collect();
        picked.clear();
        counts.1 = 0;
    }
    let numbers = [k, h, counts.0, list.len(), picked.len(), counts.1, shown.len()].map(|n| n as u64);
    let mut places: Vec<(usize, u64)> = list.into_iter().enumerate().collect();
    places.extend(picked.into_iter().enumerate().map(|(i, page)| (k + 1 + i, page)));
    places.extend(shown.iter().enumerate().map(|(i, page)| (2 * k + 1 + i, *page)));
    ([&numbers[..], &[page], &state[8..]].concat(), places)
}

/// `dq_contest` with anything: whole challenges of the library's policies.
fn contested(random: &mut Random, tally: &mut Tally) {
    let mut k = random.between(1, 20);
    let mut h = random.between(1, k);
    let rounds = random.between(0, 9) as u16;
    let (mut number, mut len) = (random.below(3), random.between(3, 5));
    match random.below(8) {
        0 => k = [0, 4097, usize::MAX][random.between(0, 2)],
        1 => h = [0, k + 1, usize::MAX][random.between(0, 2)],
        2 => len = random.between(0, 2),
        3 => number = [3, 4, u64::MAX][random.between(0, 2)],
        _ => {}
    }
    let before = Lent::new(&random.numbers(len));
    let mut after = before.clone();
    let answer = boundary::contest(number, k, h, rounds, &mut after);
    tally.answer("dq_contest", answer);
    let rounds = rounds as u64;
    let expected = if number > 2 {
        Answer::no_policy(number)
    } else if len < 3 || k == 0 || k > 4096 {
        Answer::Refused(1, 0)
    } else if h == 0 || h > k {
        Answer::refused((6, h as u64))
    } else {
        Answer::Done(h as u64 + rounds * k as u64)
    };
    assert_eq!(answer, expected, "contest of policy {number} with {k} places beside {h}");
    let Answer::Done(asked) = expected else {
        return assert_eq!(after.row(), before.row(), "the counts after a refusal");
    };
    let counts = [asked, asked, h as u64 + rounds * (k + 1 - h) as u64];
    assert_eq!(after.row(), [&counts, &before.row()[3..]].concat(), "the counts of {k} places beside {h}");
}

/// The most rounds there can be, against each policy.
fn most_rounds(tally: &mut Tally) {
    for number in 0..3 {
        let mut counts = Lent::new(&[0; 3]);
        assert_eq!(boundary::contest(number, 3, 2, u16::MAX, &mut counts), Answer::Done(2 + 3 * 65535), "policy {number}, 65,535 rounds");
        assert_eq!(counts.row(), [2 + 3 * 65535, 2 + 3 * 65535, 2 + 2 * 65535], "policy {number}, 65,535 rounds");
        tally.add("dq_contest: 65,535 rounds");
    }
}

pub fn run(random: &mut Random, tally: &mut Tally) {
    for _ in 0..3_000 {
        let k = random.between(1, 12);
        let (h, rounds) = (random.between(1, k), random.between(0, 5));
        challenged(random, tally, k, h, rounds);
    }
    for (k, h, rounds) in [(64, 32, 9), (65, 65, 9), (100, 1, 5), (500, 250, 1), (1500, 900, 0), (4096, 200, 0), (3, 3, 300)] {
        challenged(random, tally, k, h, rounds);
    }
    for _ in 0..20_000 {
        begun(random, tally);
        any_state(random, tally);
    }
    for _ in 0..5_000 {
        contested(random, tally);
    }
    most_rounds(tally);
    tally.need(200, &["dq_begin: done", "dq_begin: refused 1 at 0", "dq_begin: refused 6", "challenges played to their end"]);
    tally.need(200, &["dq_step: page", "dq_step: refused 1 at 0", "dq_step: refused 7", "dq_step: refused 8"]);
    tally.need(200, &["dq_accept: done", "dq_accept: refused 1 at 0", "dq_accept: refused 7"]);
    tally.need(200, &["dq_contest: done", "dq_contest: refused 1 at 0", "dq_contest: refused 6", "dq_contest: no such policy"]);
    for form in ["too many pages", "the page requested is not there", "a page twice, or from nowhere"] {
        tally.need(200, &[&format!("dq_step and dq_accept: refused 7, {form}")]);
    }
}
