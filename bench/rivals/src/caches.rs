//! A trace played by the crates `lru` and `hashlink`, each in the quickest way that its documentation offers: one look-up for a hit.
use std::slice;

/// As in bench.h.
#[repr(C)]
#[derive(Clone, Copy)]
pub struct Reply {
    what: u64,
    page: u64,
}

const HERE: Reply = Reply { what: 0, page: 0 };
const FETCHED: Reply = Reply { what: 1, page: 0 };

fn fetched_for(page: u64) -> Reply {
    Reply { what: 2, page }
}

fn lru_request(cache: &mut lru::LruCache<u64, ()>, page: u64) -> Reply {
    match cache.push(page, ()) {
        None => FETCHED,
        Some((old, ())) if old == page => HERE,
        Some((old, ())) => fetched_for(old),
    }
}

fn hashlink_request(cache: &mut hashlink::LruCache<u64, ()>, page: u64) -> Reply {
    use hashlink::lru_cache::Entry;
    match cache.entry(page) {
        Entry::Occupied(mut entry) => {
            entry.to_back();
            return HERE;
        }
        Entry::Vacant(entry) => {
            entry.insert(());
        }
    }
    if cache.len() <= cache.capacity() {
        return FETCHED;
    }
    match cache.remove_lru() {
        Some((old, ())) => fetched_for(old),
        None => FETCHED,
    }
}

/// Plays a trace by `request`; where `replies` is not null it has a place for each. Answers how many requests were fetched.
unsafe fn play<C>(mut cache: C, request: impl Fn(&mut C, u64) -> Reply, trace: *const u64, n: usize, replies: *mut Reply) -> u64 {
    let trace = slice::from_raw_parts(trace, n);
    let mut fetches = 0;
    if replies.is_null() {
        for page in trace {
            fetches += (request(&mut cache, *page).what != 0) as u64;
        }
        return fetches;
    }
    let replies = slice::from_raw_parts_mut(replies, n);
    for (page, place) in trace.iter().zip(replies) {
        let reply = request(&mut cache, *page);
        fetches += (reply.what != 0) as u64;
        *place = reply;
    }
    fetches
}

#[no_mangle]
pub unsafe extern "C" fn lru_play(k: usize, trace: *const u64, n: usize, replies: *mut Reply) -> u64 {
    play(lru::LruCache::new(k), lru_request, trace, n, replies)
}

#[no_mangle]
pub unsafe extern "C" fn hashlink_play(k: usize, trace: *const u64, n: usize, replies: *mut Reply) -> u64 {
    play(hashlink::LruCache::new(k), hashlink_request, trace, n, replies)
}
