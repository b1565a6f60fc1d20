//! Memory that iterations with long patterns need, and what happens if it is refused.
use aho_corasick::automaton::OverlappingState;
use aho_corasick::{AhoCorasick, Anchored, BuildError, Input, Match, MatchErrorKind, MatchKind, StartKind};
use std::alloc::{GlobalAlloc, Layout, System};
use std::cell::Cell;
use std::error::Error;
use std::sync::atomic::{AtomicUsize, Ordering};
use std::sync::Mutex;

/// The system's memory. It refuses requests for more bytes than `MOST`, notes in `LARGEST` the largest one, and in `HELD`
/// how many bytes a thread has allocated.
struct Counted;

static MOST: AtomicUsize = AtomicUsize::new(usize::MAX);
static LARGEST: AtomicUsize = AtomicUsize::new(0);

thread_local! {
    static HELD: Cell<usize> = const { Cell::new(0) };
}

/// Notes that a thread has so many bytes in place of others.
fn note(old: usize, new: usize) {
    let _ = HELD.try_with(|it| it.set(it.get().wrapping_sub(old).wrapping_add(new)));
}

fn is_granted(len: usize) -> bool {
    LARGEST.fetch_max(len, Ordering::Relaxed);
    len <= MOST.load(Ordering::Relaxed)
}

// SAFETY: each call is one of the system's with the same arguments, or returns null, which means that it is refused.
unsafe impl GlobalAlloc for Counted {
    unsafe fn alloc(&self, layout: Layout) -> *mut u8 {
        if is_granted(layout.size()) {
            note(0, layout.size());
            System.alloc(layout)
        } else {
            std::ptr::null_mut()
        }
    }

    unsafe fn realloc(&self, old: *mut u8, layout: Layout, len: usize) -> *mut u8 {
        if is_granted(len) {
            note(layout.size(), len);
            System.realloc(old, layout, len)
        } else {
            std::ptr::null_mut()
        }
    }

    unsafe fn dealloc(&self, old: *mut u8, layout: Layout) {
        note(layout.size(), 0);
        System.dealloc(old, layout)
    }
}

#[global_allocator]
static MEMORY: Counted = Counted;

/// Held by the test that runs.
static ALONE: Mutex<()> = Mutex::new(());

/// What a call answers if larger requests for memory than `most` are refused.
fn refusing<T>(most: usize, call: impl FnOnce() -> T) -> T {
    LARGEST.store(0, Ordering::Relaxed);
    MOST.store(most, Ordering::Relaxed);
    let answer = call();
    MOST.store(usize::MAX, Ordering::Relaxed);
    answer
}

/// A searcher with a long pattern.
fn searcher(longest: usize) -> AhoCorasick {
    let words = ["a".repeat(longest - 1) + "c", "b".to_string()];
    AhoCorasick::builder().match_kind(MatchKind::LeftmostFirst).build(words).unwrap()
}

/// The largest request for memory of an iteration, if larger ones than `most` are refused.
fn largest_request(longest: usize, most: usize) -> usize {
    let (searcher, text) = (searcher(longest), ("a".repeat(4) + "b").repeat(100_000));
    let mut found = Vec::with_capacity(100_001);
    refusing(most, || found.extend(searcher.find_iter(&text)));
    let wanted = (0..100_000).map(|it| Match::must(1, 5 * it + 4..5 * it + 5));
    assert!(found.into_iter().eq(wanted));
    LARGEST.load(Ordering::Relaxed)
}

#[test]
fn pages_of_matches() {
    let _alone = ALONE.lock();
    assert_eq!(largest_request(1000, usize::MAX), 24 * 1024);
    assert_eq!(largest_request(4096, usize::MAX), 24 * 1024);
    assert_eq!(largest_request(40_000, usize::MAX), 24 * 10_000);
    // (it goes on with small pages)
    largest_request(40_000, 1 << 15);
}

#[test]
fn earliest_matches() {
    let _alone = ALONE.lock();
    let words = ["abc".to_string(), "b".to_string(), "d".repeat(10_000) + "e"];
    let searcher = AhoCorasick::builder().match_kind(MatchKind::LeftmostFirst).build(words).unwrap();
    let (before, earliest) = (searcher.memory_usage(), Input::new("abc").earliest(true));
    // (while the array for them can't be built, there are none)
    let tried = refusing(1 << 15, || searcher.try_find(earliest.clone()));
    assert!(matches!(tried.unwrap_err().kind(), MatchErrorKind::NotBuilt { .. }));
    assert!(refusing(1 << 15, || searcher.try_find_iter(earliest.clone()).is_err() && searcher.is_match("abc")));
    assert_eq!(searcher.memory_usage(), before);
    assert_eq!(refusing(usize::MAX, || searcher.find(earliest)), Some(Match::must(1, 1..2)));
    assert!(before < searcher.memory_usage());
}

#[test]
fn builds_that_fail() {
    let _alone = ALONE.lock();
    for start_kind in [StartKind::Unanchored, StartKind::Both] {
        let words = ["a".repeat(50_000), "b".repeat(50_000)];
        let build = || AhoCorasick::builder().start_kind(start_kind).build(&words);
        let why = refusing(1 << 15, build).unwrap_err();
        assert_eq!(why.to_string(), "there is not enough memory for the search");
        let kept: Box<dyn Error + Send + Sync> = Box::new(why.clone());
        assert_eq!(kept.downcast_ref::<BuildError>(), Some(&why));
    }
}

#[test]
fn the_second_array_can_be_built_at_once() {
    let _alone = ALONE.lock();
    for words in [&["append", "app", "end"][..], &["ab", "", "b"]] {
        let usage = |kind, start_kind, overlapping| {
            let mut builder = AhoCorasick::builder();
            builder.match_kind(kind).start_kind(start_kind).overlapping(overlapping);
            builder.build(words).unwrap().memory_usage()
        };
        for (kind, start_kind, is_built) in [
            (MatchKind::Standard, StartKind::Unanchored, true),
            (MatchKind::Standard, StartKind::Both, true),
            (MatchKind::Standard, StartKind::Anchored, false),
            (MatchKind::LeftmostFirst, StartKind::Both, false),
        ] {
            let (before, after) = (usage(kind, start_kind, false), usage(kind, start_kind, true));
            assert_eq!(after > before, is_built, "{kind:?} {start_kind:?} {words:?}");
        }
        let searcher = AhoCorasick::builder().overlapping(true).build(words).unwrap();
        let without = AhoCorasick::new(words).unwrap();
        let (wanted, usage): (Vec<Match>, _) =
            (without.find_overlapping_iter("append").collect(), searcher.memory_usage());
        assert_eq!(searcher.find_overlapping_iter("append").collect::<Vec<Match>>(), wanted);
        assert_eq!((searcher.memory_usage(), without.memory_usage()), (usage, usage));
    }
    // (the pattern in which another one ends is in the second array alone)
    let words = ["b".to_string(), "b".repeat(50_000)];
    let build = |overlapping| refusing(1 << 15, || AhoCorasick::builder().overlapping(overlapping).build(words.iter()));
    assert!(build(true).is_err());
}

#[test]
fn occurrences_within_a_long_pattern() {
    let _alone = ALONE.lock();
    let words: Vec<String> = (1..21).map(|it| "a".repeat(it)).chain(["a".repeat(5000) + "b"]).collect();
    let (searcher, text) = (AhoCorasick::new(&words).unwrap(), "a".repeat(20_000));
    let count = |most| refusing(most, || searcher.find_overlapping_iter(&text).count());
    let wanted = (1..21).map(|it| text.len() + 1 - it).sum::<usize>();
    assert_eq!(count(usize::MAX), wanted);
    // (200,000 lie within twice the longest pattern)
    assert!(LARGEST.load(Ordering::Relaxed) <= 100_000, "{}", LARGEST.load(Ordering::Relaxed));
    assert_eq!(count(1 << 14), wanted);
}

#[test]
fn builds_ask_for_about_what_they_need() {
    let _alone = ALONE.lock();
    let alike = "ab".repeat(50);
    for kind in [MatchKind::Standard, MatchKind::LeftmostFirst] {
        for is_first in [true, false] {
            let word = |it| if is_first { format!("{alike}{it}") } else { format!("{it}{alike}") };
            let words: Vec<String> = (100..900).map(word).collect();
            let searcher = refusing(usize::MAX, || AhoCorasick::builder().match_kind(kind).build(&words).unwrap());
            assert!(LARGEST.load(Ordering::Relaxed) < searcher.memory_usage());
        }
    }
}

#[test]
fn streams_keep_no_more_than_they_need() {
    let _alone = ALONE.lock();
    let (longest, text) = (1000, "ab".repeat(1 << 18));
    let searcher = AhoCorasick::new(["ab".repeat(longest / 2 - 1) + "cc", "abx".to_string()]).unwrap();
    assert_eq!(refusing(usize::MAX, || searcher.stream_find_iter(text.as_bytes()).count()), 0);
    assert!((1 << 16..(1 << 16) + 2 * longest).contains(&LARGEST.load(Ordering::Relaxed)));
}

#[test]
fn memory_usage_is_what_is_held() {
    let _alone = ALONE.lock();
    let words =
        |count: u32| -> Vec<String> { (0..count).map(|it| format!("{:x}", it.wrapping_mul(0x9E37_79B9))).collect() };
    let assert_usage = |searcher: &AhoCorasick, before: usize| {
        let (held, told) = (HELD.with(Cell::get) - before, searcher.memory_usage());
        assert!(held.abs_diff(told) <= 64, "{held} {told} {searcher:?}");
    };
    for kind in [MatchKind::Standard, MatchKind::LeftmostFirst, MatchKind::LeftmostLongest] {
        for (start_kind, words) in [StartKind::Unanchored, StartKind::Both].into_iter().flat_map(|it| {
            let mut others = words(40);
            others.extend(["ab", "xabx", "b", ""].map(String::from));
            [(it, words(1)), (it, words(1000)), (it, others[..43].to_vec()), (it, others)]
        }) {
            let before = HELD.with(Cell::get);
            let searcher = AhoCorasick::builder().match_kind(kind).start_kind(start_kind).build(&words).unwrap();
            assert_usage(&searcher, before);
            searcher.is_match(Input::new("xab").anchored(Anchored::Yes));
            searcher.find(Input::new("xab").earliest(true));
            let _ = searcher.try_find_overlapping_iter("xab").map(Iterator::count);
            searcher.find_overlapping("xab", &mut OverlappingState::start());
            assert_usage(&searcher, before);
        }
    }
}
