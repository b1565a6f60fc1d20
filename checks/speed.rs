//! Times the crate aho-corasick for checks/speed: `speed TEXT PATTERNS RUNS`, with the output of speed.c. For each task
//! it takes the fastest of three searches: the default, the DFA, and the packed search if it takes the patterns. Build
//! it as `src/main.rs` of a package with the dependency `aho-corasick = "=1.1.3"`.
use aho_corasick::{packed, AhoCorasick, AhoCorasickKind, MatchKind};
use std::collections::BTreeMap;
use std::hint::black_box;

extern "C" {
    fn clock_gettime(clock: i32, time: *mut [i64; 2]) -> i32;
}

/// The time of the thread in nanoseconds.
fn now() -> f64 {
    let mut time = [0; 2];
    unsafe { clock_gettime(3, &mut time) };
    1e9 * time[0] as f64 + time[1] as f64
}

struct Times(usize, BTreeMap<&'static str, (f64, usize)>);

impl Times {
    fn add(&mut self, task: &'static str, mut run: impl FnMut() -> usize) {
        let (mut samples, mut all, mut batch) = (0, 0.0, 1);
        while samples < self.0 || all < 1e7 {
            let start = now();
            let answer = (0..batch).map(|_| black_box(run())).last().unwrap();
            let took = now() - start;
            if took < 1e6 {
                batch *= 2;
                continue;
            }
            let best = self.1.entry(task).or_insert((took, answer));
            assert_eq!(best.1, answer, "{task}");
            best.0 = best.0.min(took / batch as f64);
            (samples, all) = (samples + 1, all + took);
        }
    }
}

macro_rules! add_searches {
    ($times:expr, $search:expr, $text:expr) => {
        $times.add("count", || $search.find_iter($text).count());
        $times.add("list", || {
            $search.find_iter($text).map(|it| it.pattern().as_usize() + 3 * it.start() + 5 * it.end()).sum()
        });
        $times.add("first", || $text.chunks_exact(80).filter(|line| $search.find(*line).is_some()).count());
    };
}

fn main() {
    let words: Vec<String> = std::env::args().collect();
    let [text, patterns] = [&words[1], &words[2]].map(|path| std::fs::read(path).unwrap());
    let patterns: Vec<&[u8]> = patterns.strip_suffix(b"\n").unwrap().split(|byte| *byte == b'\n').collect();
    let mut times = Times(words[3].parse().unwrap(), BTreeMap::new());
    for kind in [None, Some(AhoCorasickKind::DFA)] {
        let build = |matches| AhoCorasick::builder().kind(kind).match_kind(matches).build(&patterns).unwrap();
        times.add("build", || build(MatchKind::LeftmostFirst).patterns_len() - patterns.len());
        let (leftmost, standard) = (build(MatchKind::LeftmostFirst), build(MatchKind::Standard));
        add_searches!(times, leftmost, &text[..]);
        times.add("every", || standard.find_overlapping_iter(&text[..]).count());
    }
    if let Some(search) = packed::Searcher::new(&patterns) {
        add_searches!(times, search, &text[..]);
    }
    for (task, (least, answer)) in times.1 {
        println!("{task} {least:.0} {answer}");
    }
}
