//! The calls of aho-corasick 1.1 beside the searches themselves: errors, settings, other names of the search.
use aho_corasick::automaton::{Automaton, Candidate, OverlappingState, Prefilter, StateID, StateIDError};
use aho_corasick::{
    dfa, nfa, packed, AhoCorasick, AhoCorasickBuilder, AhoCorasickKind, Anchored, BuildError, FindIter,
    FindOverlappingIter, Input, Match, MatchError, MatchErrorKind, MatchKind, PatternID, PatternIDError, Span,
    StartKind, StreamFindIter,
};
use std::error::Error;
use std::fmt::Debug;
use std::hash::Hash;
use std::io::Write;
use std::iter::FusedIterator;
use std::panic::{catch_unwind, AssertUnwindSafe, RefUnwindSafe, UnwindSafe};

const WORDS: [&str; 2] = ["cat", "catalogue"];
const TEXT: &str = "a catalogue";

fn built(kind: MatchKind, start_kind: StartKind) -> AhoCorasick {
    AhoCorasick::builder().match_kind(kind).start_kind(start_kind).build(WORDS).unwrap()
}

/// That a call which returns an error panics with its text under its other name.
fn assert_panics<T, U: Debug + PartialEq>(call: impl FnOnce() -> T, tried: Result<U, MatchError>, wanted: MatchError) {
    let said = catch_unwind(AssertUnwindSafe(call)).err().expect("a panic");
    assert_eq!(said.downcast_ref::<String>(), Some(&wanted.to_string()));
    assert_eq!(tried, Err(wanted));
}

#[test]
fn searches_that_are_not_made() {
    let searcher = built(MatchKind::LeftmostFirst, StartKind::Unanchored);
    let (no, yes) = (Input::new(TEXT), || Input::new(TEXT).anchored(Anchored::Yes));
    assert_panics(|| searcher.find(yes()), searcher.try_find(yes()), MatchError::invalid_input_anchored());
    let tried = searcher.try_find_iter(yes()).map(Iterator::count);
    assert_panics(|| searcher.find_iter(yes()), tried, MatchError::invalid_input_anchored());
    let tried = searcher.try_find_overlapping_iter(no.clone()).map(Iterator::count);
    let wanted = || MatchError::unsupported_overlapping(MatchKind::LeftmostFirst);
    assert_panics(|| searcher.find_overlapping_iter(no.clone()), tried, wanted());
    let mut state = OverlappingState::start();
    let tried = searcher.try_find_overlapping(yes(), &mut state);
    let call = || searcher.find_overlapping(yes(), &mut OverlappingState::start());
    assert_panics(call, tried, MatchError::invalid_input_anchored());
    assert_eq!(state.get_match(), None);
    for start_kind in [StartKind::Unanchored, StartKind::Both] {
        let searcher = built(MatchKind::Standard, start_kind);
        let tried = searcher.try_find_overlapping_iter(yes()).map(Iterator::count);
        assert_panics(|| searcher.find_overlapping_iter(yes()), tried, MatchError::invalid_input_anchored());
    }
}

#[test]
fn whether_there_is_a_match_is_answered_for_each_input() {
    for kind in [MatchKind::Standard, MatchKind::LeftmostFirst, MatchKind::LeftmostLongest] {
        for start_kind in [StartKind::Unanchored, StartKind::Anchored, StartKind::Both] {
            let searcher = built(kind, start_kind);
            for (start, anchored, wanted) in
                [(0, Anchored::No, true), (3, Anchored::No, false), (0, Anchored::Yes, false), (2, Anchored::Yes, true)]
            {
                let input = Input::new(TEXT).range(start..).anchored(anchored);
                assert_eq!(searcher.is_match(input), wanted, "{kind:?} {start_kind:?} {start} {anchored:?}");
            }
        }
    }
}

#[test]
fn leftmost_kinds_list_what_their_states_have() {
    let listed = |kind, words: &[&str], input: Input<'_>| {
        let searcher = AhoCorasick::builder().match_kind(kind).start_kind(StartKind::Both).build(words).unwrap();
        let mut state = OverlappingState::start();
        let found = std::iter::from_fn(|| {
            searcher.find_overlapping(input.clone(), &mut state);
            state.get_match()
        });
        found.map(|it| (it.pattern().as_usize(), it.start(), it.end())).collect::<Vec<_>>()
    };
    let (first, longest) = (MatchKind::LeftmostFirst, MatchKind::LeftmostLongest);
    let words = ["b", "abcd", "bc", "abc", "abc"];
    assert_eq!(listed(first, &words, Input::new("abcdb")), [(0, 1, 2), (3, 0, 3), (4, 0, 3), (1, 0, 4)]);
    assert_eq!(listed(longest, &words, Input::new("xabce")), [(0, 2, 3), (3, 1, 4), (4, 1, 4)]);
    assert_eq!(listed(first, &words, Input::new("bcd")), [(0, 0, 1)]);
    assert_eq!(listed(longest, &words, Input::new("bcd")), [(0, 0, 1), (2, 0, 2)]);
    let anchored = |text| Input::new(text).anchored(Anchored::Yes);
    assert_eq!(listed(longest, &words, anchored("abcdb")), [(3, 0, 3), (4, 0, 3), (1, 0, 4)]);
    assert_eq!(listed(longest, &words, anchored("xabc")), []);
    assert_eq!(listed(first, &["ab", "", "b", ""], Input::new("xab").range(1..)), [(1, 1, 1), (3, 1, 1), (0, 1, 3)]);
    let mut done = Input::new("ab");
    done.set_span(2..1);
    assert_eq!(listed(first, &["", "ab"], done), []);
}

#[test]
fn errors_of_replacing_come_in_order() {
    // (the number of replacements is looked at after the `StartKind`, but first by an automaton)
    let (searcher, with) = (built(MatchKind::Standard, StartKind::Anchored), ["1"]);
    assert_eq!(searcher.try_replace_all(TEXT, &with), Err(MatchError::invalid_input_unanchored()));
    assert_eq!(searcher.try_replace_all_bytes(b"", &with), Err(MatchError::invalid_input_unanchored()));
    assert!(searcher.try_stream_replace_all(&b""[..], Vec::new(), &with).is_err());
    let build = |words: &[&str]| dfa::DFA::builder().start_kind(StartKind::Anchored).build(words).unwrap();
    let automaton = build(&WORDS);
    let panics = |call: &dyn Fn() -> bool| catch_unwind(AssertUnwindSafe(call)).is_err();
    assert!(panics(&|| automaton.try_replace_all(TEXT, &with).is_ok()));
    assert!(panics(&|| automaton.try_replace_all_bytes(b"", &with).is_ok()));
    assert!(panics(&|| automaton.try_stream_replace_all(&b""[..], Vec::new(), &with).is_ok()));
    // (and so are empty patterns in streams)
    let kind = |why: MatchError| why.kind().clone();
    let inside = |why: std::io::Error| why.into_inner().unwrap().downcast::<MatchError>().map(|it| kind(*it)).unwrap();
    let automaton = build(&[""]);
    let wanted = Err(MatchErrorKind::UnsupportedEmpty);
    assert_eq!(automaton.try_stream_find_iter(&b""[..]).map(|_| ()).map_err(kind), wanted);
    assert_eq!(automaton.try_stream_replace_all(&b""[..], Vec::new(), &with).map_err(inside), wanted);
    let tried = automaton.try_stream_replace_all_with(&b""[..], Vec::new(), |_, _, _| Ok(()));
    assert_eq!(tried.map_err(inside), wanted);
}

#[test]
fn errors_of_an_iteration_over_every_occurrence_come_in_order() {
    for start_kind in [StartKind::Both, StartKind::Unanchored, StartKind::Anchored] {
        for (kind, anchored) in [MatchKind::Standard, MatchKind::LeftmostFirst]
            .into_iter()
            .flat_map(|kind| [(kind, Anchored::No), (kind, Anchored::Yes)])
        {
            let case = format!("{start_kind:?} {kind:?} {anchored:?}");
            let input = || Input::new(TEXT).anchored(anchored);
            let left_out = match (start_kind, anchored) {
                (StartKind::Unanchored, Anchored::Yes) => Some(MatchError::invalid_input_anchored()),
                (StartKind::Anchored, Anchored::No) => Some(MatchError::invalid_input_unanchored()),
                _ => None,
            };
            let of_kind = (kind != MatchKind::Standard).then(|| MatchError::unsupported_overlapping(kind));
            let of_anchor = anchored.is_anchored().then(MatchError::invalid_input_anchored);
            let wanted = left_out.clone().or(of_kind.clone()).or(of_anchor.clone());
            let searcher = built(kind, start_kind);
            let before = searcher.memory_usage();
            assert_eq!(searcher.try_find_overlapping_iter(input()).err(), wanted, "{case}");
            // (a search that is not made builds no array)
            assert_eq!(searcher.memory_usage() > before, wanted.is_none(), "{case}");
            let automaton = dfa::DFA::builder().match_kind(kind).start_kind(start_kind).build(WORDS).unwrap();
            let wanted = of_kind.or(of_anchor).or(left_out);
            assert_eq!(automaton.try_find_overlapping_iter(input()).err(), wanted, "{case}");
        }
    }
}

#[test]
fn only_anchored_searches() {
    let (searcher, wanted) = (built(MatchKind::Standard, StartKind::Anchored), MatchError::invalid_input_unanchored);
    assert_eq!(searcher.find(Input::new(TEXT).range(2..).anchored(Anchored::Yes)), Some(Match::must(0, 2..5)));
    assert_panics(|| searcher.find(TEXT), searcher.try_find(TEXT), wanted());
    let with = ["1", "2"];
    assert_panics(|| searcher.replace_all(TEXT, &with), searcher.try_replace_all(TEXT, &with), wanted());
    let bytes = TEXT.as_bytes();
    assert_panics(|| searcher.replace_all_bytes(bytes, &with), searcher.try_replace_all_bytes(bytes, &with), wanted());
    let tried = searcher.try_replace_all_with(TEXT, &mut String::new(), |_, _, _| true);
    assert_panics(|| searcher.replace_all_with(TEXT, &mut String::new(), |_, _, _| true), tried, wanted());
    let tried = searcher.try_replace_all_with_bytes(bytes, &mut Vec::new(), |_, _, _| true);
    assert_panics(|| searcher.replace_all_with_bytes(bytes, &mut Vec::new(), |_, _, _| true), tried, wanted());
    let tried = searcher.try_stream_find_iter(bytes).map(Iterator::count);
    assert_panics(|| searcher.stream_find_iter(bytes), tried, wanted());
    let inside = |why: std::io::Error| why.into_inner().unwrap().downcast::<MatchError>().map(|it| *it).unwrap();
    let tried = searcher.try_stream_replace_all(bytes, Vec::new(), &with).map_err(inside);
    assert_panics(|| searcher.stream_replace_all(bytes, Vec::new(), &with), tried, wanted());
    let tried = searcher.try_stream_replace_all_with(bytes, Vec::new(), |_, _, _| Ok(())).map_err(inside);
    assert_panics(|| searcher.stream_replace_all_with(bytes, Vec::new(), |_, _, _| Ok(())), tried, wanted());
}

#[test]
fn calls_that_try_find_the_same() {
    for kind in [MatchKind::Standard, MatchKind::LeftmostFirst, MatchKind::LeftmostLongest] {
        let (searcher, with) = (built(kind, StartKind::Both), ["1", "2"]);
        assert_eq!(searcher.try_find(TEXT), Ok(searcher.find(TEXT)));
        let found: Vec<Match> = searcher.try_find_iter(TEXT).unwrap().collect();
        assert_eq!(found, searcher.find_iter(TEXT).collect::<Vec<Match>>());
        assert_eq!(searcher.try_replace_all(TEXT, &with), Ok(searcher.replace_all(TEXT, &with)));
        let (bytes, mut out) = (TEXT.as_bytes(), Vec::new());
        assert_eq!(searcher.try_replace_all_bytes(bytes, &with), Ok(searcher.replace_all_bytes(bytes, &with)));
        assert_eq!(searcher.try_stream_find_iter(bytes).unwrap().count(), 1);
        searcher.try_stream_replace_all_with(bytes, &mut out, |_, word, to| to.write_all(&word[..1])).unwrap();
        assert!(out.starts_with(b"a c"));
    }
}

#[test]
fn settings() {
    let mut builder = AhoCorasick::builder();
    builder.prefilter(false).dense_depth(9).byte_classes(false);
    assert_eq!(builder.build(WORDS).unwrap().kind(), AhoCorasickKind::DFA);
    assert_eq!(builder.build(WORDS).unwrap().start_kind(), StartKind::Unanchored);
    builder.kind(Some(AhoCorasickKind::ContiguousNFA)).start_kind(StartKind::Both);
    let searcher = builder.build(WORDS).unwrap();
    assert_eq!((searcher.kind(), searcher.start_kind()), (AhoCorasickKind::ContiguousNFA, StartKind::Both));
    assert_eq!(searcher.find(TEXT), Some(Match::must(0, 2..5)));
    let mut input = Input::new(TEXT);
    assert_eq!((input.get_anchored(), input.get_earliest()), (Anchored::No, false));
    input.set_anchored(Anchored::Yes);
    input.set_earliest(true);
    assert!(input.get_anchored().is_anchored() && input.get_earliest());
}

#[test]
fn the_array_for_every_occurrence_is_built_once() {
    let searcher = built(MatchKind::Standard, StartKind::Unanchored);
    let before = searcher.memory_usage();
    assert_eq!(searcher.find_iter(TEXT).count(), 1);
    assert_eq!(searcher.memory_usage(), before);
    assert_eq!(searcher.clone().find_overlapping_iter(TEXT).count(), 2);
    let after = searcher.memory_usage();
    assert_eq!(searcher.find_overlapping_iter(TEXT).count(), 2);
    assert!(before < after && searcher.memory_usage() == after);
}

#[test]
fn a_state_stays_at_the_end() {
    let (searcher, mut state) = (built(MatchKind::Standard, StartKind::Unanchored), OverlappingState::start());
    for wanted in [Some(Match::must(0, 2..5)), Some(Match::must(1, 2..11)), None, None] {
        searcher.find_overlapping(TEXT, &mut state);
        assert_eq!(state.get_match(), wanted);
    }
}

fn assert_searches(automaton: impl Automaton) {
    assert_eq!(automaton.try_find(&Input::new(TEXT)), Ok(Some(Match::must(0, 2..5))));
    assert_eq!(automaton.try_find_iter(Input::new(TEXT)).unwrap().count(), 1);
    assert_eq!(automaton.try_find_overlapping_iter(Input::new(TEXT)).unwrap().count(), 2);
    let mut state = OverlappingState::start();
    automaton.try_find_overlapping(&Input::new(TEXT), &mut state).unwrap();
    assert_eq!(state.get_match(), Some(Match::must(0, 2..5)));
    assert_eq!((automaton.patterns_len(), automaton.min_pattern_len(), automaton.max_pattern_len()), (2, 3, 9));
    assert!(automaton.match_kind() == MatchKind::Standard && automaton.memory_usage() > 0);
}

#[test]
fn automata() {
    let automaton = dfa::DFA::new(WORDS).unwrap();
    assert_searches(&automaton);
    assert_searches(nfa::contiguous::NFA::new(WORDS).unwrap());
    assert_searches(nfa::noncontiguous::NFA::new(WORDS).unwrap());
    let input = Input::new(TEXT).range(2..).anchored(Anchored::Yes);
    let mut builder = dfa::DFA::builder();
    assert!(builder.build(WORDS).unwrap().try_find(&input).is_err());
    builder.match_kind(MatchKind::LeftmostLongest).start_kind(StartKind::Anchored).prefilter(false);
    assert_eq!(builder.build(WORDS).unwrap().try_find(&input), Ok(Some(Match::must(1, 2..11))));
    let (automaton, with, bytes) = (nfa::contiguous::NFA::new(WORDS).unwrap(), ["1", "2"], TEXT.as_bytes());
    assert_eq!(automaton.try_replace_all(TEXT, &with).unwrap(), "a 1alogue");
    assert_eq!(automaton.try_replace_all_bytes(bytes, &with).unwrap(), b"a 1alogue");
    let (mut text, mut out) = (String::new(), Vec::new());
    automaton.try_replace_all_with(TEXT, &mut text, |_, _, _| true).unwrap();
    automaton.try_replace_all_with_bytes(bytes, &mut out, |_, _, _| true).unwrap();
    assert_eq!((&*text, &*out), ("a alogue", &b"a alogue"[..]));
    assert_eq!(automaton.try_stream_find_iter(bytes).unwrap().count(), 1);
    automaton.try_stream_replace_all(bytes, &mut out, &with).unwrap();
    automaton.try_stream_replace_all_with(bytes, &mut out, |_, word, to| to.write_all(word)).unwrap();
    assert_eq!(out, b"a aloguea 1aloguea catalogue");
    let mut builder = nfa::contiguous::NFA::builder();
    builder.match_kind(MatchKind::LeftmostLongest).ascii_case_insensitive(true).dense_depth(1);
    assert_eq!(builder.build(["CAT"]).unwrap().try_find(&input), Ok(Some(Match::must(0, 2..5))));
}

#[test]
fn packed_searches() {
    let mut config = packed::Config::new();
    config.match_kind(packed::MatchKind::LeftmostLongest).heuristic_pattern_limits(false);
    let searcher = config.builder().extend(WORDS).build().unwrap();
    assert_eq!(
        (searcher.find(TEXT), searcher.match_kind()),
        (Some(Match::must(1, 2..11)), &packed::MatchKind::LeftmostLongest)
    );
    let searcher = packed::Searcher::new(WORDS).unwrap();
    assert_eq!((searcher.find(TEXT), searcher.find_iter(TEXT).count()), (Some(Match::must(0, 2..5)), 1));
    assert_eq!(searcher.find_in(TEXT, Span { start: 3, end: 11 }), None);
    assert!(searcher.minimum_len() == 0 && searcher.memory_usage() > 0);
    let mut builder = packed::Searcher::builder();
    assert!(builder.build().is_none() && builder.minimum_len() == usize::MAX);
    builder.add("ab").add("a");
    assert_eq!((builder.len(), builder.minimum_len()), (2, 1));
    assert!(builder.build().is_some() && builder.add("").build().is_none());
}

#[test]
fn numbers_from_other_types() {
    let seven = PatternID::must(7);
    let tried = [PatternID::try_from(7_u16), PatternID::try_from(7_u32), PatternID::try_from(7_u64)];
    assert!(tried.iter().all(|it| *it == Ok(seven)));
    assert_eq!(
        (PatternID::from(7_u8), PatternID::new_unchecked(7), PatternID::from_u32_unchecked(7)),
        (seven, seven, seven)
    );
    assert_eq!(PatternID::from_ne_bytes(seven.to_ne_bytes()), Ok(seven));
    assert_eq!(PatternID::from_ne_bytes_unchecked(7_u32.to_ne_bytes()), seven);
    assert_eq!(PatternID::SIZE, std::mem::size_of::<PatternID>());
    assert_eq!(PatternID::try_from(u64::MAX).unwrap_err().attempted(), u64::MAX);
    assert!(PatternID::try_from(PatternID::MAX.as_u32()).is_ok() && PatternID::try_from(i32::MAX as u32).is_err());
    assert_eq!(PatternID::from_ne_bytes(u32::MAX.to_ne_bytes()).unwrap_err().attempted(), u64::from(u32::MAX));
}

/// That a type has the traits that programs may rely on. (If it lacks one, this file does not compile.)
fn is_sound<T: Send + Sync + Unpin + UnwindSafe + RefUnwindSafe + Debug>() {}
fn is_copied<T: Copy + Eq + Debug>() {}
fn is_cloned<T: Clone + Debug>() {}
fn is_number<T: Copy + Default + Ord + Hash + From<u8> + TryFrom<usize>>() {}
fn is_error<T: Error + Clone + Send + Sync + 'static>() {}
fn is_default<T: Default>() {}
fn is_over_matches<T: FusedIterator<Item = Match> + Clone>() {}

#[test]
fn types_have_the_traits_of_the_original() {
    is_sound::<AhoCorasick>();
    is_sound::<Input<'_>>();
    is_sound::<OverlappingState>();
    is_sound::<Prefilter>();
    is_sound::<FindIter<'_, '_>>();
    is_sound::<FindOverlappingIter<'_, '_>>();
    is_sound::<StreamFindIter<'_, &[u8]>>();
    is_sound::<dfa::DFA>();
    is_sound::<nfa::contiguous::NFA>();
    is_sound::<packed::Searcher>();
    is_sound::<MatchError>();
    is_copied::<MatchKind>();
    is_copied::<packed::MatchKind>();
    is_copied::<StartKind>();
    is_copied::<AhoCorasickKind>();
    is_copied::<Anchored>();
    is_copied::<Span>();
    is_copied::<Match>();
    is_cloned::<AhoCorasick>();
    is_cloned::<OverlappingState>();
    is_cloned::<Candidate>();
    is_cloned::<packed::Builder>();
    is_number::<PatternID>();
    is_number::<StateID>();
    is_error::<BuildError>();
    is_error::<MatchError>();
    is_error::<PatternIDError>();
    is_error::<StateIDError>();
    is_default::<AhoCorasickBuilder>();
    is_default::<dfa::Builder>();
    is_default::<nfa::noncontiguous::Builder>();
    is_default::<packed::Config>();
    is_over_matches::<FindIter<'_, '_>>();
    is_over_matches::<FindOverlappingIter<'_, '_>>();
    // (an automaton can be behind a pointer)
    let automata: [Box<dyn Automaton>; 2] =
        [Box::new(dfa::DFA::new(WORDS).unwrap()), Box::new(nfa::noncontiguous::NFA::new(WORDS).unwrap())];
    assert!(automata.iter().all(|it| it.try_find(&Input::new(TEXT)).unwrap() == Some(Match::must(0, 2..5))));
}

#[test]
fn kinds_of_errors() {
    let standard = MatchKind::Standard;
    for (error, kind) in [
        (MatchError::unsupported_stream(standard), MatchErrorKind::UnsupportedStream { got: standard }),
        (MatchError::unsupported_empty(), MatchErrorKind::UnsupportedEmpty),
        (MatchError::invalid_input_anchored(), MatchErrorKind::InvalidInputAnchored),
    ] {
        assert_eq!((error.kind(), &error), (&kind, &MatchError::new(kind.clone())));
    }
}
