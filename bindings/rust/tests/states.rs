//! Loops over the states of an automaton, beside the searches.
use aho_corasick::automaton::{Automaton, Candidate, OverlappingState, StateID};
use aho_corasick::dfa::DFA;
use aho_corasick::nfa::{contiguous, noncontiguous};
use aho_corasick::{AhoCorasick, Anchored, Input, Match, MatchError, MatchKind, PatternID, Span, StartKind};
use std::collections::HashMap;

const KINDS: [MatchKind; 3] = [MatchKind::Standard, MatchKind::LeftmostFirst, MatchKind::LeftmostLongest];

/// Numbers that look like chance, the same in each run.
struct Chance(u64);

impl Chance {
    /// One below a bound.
    fn below(&mut self, bound: usize) -> usize {
        self.0 = self.0.wrapping_mul(6364136223846793005).wrapping_add(1442695040888963407);
        (self.0 >> 33) as usize % bound
    }

    fn bytes(&mut self, len: usize, letters: &[u8]) -> Vec<u8> {
        (0..len).map(|_| letters[self.below(letters.len())]).collect()
    }
}

/// The state after some bytes.
fn after(automaton: &impl Automaton, anchored: Anchored, text: &[u8]) -> StateID {
    let start = automaton.start_state(anchored).unwrap();
    text.iter().fold(start, |state, byte| automaton.next_state(anchored, state, *byte))
}

/// The patterns that end in a state, in the order of their indices.
fn ending(automaton: &impl Automaton, state: StateID) -> Vec<PatternID> {
    (0..automaton.match_len(state)).map(|it| automaton.match_pattern(state, it)).collect()
}

/// The match of a pattern that ends in a state.
fn match_in(automaton: &dyn Automaton, state: StateID, index: usize, end: usize) -> Match {
    let pattern = automaton.match_pattern(state, index);
    Match::new(pattern, end - automaton.pattern_len(pattern)..end)
}

/// All occurrences in a text, by a loop over states.
fn occurrences(automaton: &dyn Automaton, anchored: Anchored, text: &[u8]) -> Vec<Match> {
    let (mut found, mut state) = (Vec::new(), automaton.start_state(anchored).unwrap());
    for at in 0..=text.len() {
        assert_eq!(automaton.is_match(state), automaton.match_len(state) > 0);
        found.extend((0..automaton.match_len(state)).map(|it| match_in(automaton, state, it, at)));
        state = text.get(at).map_or(state, |byte| automaton.next_state(anchored, state, *byte));
    }
    found
}

/// The first match, by a loop over states that skips bytes where there is a prefilter.
fn first_match(automaton: &dyn Automaton, anchored: Anchored, text: &[u8]) -> Option<Match> {
    let (mut state, mut at, mut found) = (automaton.start_state(anchored).unwrap(), 0, None);
    let prefilter = automaton.prefilter().filter(|_| !anchored.is_anchored());
    loop {
        assert!(automaton.is_special(state) || !automaton.is_dead(state) && !automaton.is_match(state));
        if automaton.is_dead(state) {
            return found;
        } else if automaton.is_match(state) {
            found = Some(match_in(automaton, state, 0, at));
            if automaton.match_kind() == MatchKind::Standard {
                return found;
            }
        } else if let Some(prefilter) = prefilter.filter(|_| automaton.is_start(state)) {
            assert!(automaton.is_special(state));
            match prefilter.find_in(text, Span { start: at, end: text.len() }) {
                Candidate::None => return found,
                Candidate::Match(it) => return Some(it),
                Candidate::PossibleStartOfMatch(start) => at = start,
            }
        }
        match text.get(at) {
            Some(byte) => (state, at) = (automaton.next_state(anchored, state, *byte), at + 1),
            None => return found,
        }
    }
}

fn automaton(
    which: usize,
    kind: MatchKind,
    ignore_case: bool,
    prefilter: bool,
    words: &[Vec<u8>],
) -> Box<dyn Automaton> {
    let (mut dfa, mut one, mut other) = (DFA::builder(), contiguous::NFA::builder(), noncontiguous::NFA::builder());
    dfa.match_kind(kind).ascii_case_insensitive(ignore_case).prefilter(prefilter).start_kind(StartKind::Both);
    one.match_kind(kind).ascii_case_insensitive(ignore_case).prefilter(prefilter);
    other.match_kind(kind).ascii_case_insensitive(ignore_case).prefilter(prefilter);
    match which {
        0 => Box::new(dfa.build(words).unwrap()),
        1 => Box::new(one.build(words).unwrap()),
        _ => Box::new(other.build(words).unwrap()),
    }
}

#[test]
fn states_by_hand() {
    let automaton = DFA::new(["append", "app", "end", "app"]).unwrap();
    let (start, after) = (automaton.start_state(Anchored::No).unwrap(), |text| after(&automaton, Anchored::No, text));
    let state = after(b"append");
    assert_eq!(ending(&automaton, state), [0, 2].map(PatternID::must));
    assert!(automaton.is_match(state) && automaton.is_special(state) && !automaton.is_dead(state));
    assert_eq!(ending(&automaton, after(b"xapp")), [1, 3].map(PatternID::must));
    assert!(automaton.is_start(start) && !automaton.is_match(start) && automaton.is_special(start));
    assert_eq!((after(b"x"), after(b"apx")), (start, start));
    assert!(after(b"a") != start && !automaton.is_start(after(b"a")) && !automaton.is_special(after(b"a")));
    assert_eq!(start.as_usize(), start.as_u32() as usize);
    assert_eq!([0, 1, 2, 3].map(|it| automaton.pattern_len(PatternID::must(it))), [6, 3, 3, 3]);
    let without = DFA::builder().prefilter(false).build(["app"]).unwrap();
    assert!(!without.is_special(without.start_state(Anchored::No).unwrap()) && without.prefilter().is_none());
}

#[test]
fn leftmost_states_by_hand() {
    let build = |kind| DFA::builder().match_kind(kind).start_kind(StartKind::Both).build(["b", "abcd", "bcde", "b"]);
    let (first, longest) = (MatchKind::LeftmostFirst, MatchKind::LeftmostLongest);
    let automata = [first, longest].map(|kind| build(kind).unwrap());
    for automaton in &automata {
        let after = |text| after(automaton, Anchored::No, text);
        // (b was found, and abcd would be preferred)
        assert_eq!(ending(automaton, after(b"xab")), [0, 3].map(PatternID::must));
        assert!(!automaton.is_match(after(b"abc")) && !automaton.is_dead(after(b"abc")));
        assert_eq!(ending(automaton, after(b"abcd")), [PatternID::must(1)]);
        assert!(automaton.is_dead(after(b"abcde")) && automaton.is_dead(after(b"bx")));
        assert!(automaton.is_special(after(b"bx")) && !automaton.is_match(after(b"bx")));
    }
    // (bcde begins with b, which comes first in the list)
    assert_eq!([0, 1].map(|it| &automata[it]).map(|it| it.is_dead(after(it, Anchored::No, b"bc"))), [true, false]);
    assert_eq!(ending(&automata[1], after(&automata[1], Anchored::No, b"abcxbcde")), []);
    assert_eq!(ending(&automata[1], after(&automata[1], Anchored::No, b"xbcde")), [PatternID::must(2)]);
}

#[test]
fn anchored_states_by_hand() {
    for kind in KINDS {
        let automaton = DFA::builder().match_kind(kind).start_kind(StartKind::Both).build(["abc", "b"]).unwrap();
        let after = |text| after(&automaton, Anchored::Yes, text);
        let start = automaton.start_state(Anchored::Yes).unwrap();
        assert!(automaton.is_start(start) && start != automaton.start_state(Anchored::No).unwrap());
        assert!(!automaton.is_match(after(b"ab")) && !automaton.is_dead(after(b"ab")));
        assert_eq!(ending(&automaton, after(b"abc")), [PatternID::must(0)]);
        assert!(automaton.is_dead(after(b"x")) && automaton.is_dead(after(b"abb")) && automaton.is_dead(after(b"xb")));
    }
}

#[test]
fn loops_find_what_searches_find() {
    let mut chance = Chance(8);
    for round in 0..1500 {
        let letters = &b"abABc"[..2 + chance.below(4)];
        let least = chance.below(4).min(1);
        let words: Vec<Vec<u8>> = (0..chance.below(8))
            .map(|_| {
                let len = least + chance.below(5);
                chance.bytes(len, letters)
            })
            .collect();
        let len = chance.below(40);
        let (text, ignore_case, kind) = (chance.bytes(len, letters), chance.below(2) == 0, KINDS[chance.below(3)]);
        let automaton = automaton(round % 3, kind, ignore_case, chance.below(2) == 0, &words);
        let mut builder = AhoCorasick::builder();
        builder.match_kind(kind).ascii_case_insensitive(ignore_case).start_kind(StartKind::Both);
        let searcher = builder.build(&words).unwrap();
        for anchored in [Anchored::No, Anchored::Yes] {
            let (input, case) = (Input::new(&text).anchored(anchored), (kind, anchored, ignore_case, &words, &text));
            assert_eq!(first_match(&*automaton, anchored, &text), searcher.find(input.clone()), "{case:?}");
            let mut state = OverlappingState::start();
            let listed = std::iter::from_fn(|| {
                searcher.find_overlapping(input.clone(), &mut state);
                state.get_match()
            });
            assert_eq!(occurrences(&*automaton, anchored, &text), listed.collect::<Vec<_>>(), "{case:?}");
        }
    }
}

#[test]
fn prefilters_pass_over_no_match() {
    let mut chance = Chance(9);
    for _ in 0..1500 {
        let letters = &b"abABc"[..2 + chance.below(4)];
        let words: Vec<Vec<u8>> = (0..1 + chance.below(4))
            .map(|_| {
                let len = 1 + chance.below(4);
                chance.bytes(len, letters)
            })
            .collect();
        let len = chance.below(30);
        let (text, ignore_case, kind) = (chance.bytes(len, letters), chance.below(2) == 0, KINDS[chance.below(3)]);
        let start = chance.below(len + 1);
        let span = Span { start, end: start + chance.below(len - start + 1) };
        let automaton = automaton(0, kind, ignore_case, true, &words);
        let mut builder = AhoCorasick::builder();
        let occurring = builder.ascii_case_insensitive(ignore_case).build(&words).unwrap();
        let first = occurring.find_overlapping_iter(Input::new(&text).span(span)).map(|it| it.start()).min();
        let candidate = automaton.prefilter().unwrap().find_in(&text, span);
        match (kind, &candidate) {
            (MatchKind::Standard, Candidate::PossibleStartOfMatch(at)) => {
                assert!(span.contains(*at) && words.iter().any(|it| it[0].eq_ignore_ascii_case(&text[*at])));
                assert!(first.map_or(true, |first| *at <= first), "{words:?} {text:?} {span:?}");
            }
            (MatchKind::Standard, _) => assert!(matches!(candidate, Candidate::None) && first.is_none()),
            _ => assert_eq!(candidate.into_option(), first, "{words:?} {text:?} {span:?}"),
        }
    }
    let without = [&[][..], &["a", ""]].map(|words: &[&str]| DFA::new(words).unwrap());
    assert!(without.iter().all(|it| it.prefilter().is_none()));
}

#[test]
fn automata_of_the_patterns_of_another_one() {
    let mut builder = noncontiguous::NFA::builder();
    builder.match_kind(MatchKind::LeftmostLongest).ascii_case_insensitive(true).prefilter(false);
    let given = builder.build(["ab", "a", "abc"]).unwrap();
    // (of the other settings only the start kind counts)
    let (mut dfa, mut nfa) = (DFA::builder(), contiguous::NFA::builder());
    dfa.match_kind(MatchKind::Standard).start_kind(StartKind::Anchored);
    let dfa = dfa.build_from_noncontiguous(&given).unwrap();
    let nfa = nfa.ascii_case_insensitive(false).build_from_noncontiguous(&given).unwrap();
    assert!(dfa.start_state(Anchored::No).is_err() && nfa.start_state(Anchored::No).is_ok());
    let input = Input::new("ABCD").anchored(Anchored::Yes);
    for automaton in [&dfa as &dyn Automaton, &nfa] {
        assert_eq!(automaton.match_kind(), MatchKind::LeftmostLongest);
        assert_eq!(automaton.try_find(&input), Ok(Some(Match::must(2, 0..3))));
        assert!(automaton.prefilter().is_none());
    }
}

#[test]
fn texts_with_the_same_open_suffix_lead_to_one_state() {
    let words = ["abc", "bd"];
    let (automaton, mut states) = (DFA::new(words).unwrap(), HashMap::new());
    for number in 0..256 {
        let text: Vec<u8> = (0..4).map(|it| b"abcd"[number >> (2 * it) & 3]).collect();
        let is_open = |start: &usize| words.iter().any(|it| it.as_bytes().starts_with(&text[*start..]));
        let open = text[(0..=4).find(is_open).unwrap()..].to_vec();
        let state = after(&automaton, Anchored::No, &text);
        assert_eq!(*states.entry(open).or_insert(state), state, "{text:?}");
    }
    assert_eq!(states.len(), 6);
}

#[test]
fn searches_that_are_left_out_have_no_states() {
    for kind in KINDS {
        for (start_kind, has_unanchored, has_anchored) in
            [(StartKind::Unanchored, true, false), (StartKind::Anchored, false, true), (StartKind::Both, true, true)]
        {
            let automaton = DFA::builder().match_kind(kind).start_kind(start_kind).build(["a", "bc"]).unwrap();
            let why = |anchored| automaton.start_state(anchored).err();
            let unanchored = (!has_unanchored).then(MatchError::invalid_input_unanchored);
            let anchored = (!has_anchored).then(MatchError::invalid_input_anchored);
            assert_eq!((why(Anchored::No), why(Anchored::Yes)), (unanchored, anchored));
            assert_eq!(automaton.pattern_len(PatternID::must(1)), 2);
        }
    }
}

#[test]
fn inputs_that_are_done_have_no_match() {
    let (automaton, mut state) =
        (DFA::builder().start_kind(StartKind::Anchored).build(["cat"]).unwrap(), OverlappingState::start());
    let (cat, done) = (Input::new("cat").anchored(Anchored::Yes), Input::new("cat").span(3..2));
    assert_eq!(automaton.try_find(&done), Ok(None));
    assert_eq!(automaton.try_find_overlapping(&cat, &mut state), Ok(()));
    assert_eq!(state.get_match(), Some(Match::must(0, 0..3)));
    assert_eq!(automaton.try_find_overlapping(&done, &mut state), Ok(()));
    assert_eq!(state.get_match(), None);
}
