//! The names of the original's automata. Each is a searcher of this crate, and can be stepped from state to state.
use crate::searcher::done;
use crate::states::States;
#[cfg(feature = "std")]
use crate::stream::failed;
use crate::{AhoCorasick, MatchError, MatchKind};
use alloc::string::String;
use alloc::vec::Vec;
#[cfg(feature = "std")]
use std::io::{self, Read, Write};

pub use crate::iterators::FindIter;
pub use crate::numbers::{PatternID, PatternIDError, StateID, StateIDError};
pub use crate::occurrences::{FindOverlappingIter, OverlappingState};
pub use crate::prefilter::{Candidate, Prefilter};
pub use crate::search::{Input, Match, Span};
pub use crate::settings::Anchored;
#[cfg(feature = "std")]
pub use crate::stream::StreamFindIter;

mod sealed {
    pub trait Sealed {
        fn searcher(&self) -> &crate::AhoCorasick;
        fn own_prefilter(&self) -> Option<&crate::prefilter::Prefilter>;
    }
}

pub(crate) use sealed::Sealed;

/// The searches of [`dfa::DFA`](crate::dfa::DFA) and of both kinds of [`nfa`](crate::nfa), as of [`AhoCorasick`], and
/// their states.
///
/// ```
/// use aho_corasick::automaton::Automaton;
/// use aho_corasick::{dfa::DFA, Input, Match};
///
/// let automaton = DFA::new(["cat", "dog"])?;
/// assert_eq!(automaton.try_find(&Input::new("a dog")), Ok(Some(Match::must(1, 2..5))));
/// # Ok::<(), aho_corasick::BuildError>(())
/// ```
///
/// A loop over states finds the first match of each kind: by the standard kind the one in the first state that has one,
/// by a leftmost kind the one in the last such state before a dead state or the end. It is much slower than the
/// searches of this crate, which do not use these states.
///
/// ```
/// use aho_corasick::automaton::Automaton;
/// use aho_corasick::{dfa::DFA, Anchored, Match, MatchError, MatchKind};
///
/// fn find(automaton: impl Automaton, anchored: Anchored, text: &[u8]) -> Result<Option<Match>, MatchError> {
///     let (mut found, mut state) = (None, automaton.start_state(anchored)?);
///     for at in 0..=text.len() {
///         if automaton.is_match(state) {
///             let pattern = automaton.match_pattern(state, 0);
///             found = Some(Match::new(pattern, at - automaton.pattern_len(pattern)..at));
///             if automaton.match_kind() == MatchKind::Standard {
///                 break;
///             }
///         }
///         if at == text.len() || automaton.is_dead(state) {
///             break;
///         }
///         state = automaton.next_state(anchored, state, text[at]);
///     }
///     Ok(found)
/// }
///
/// let words = ["Sam", "Samwise", "wise"];
/// assert_eq!(find(DFA::new(words)?, Anchored::No, b"a Samwise")?, Some(Match::must(0, 2..5)));
/// let longest = DFA::builder().match_kind(MatchKind::LeftmostLongest).build(words)?;
/// assert_eq!(find(&longest, Anchored::No, b"a Samwise")?, Some(Match::must(1, 2..9)));
/// # Ok::<(), Box<dyn std::error::Error>>(())
/// ```
///
/// The calls that take a state have no meaning for one of another automaton, and may panic.
pub trait Automaton: Sealed {
    /// The state before the first byte. The first call builds the states. They take at most some 17 bytes for each byte
    /// of the patterns, and 32 for each pattern; during the build it is about three times as much.
    ///
    /// # Errors
    ///
    /// If the [`StartKind`](crate::StartKind) leaves out such searches, or the states can't be built.
    ///
    /// ```
    /// use aho_corasick::automaton::Automaton;
    /// use aho_corasick::{dfa::DFA, Anchored};
    ///
    /// let automaton = DFA::new(["cat"])?;
    /// assert!(automaton.start_state(Anchored::No).is_ok());
    /// assert!(automaton.start_state(Anchored::Yes).is_err());
    /// # Ok::<(), aho_corasick::BuildError>(())
    /// ```
    fn start_state(&self, anchored: Anchored) -> Result<StateID, MatchError> {
        self.searcher().check(anchored)?;
        Ok(id(self.searcher().states()?.start(anchored)))
    }

    /// The state after one more byte. The first argument has to be the one of [`Automaton::start_state`]. (It is not
    /// looked at: anchored searches have states of their own.)
    ///
    /// ```
    /// use aho_corasick::automaton::Automaton;
    /// use aho_corasick::{dfa::DFA, Anchored};
    ///
    /// let automaton = DFA::new(["cat"])?;
    /// let start = automaton.start_state(Anchored::No)?;
    /// let state = b"cat".iter().fold(start, |state, byte| automaton.next_state(Anchored::No, state, *byte));
    /// assert!(automaton.is_match(state));
    /// # Ok::<(), Box<dyn std::error::Error>>(())
    /// ```
    ///
    /// # Panics
    ///
    /// If the automaton has no state like this one.
    #[inline]
    fn next_state(&self, _anchored: Anchored, state: StateID, byte: u8) -> StateID {
        id(states(self).next(state.as_u32(), byte))
    }

    /// Whether a search has to look at the state: a pattern ends there, it is dead, or it is a start state and there is
    /// a [`Prefilter`].
    ///
    /// ```
    /// use aho_corasick::automaton::Automaton;
    /// use aho_corasick::{dfa::DFA, Anchored};
    ///
    /// let automaton = DFA::builder().prefilter(false).build(["a", "bc"])?;
    /// let start = automaton.start_state(Anchored::No)?;
    /// assert!(!automaton.is_special(start));
    /// assert!(automaton.is_special(automaton.next_state(Anchored::No, start, b'a')));
    /// # Ok::<(), Box<dyn std::error::Error>>(())
    /// ```
    fn is_special(&self, state: StateID) -> bool {
        self.is_dead(state) || self.is_match(state) || self.prefilter().is_some() && self.is_start(state)
    }

    /// Whether no pattern can end any more. By the standard kind, only anchored searches come to such a state.
    ///
    /// ```
    /// use aho_corasick::automaton::Automaton;
    /// use aho_corasick::{nfa::contiguous::NFA, Anchored};
    ///
    /// let automaton = NFA::new(["a", "bc"])?;
    /// let start = automaton.start_state(Anchored::Yes)?;
    /// assert!(automaton.is_dead(automaton.next_state(Anchored::Yes, start, b'x')));
    /// # Ok::<(), Box<dyn std::error::Error>>(())
    /// ```
    #[inline]
    fn is_dead(&self, state: StateID) -> bool {
        States::is_dead(state.as_u32())
    }

    /// Whether a pattern ends with the bytes that led to the state; by a leftmost kind, one that is preferred to those
    /// that ended before. In an anchored search, the pattern begins where the search does.
    ///
    /// ```
    /// use aho_corasick::automaton::Automaton;
    /// use aho_corasick::{dfa::DFA, Anchored};
    ///
    /// let automaton = DFA::new(["a", "bc"])?;
    /// let start = automaton.start_state(Anchored::No)?;
    /// assert!(automaton.is_match(automaton.next_state(Anchored::No, start, b'a')));
    /// assert!(!automaton.is_match(automaton.next_state(Anchored::No, start, b'b')));
    /// # Ok::<(), Box<dyn std::error::Error>>(())
    /// ```
    #[inline]
    fn is_match(&self, state: StateID) -> bool {
        states(self).match_len(state.as_u32()) > 0
    }

    /// Whether it is a state before the first byte. An unanchored search comes back there while no pattern has begun.
    ///
    /// ```
    /// use aho_corasick::automaton::Automaton;
    /// use aho_corasick::{dfa::DFA, Anchored};
    ///
    /// let automaton = DFA::new(["a", "bc"])?;
    /// let start = automaton.start_state(Anchored::No)?;
    /// assert!(automaton.is_start(start) && automaton.is_start(automaton.next_state(Anchored::No, start, b'x')));
    /// # Ok::<(), Box<dyn std::error::Error>>(())
    /// ```
    fn is_start(&self, state: StateID) -> bool {
        states(self).is_start(state.as_u32())
    }

    /// How many patterns end with the bytes that led to the state. By a leftmost kind, these are equal patterns.
    ///
    /// ```
    /// use aho_corasick::automaton::Automaton;
    /// use aho_corasick::{dfa::DFA, Anchored, PatternID};
    ///
    /// let automaton = DFA::new(["append", "app", "end"])?;
    /// let start = automaton.start_state(Anchored::No)?;
    /// let state = b"append".iter().fold(start, |state, byte| automaton.next_state(Anchored::No, state, *byte));
    /// assert_eq!(automaton.match_len(state), 2);
    /// assert_eq!(automaton.match_pattern(state, 0), PatternID::must(0));
    /// assert_eq!(automaton.match_pattern(state, 1), PatternID::must(2));
    /// # Ok::<(), Box<dyn std::error::Error>>(())
    /// ```
    fn match_len(&self, state: StateID) -> usize {
        states(self).match_len(state.as_u32())
    }

    /// The pattern with an index among those that end with the bytes that led to the state: the longest first, and of
    /// equal ones the first in the list.
    ///
    /// # Panics
    ///
    /// If the index is not below [`Automaton::match_len`].
    ///
    /// ```
    /// use aho_corasick::automaton::Automaton;
    /// use aho_corasick::{dfa::DFA, Anchored, PatternID};
    ///
    /// let automaton = DFA::new(["a", "bc"])?;
    /// let start = automaton.start_state(Anchored::No)?;
    /// let state = automaton.next_state(Anchored::No, start, b'a');
    /// assert_eq!(automaton.match_pattern(state, 0), PatternID::ZERO);
    /// # Ok::<(), Box<dyn std::error::Error>>(())
    /// ```
    fn match_pattern(&self, state: StateID, index: usize) -> PatternID {
        states(self).pattern(state.as_u32(), index)
    }

    /// What finds offsets at which a match may begin.
    ///
    /// ```
    /// use aho_corasick::automaton::Automaton;
    /// use aho_corasick::dfa::DFA;
    ///
    /// assert!(DFA::new(["cat"])?.prefilter().is_some());
    /// assert!(DFA::new(["cat", ""])?.prefilter().is_none());
    /// # Ok::<(), aho_corasick::BuildError>(())
    /// ```
    fn prefilter(&self) -> Option<&Prefilter> {
        self.own_prefilter()
    }

    /// [`AhoCorasick::try_find`], except that an input that is done has no match, whatever the
    /// [`StartKind`](crate::StartKind) is.
    ///
    /// ```
    /// use aho_corasick::automaton::Automaton;
    /// use aho_corasick::{dfa::DFA, Input, Match};
    ///
    /// let automaton = DFA::new(["cat", "dog"])?;
    /// assert_eq!(automaton.try_find(&Input::new("a dog")), Ok(Some(Match::must(1, 2..5))));
    /// # Ok::<(), aho_corasick::BuildError>(())
    /// ```
    fn try_find(&self, input: &Input<'_>) -> Result<Option<Match>, MatchError> {
        if input.is_done() {
            return Ok(None);
        }
        self.searcher().try_find(input.clone())
    }

    /// [`AhoCorasick::try_find_iter`].
    ///
    /// ```
    /// use aho_corasick::automaton::Automaton;
    /// use aho_corasick::{dfa::DFA, Input};
    ///
    /// let automaton = DFA::new(["cat", "dog"])?;
    /// assert_eq!(automaton.try_find_iter(Input::new("dog, cat")).map(Iterator::count), Ok(2));
    /// # Ok::<(), aho_corasick::BuildError>(())
    /// ```
    fn try_find_iter<'a, 'h>(&'a self, input: Input<'h>) -> Result<FindIter<'a, 'h>, MatchError> {
        self.searcher().try_find_iter(input)
    }

    /// [`AhoCorasick::try_find_overlapping`], except that an input that is done has no match, whatever the
    /// [`StartKind`](crate::StartKind) is.
    ///
    /// ```
    /// use aho_corasick::automaton::{Automaton, OverlappingState};
    /// use aho_corasick::{dfa::DFA, Input};
    ///
    /// let (automaton, mut state) = (DFA::new(["cats", "cat"])?, OverlappingState::start());
    /// automaton.try_find_overlapping(&Input::new("cats"), &mut state)?;
    /// assert_eq!(state.get_match().map(|it| it.end()), Some(3));
    /// # Ok::<(), Box<dyn std::error::Error>>(())
    /// ```
    fn try_find_overlapping(&self, input: &Input<'_>, state: &mut OverlappingState) -> Result<(), MatchError> {
        if input.is_done() {
            *state = OverlappingState::start();
            return Ok(());
        }
        self.searcher().try_find_overlapping(input.clone(), state)
    }

    /// [`AhoCorasick::try_find_overlapping_iter`], except that the kind of match is looked at before the
    /// [`StartKind`](crate::StartKind).
    ///
    /// ```
    /// use aho_corasick::automaton::Automaton;
    /// use aho_corasick::{dfa::DFA, Input};
    ///
    /// let automaton = DFA::new(["cats", "cat"])?;
    /// assert_eq!(automaton.try_find_overlapping_iter(Input::new("cats")).map(Iterator::count), Ok(2));
    /// # Ok::<(), aho_corasick::BuildError>(())
    /// ```
    fn try_find_overlapping_iter<'a, 'h>(
        &'a self,
        input: Input<'h>,
    ) -> Result<FindOverlappingIter<'a, 'h>, MatchError> {
        Ok(FindOverlappingIter::new(self.searcher().every_by_kind(&input)?, &input))
    }

    /// [`AhoCorasick::try_replace_all`], except that the number of replacements is looked at first.
    ///
    /// ```
    /// use aho_corasick::automaton::Automaton;
    /// use aho_corasick::dfa::DFA;
    ///
    /// let automaton = DFA::new(["cat", "dog"])?;
    /// assert_eq!(automaton.try_replace_all("a dog", &["dog", "cat"]).unwrap(), "a cat");
    /// # Ok::<(), aho_corasick::BuildError>(())
    /// ```
    fn try_replace_all<B: AsRef<str>>(&self, haystack: &str, replace_with: &[B]) -> Result<String, MatchError>
    where
        Self: Sized,
    {
        self.searcher().assert_one_for_each(replace_with);
        self.searcher().try_replace_all(haystack, replace_with)
    }

    /// [`AhoCorasick::try_replace_all_bytes`], except that the number of replacements is looked at first.
    ///
    /// ```
    /// use aho_corasick::automaton::Automaton;
    /// use aho_corasick::dfa::DFA;
    ///
    /// let automaton = DFA::new(["cat", "dog"])?;
    /// assert_eq!(automaton.try_replace_all_bytes(b"a dog", &["dog", "cat"]).unwrap(), b"a cat");
    /// # Ok::<(), aho_corasick::BuildError>(())
    /// ```
    fn try_replace_all_bytes<B: AsRef<[u8]>>(&self, haystack: &[u8], replace_with: &[B]) -> Result<Vec<u8>, MatchError>
    where
        Self: Sized,
    {
        self.searcher().assert_one_for_each(replace_with);
        self.searcher().try_replace_all_bytes(haystack, replace_with)
    }

    /// [`AhoCorasick::try_replace_all_with`].
    ///
    /// ```
    /// use aho_corasick::automaton::Automaton;
    /// use aho_corasick::dfa::DFA;
    ///
    /// let automaton = DFA::new(["cat", "dog"])?;
    /// let mut text = String::new();
    /// automaton.try_replace_all_with("a dog", &mut text, |_, _, _| true)?;
    /// assert_eq!(text, "a ");
    /// # Ok::<(), Box<dyn std::error::Error>>(())
    /// ```
    fn try_replace_all_with<F>(&self, haystack: &str, dst: &mut String, replace_with: F) -> Result<(), MatchError>
    where
        Self: Sized,
        F: FnMut(&Match, &str, &mut String) -> bool,
    {
        self.searcher().try_replace_all_with(haystack, dst, replace_with)
    }

    /// [`AhoCorasick::try_replace_all_with_bytes`].
    ///
    /// ```
    /// use aho_corasick::automaton::Automaton;
    /// use aho_corasick::dfa::DFA;
    ///
    /// let automaton = DFA::new(["cat", "dog"])?;
    /// let mut bytes = Vec::new();
    /// automaton.try_replace_all_with_bytes(b"a dog", &mut bytes, |_, _, _| true)?;
    /// assert_eq!(bytes, b"a ");
    /// # Ok::<(), Box<dyn std::error::Error>>(())
    /// ```
    fn try_replace_all_with_bytes<F>(
        &self,
        haystack: &[u8],
        dst: &mut Vec<u8>,
        replace_with: F,
    ) -> Result<(), MatchError>
    where
        Self: Sized,
        F: FnMut(&Match, &[u8], &mut Vec<u8>) -> bool,
    {
        self.searcher().try_replace_all_with_bytes(haystack, dst, replace_with)
    }

    /// [`AhoCorasick::try_stream_find_iter`], except that empty patterns are looked at before the
    /// [`StartKind`](crate::StartKind).
    ///
    /// ```
    /// use aho_corasick::automaton::Automaton;
    /// use aho_corasick::dfa::DFA;
    ///
    /// let automaton = DFA::new(["cat", "dog"])?;
    /// assert_eq!(automaton.try_stream_find_iter("dog, cat".as_bytes())?.count(), 2);
    /// # Ok::<(), Box<dyn std::error::Error>>(())
    /// ```
    #[cfg(feature = "std")]
    fn try_stream_find_iter<'a, R: Read>(&'a self, rdr: R) -> Result<StreamFindIter<'a, R>, MatchError>
    where
        Self: Sized,
    {
        self.searcher().check_empty()?;
        self.searcher().try_stream_find_iter(rdr)
    }

    /// [`AhoCorasick::try_stream_replace_all`], except that the number of replacements is looked at first, and then
    /// empty patterns.
    ///
    /// ```
    /// use aho_corasick::automaton::Automaton;
    /// use aho_corasick::dfa::DFA;
    ///
    /// let automaton = DFA::new(["cat", "dog"])?;
    /// let mut out = Vec::new();
    /// automaton.try_stream_replace_all("a dog".as_bytes(), &mut out, &["dog", "cat"])?;
    /// assert_eq!(out, b"a cat");
    /// # Ok::<(), Box<dyn std::error::Error>>(())
    /// ```
    #[cfg(feature = "std")]
    fn try_stream_replace_all<R, W, B>(&self, rdr: R, wtr: W, replace_with: &[B]) -> io::Result<()>
    where
        Self: Sized,
        R: Read,
        W: Write,
        B: AsRef<[u8]>,
    {
        self.searcher().assert_one_for_each(replace_with);
        self.searcher().check_empty().map_err(failed)?;
        self.searcher().try_stream_replace_all(rdr, wtr, replace_with)
    }

    /// [`AhoCorasick::try_stream_replace_all_with`], except that empty patterns are looked at first.
    ///
    /// ```
    /// use aho_corasick::automaton::Automaton;
    /// use aho_corasick::dfa::DFA;
    /// use std::io::Write;
    ///
    /// let automaton = DFA::new(["cat", "dog"])?;
    /// let mut out = Vec::new();
    /// automaton.try_stream_replace_all_with("a dog".as_bytes(), &mut out, |_, word, out| out.write_all(&word[1..]))?;
    /// assert_eq!(out, b"a og");
    /// # Ok::<(), Box<dyn std::error::Error>>(())
    /// ```
    #[cfg(feature = "std")]
    fn try_stream_replace_all_with<R, W, F>(&self, rdr: R, wtr: W, replace_with: F) -> io::Result<()>
    where
        Self: Sized,
        R: Read,
        W: Write,
        F: FnMut(&Match, &[u8], &mut W) -> io::Result<()>,
    {
        self.searcher().check_empty().map_err(failed)?;
        self.searcher().try_stream_replace_all_with(rdr, wtr, replace_with)
    }

    /// [`AhoCorasick::match_kind`].
    ///
    /// ```
    /// use aho_corasick::automaton::Automaton;
    /// use aho_corasick::{dfa::DFA, MatchKind};
    ///
    /// assert_eq!(DFA::new(["cat"])?.match_kind(), MatchKind::Standard);
    /// # Ok::<(), aho_corasick::BuildError>(())
    /// ```
    fn match_kind(&self) -> MatchKind {
        self.searcher().match_kind()
    }

    /// [`AhoCorasick::patterns_len`].
    ///
    /// ```
    /// use aho_corasick::automaton::Automaton;
    /// use aho_corasick::dfa::DFA;
    ///
    /// assert_eq!(DFA::new(["cat", "bird"])?.patterns_len(), 2);
    /// # Ok::<(), aho_corasick::BuildError>(())
    /// ```
    fn patterns_len(&self) -> usize {
        self.searcher().patterns_len()
    }

    /// The length of a pattern.
    ///
    /// # Panics
    ///
    /// If there is none with this number.
    ///
    /// ```
    /// use aho_corasick::automaton::Automaton;
    /// use aho_corasick::{dfa::DFA, PatternID};
    ///
    /// assert_eq!(DFA::new(["cat", "bird"])?.pattern_len(PatternID::must(1)), 4);
    /// # Ok::<(), aho_corasick::BuildError>(())
    /// ```
    fn pattern_len(&self, pattern: PatternID) -> usize {
        self.searcher().pattern_len(pattern)
    }

    /// [`AhoCorasick::min_pattern_len`].
    ///
    /// ```
    /// use aho_corasick::automaton::Automaton;
    /// use aho_corasick::dfa::DFA;
    ///
    /// assert_eq!(DFA::new(["cat", "bird"])?.min_pattern_len(), 3);
    /// # Ok::<(), aho_corasick::BuildError>(())
    /// ```
    fn min_pattern_len(&self) -> usize {
        self.searcher().min_pattern_len()
    }

    /// [`AhoCorasick::max_pattern_len`].
    ///
    /// ```
    /// use aho_corasick::automaton::Automaton;
    /// use aho_corasick::dfa::DFA;
    ///
    /// assert_eq!(DFA::new(["cat", "bird"])?.max_pattern_len(), 4);
    /// # Ok::<(), aho_corasick::BuildError>(())
    /// ```
    fn max_pattern_len(&self) -> usize {
        self.searcher().max_pattern_len()
    }

    /// [`AhoCorasick::memory_usage`].
    ///
    /// ```
    /// use aho_corasick::automaton::Automaton;
    /// use aho_corasick::dfa::DFA;
    ///
    /// assert!(DFA::new(["cat", "bird"])?.memory_usage() > 100);
    /// # Ok::<(), aho_corasick::BuildError>(())
    /// ```
    fn memory_usage(&self) -> usize {
        self.searcher().memory_usage()
    }
}

fn id(state: u32) -> StateID {
    StateID::from_u32_unchecked(state)
}

/// The states of an automaton, which [`Automaton::start_state`] has built.
#[inline]
fn states<A: Sealed + ?Sized>(automaton: &A) -> &States {
    done(automaton.searcher().states())
}

impl<A: Automaton + ?Sized> Sealed for &A {
    fn searcher(&self) -> &AhoCorasick {
        (**self).searcher()
    }

    fn own_prefilter(&self) -> Option<&Prefilter> {
        (**self).own_prefilter()
    }
}

impl<A: Automaton + ?Sized> Automaton for &A {}

/// Declares an automaton and its builder with some setters, each by the type that it takes, and a value for an example.
macro_rules! automaton {
    ($name:ident, $module:literal, $start_kind:expr, $($setter:ident: $takes:ty = $example:literal),*) => {
        /// A searcher, whose searches are those of [`Automaton`].
        ///
        /// ```
        /// use aho_corasick::automaton::Automaton;
        #[doc = concat!("use aho_corasick::{", $module, "::", stringify!($name), ", Input};")]
        ///
        #[doc = concat!("let automaton = ", stringify!($name), "::new([\"cat\"])?;")]
        /// assert_eq!(automaton.try_find(&Input::new("a cat")).unwrap().map(|it| it.start()), Some(2));
        /// # Ok::<(), aho_corasick::BuildError>(())
        /// ```
        #[derive(Clone, Debug)]
        pub struct $name {
            searcher: AhoCorasick,
            prefilter: Option<Prefilter>,
        }

        impl $name {
            /// For some patterns, as the builder is set at first.
            ///
            /// # Errors
            ///
            /// Like [`AhoCorasickBuilder::build`].
            ///
            /// ```
            #[doc = concat!("assert!(aho_corasick::", $module, "::", stringify!($name), "::new([\"cat\"]).is_ok());")]
            /// ```
            pub fn new<I: IntoIterator<Item = P>, P: AsRef<[u8]>>(patterns: I) -> Result<$name, BuildError> {
                $name::builder().build(patterns)
            }

            /// A builder.
            ///
            /// ```
            #[doc = concat!("let mut builder = aho_corasick::", $module, "::", stringify!($name), "::builder();")]
            /// assert!(builder.ascii_case_insensitive(true).build(["cat"]).is_ok());
            /// ```
            pub fn builder() -> Builder {
                Builder::new()
            }
        }

        impl Sealed for $name {
            fn searcher(&self) -> &AhoCorasick {
                &self.searcher
            }

            fn own_prefilter(&self) -> Option<&Prefilter> {
                self.prefilter.as_ref()
            }
        }

        impl Automaton for $name {}

        /// Its builder.
        ///
        /// ```
        #[doc = concat!("use aho_corasick::{", $module, "::Builder, MatchKind};")]
        ///
        /// assert!(Builder::new().match_kind(MatchKind::LeftmostLongest).build(["cat"]).is_ok());
        /// ```
        #[derive(Clone, Debug)]
        pub struct Builder(AhoCorasickBuilder);

        impl Builder {
            /// A builder with the settings of [`AhoCorasickBuilder::new`], except that an NFA makes all searches.
            ///
            /// ```
            #[doc = concat!("assert!(aho_corasick::", $module, "::Builder::new().build([\"cat\"]).is_ok());")]
            /// ```
            pub fn new() -> Builder {
                let mut builder = AhoCorasickBuilder::new();
                builder.start_kind($start_kind);
                Builder(builder)
            }

            /// The automaton for some patterns.
            ///
            /// # Errors
            ///
            /// Like [`AhoCorasickBuilder::build`].
            ///
            /// ```
            /// use aho_corasick::automaton::Automaton;
            #[doc = concat!("use aho_corasick::", $module, "::Builder;")]
            ///
            /// assert_eq!(Builder::new().build(["cat", "dog"])?.patterns_len(), 2);
            /// # Ok::<(), aho_corasick::BuildError>(())
            /// ```
            pub fn build<I: IntoIterator<Item = P>, P: AsRef<[u8]>>(&self, patterns: I) -> Result<$name, BuildError> {
                let (searcher, prefilter) = self.0.build_with_prefilter(patterns)?;
                Ok($name { searcher, prefilter })
            }

            $(
                #[doc = concat!("[`AhoCorasickBuilder::", stringify!($setter), "`].")]
                ///
                /// ```
                #[doc = concat!("let mut builder = aho_corasick::", $module, "::Builder::new();")]
                #[doc = concat!("assert!(builder.", stringify!($setter), "(", $example, ").build([\"cat\"]).is_ok());")]
                /// ```
                pub fn $setter(&mut self, value: $takes) -> &mut Builder {
                    self.0.$setter(value);
                    self
                }
            )*
        }

        impl Default for Builder {
            fn default() -> Builder {
                Builder::new()
            }
        }
    };
}

/// Declares the call of a builder that takes the patterns of an NFA.
macro_rules! from_noncontiguous {
    ($name:ident, $module:literal) => {
        impl Builder {
            /// The automaton for the patterns of an NFA, and with its settings: of this builder's settings, only the
            /// [`StartKind`] counts.
            ///
            /// # Errors
            ///
            /// Like [`AhoCorasickBuilder::build`].
            ///
            /// ```
            /// use aho_corasick::automaton::Automaton;
            #[doc = concat!("use aho_corasick::{nfa::noncontiguous::NFA, ", $module, "::Builder};")]
            ///
            /// assert_eq!(Builder::new().build_from_noncontiguous(&NFA::new(["cat", "dog"])?)?.patterns_len(), 2);
            /// # Ok::<(), aho_corasick::BuildError>(())
            /// ```
            pub fn build_from_noncontiguous(&self, nfa: &crate::nfa::noncontiguous::NFA) -> Result<$name, BuildError> {
                let searcher = self.0.build_from(nfa.searcher())?;
                Ok($name { searcher, prefilter: nfa.own_prefilter().cloned() })
            }
        }
    };
}

pub(crate) use {automaton, from_noncontiguous};
