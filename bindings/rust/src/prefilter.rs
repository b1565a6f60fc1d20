//! Where a match may begin, for loops over states.
use crate::{AhoCorasick, Input, Match, MatchKind, Span};
use core::fmt;

/// Skips bytes with which no match begins, in a loop over the states of an automaton that is at a start state. An
/// automaton has it unless its builder was told to leave it out, a pattern is empty, or there are no patterns:
/// [`Automaton::prefilter`](crate::automaton::Automaton::prefilter).
///
/// By a leftmost kind it is the search of [`AhoCorasick`], and so finds the match itself. By the standard kind it looks
/// for a byte with which a pattern begins.
///
/// ```
/// use aho_corasick::{automaton::Automaton, dfa::DFA, Span};
///
/// let automaton = DFA::new(["cat", "dog"])?;
/// let candidate = automaton.prefilter().unwrap().find_in(b"a dog", Span { start: 1, end: 5 });
/// assert_eq!(candidate.into_option(), Some(2));
/// # Ok::<(), aho_corasick::BuildError>(())
/// ```
#[derive(Clone)]
pub struct Prefilter {
    finder: Finder,
}

#[derive(Clone)]
enum Finder {
    Matches(AhoCorasick),
    FirstBytes([bool; 256]),
}

impl Prefilter {
    /// The prefilter for the patterns of a searcher, if these have one.
    pub(crate) fn of(searcher: &AhoCorasick) -> Option<Prefilter> {
        let (pieces, ignore_case) = searcher.patterns();
        if pieces.len() == 0 || pieces.shortest == 0 {
            return None;
        }
        if searcher.match_kind() != MatchKind::Standard {
            return Some(Prefilter { finder: Finder::Matches(searcher.clone()) });
        }
        let mut is_first = [false; 256];
        for byte in (0..pieces.len() as u32).map(|it| pieces.get(it)[0]) {
            is_first[usize::from(byte)] = true;
            if ignore_case {
                is_first[usize::from(byte.to_ascii_lowercase())] = true;
                is_first[usize::from(byte.to_ascii_uppercase())] = true;
            }
        }
        Some(Prefilter { finder: Finder::FirstBytes(is_first) })
    }

    /// Where in a span the first match may begin. No match lies in the span that begins before.
    ///
    /// # Panics
    ///
    /// Like [`Input::set_span`].
    ///
    /// ```
    /// use aho_corasick::automaton::{Automaton, Candidate};
    /// use aho_corasick::{dfa::DFA, Match, MatchKind, Span};
    ///
    /// let automaton = DFA::builder().match_kind(MatchKind::LeftmostFirst).build(["cat"])?;
    /// let prefilter = automaton.prefilter().unwrap();
    /// let candidate = prefilter.find_in(b"a cat", Span { start: 0, end: 5 });
    /// assert!(matches!(candidate, Candidate::Match(found) if found == Match::must(0, 2..5)));
    /// assert!(matches!(prefilter.find_in(b"a cat", Span { start: 0, end: 4 }), Candidate::None));
    /// # Ok::<(), aho_corasick::BuildError>(())
    /// ```
    pub fn find_in(&self, haystack: &[u8], span: Span) -> Candidate {
        let span = Input::new(haystack).span(span).searched();
        match &self.finder {
            Finder::Matches(searcher) => searcher.plain_match(haystack, span).map_or(Candidate::None, Candidate::Match),
            Finder::FirstBytes(is_first) => {
                let at = haystack[span].iter().position(|it| is_first[usize::from(*it)]);
                at.map_or(Candidate::None, |at| Candidate::PossibleStartOfMatch(span.start + at))
            }
        }
    }
}

impl fmt::Debug for Prefilter {
    fn fmt(&self, f: &mut fmt::Formatter<'_>) -> fmt::Result {
        let finder = match &self.finder {
            Finder::Matches(_) => "matches",
            Finder::FirstBytes(_) => "first bytes",
        };
        f.debug_struct("Prefilter").field("finder", &finder).finish_non_exhaustive()
    }
}

/// What a [`Prefilter`] finds.
///
/// ```
/// use aho_corasick::automaton::{Automaton, Candidate};
///
/// use aho_corasick::{dfa::DFA, Span};
///
/// let automaton = DFA::new(["cat"])?;
/// match automaton.prefilter().unwrap().find_in(b"a cat", Span { start: 1, end: 5 }) {
///     Candidate::None => panic!("there is a cat"),
///     Candidate::Match(found) => assert_eq!(found.start(), 2),
///     Candidate::PossibleStartOfMatch(start) => assert_eq!(start, 2),
/// }
/// # Ok::<(), aho_corasick::BuildError>(())
/// ```
#[derive(Clone, Debug)]
pub enum Candidate {
    /// No match begins in the span.
    None,
    /// The first match.
    Match(Match),
    /// The offset where a match may begin, and before which none does.
    PossibleStartOfMatch(usize),
}

impl Candidate {
    /// Where the match begins, or may begin, if there may be one.
    ///
    /// ```
    /// use aho_corasick::{automaton::Candidate, Match};
    ///
    /// assert_eq!(Candidate::Match(Match::must(0, 2..5)).into_option(), Some(2));
    /// assert_eq!(Candidate::PossibleStartOfMatch(3).into_option(), Some(3));
    /// assert_eq!(Candidate::None.into_option(), None);
    /// ```
    pub fn into_option(self) -> Option<usize> {
        match self {
            Candidate::None => None,
            Candidate::Match(found) => Some(found.start()),
            Candidate::PossibleStartOfMatch(start) => Some(start),
        }
    }
}
