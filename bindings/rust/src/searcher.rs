//! The searcher.
use crate::empty::Empty;
use crate::lazy::Lazy;
use crate::leftmost::Leftmost;
use crate::library::Prepared;
use crate::occurrences::{Every, FindOverlappingIter, OverlappingState};
use crate::pieces::Pieces;
use crate::states::States;
#[cfg(feature = "std")]
use crate::stream::Room;
use crate::trie::Trie;
use crate::{
    AhoCorasickBuilder, AhoCorasickKind, Anchored, BuildError, FindIter, Input, Match, MatchError, MatchErrorKind,
    MatchKind, PatternID, Span, StartKind,
};
use alloc::sync::Arc;
use core::fmt;
use core::mem::size_of;

/// For so few patterns the search for the first occurrence is faster than the one for every occurrence.
const FEW_PATTERNS: usize = 3;

/// Searches for any number of patterns.
///
/// Threads may share it. A clone is the same search, and takes no memory.
///
/// If the searcher does not make a search, the calls for it panic, except for those whose names begin with `try_`: they
/// return a [`MatchError`]. [`AhoCorasick::is_match`] answers for each input.
///
/// ```
/// use aho_corasick::{AhoCorasick, Match};
///
/// let searcher = AhoCorasick::new(["cat", "dog"])?;
/// let found: Vec<Match> = searcher.find_iter("dog, cat").collect();
/// assert_eq!(found, [Match::must(1, 0..3), Match::must(0, 5..8)]);
/// # Ok::<(), aho_corasick::BuildError>(())
/// ```
#[derive(Clone)]
pub struct AhoCorasick {
    parts: Arc<Parts>,
}

pub(crate) struct Parts {
    pub kind: MatchKind,
    pub start_kind: StartKind,
    pub automaton: AhoCorasickKind,
    pub ignore_case: bool,
    /// Whether an input without flags is searched by `leftmost`.
    pub has_plain: bool,
    pub leftmost: Leftmost,
    /// The search for earliest matches where the kind is a leftmost one, if `leftmost` does not find them too.
    pub earliest: Lazy<Option<Leftmost>>,
    /// What makes anchored searches. If the `StartKind` has these or a pattern is empty, it is built at once. If a
    /// pattern is empty, it makes all searches for matches that do not overlap.
    pub trie: Lazy<Trie>,
    /// The empty patterns, if there are some, and the others.
    pub empty: Option<Empty>,
    /// All patterns.
    pub pieces: Pieces,
    /// The array for every occurrence of the patterns that are not empty.
    pub every: Lazy<Prepared>,
    /// For loops over states.
    pub states: Lazy<States>,
}

/// What makes a search.
enum Way<'a> {
    Leftmost(&'a Leftmost),
    Trie(&'a Trie),
}

impl<'a> Way<'a> {
    #[inline]
    fn find(self, input: &Input<'_>) -> Option<Match> {
        match self {
            Way::Leftmost(leftmost) => leftmost.find(input.haystack(), input.searched()),
            Way::Trie(trie) => trie.find(input),
        }
    }

    #[inline]
    fn find_iter<'h>(self, searcher: &'a AhoCorasick, input: Input<'h>) -> FindIter<'a, 'h> {
        match self {
            Way::Leftmost(leftmost) => FindIter::pages(leftmost, input.haystack(), input.searched()),
            Way::Trie(trie) => FindIter::anchored(searcher, trie, input),
        }
    }
}

impl AhoCorasick {
    pub(crate) fn of(parts: Parts) -> AhoCorasick {
        AhoCorasick { parts: Arc::new(parts) }
    }

    /// A searcher for some patterns by [`MatchKind::Standard`], with case kept. Without patterns it finds nothing.
    ///
    /// # Errors
    ///
    /// Like [`AhoCorasickBuilder::build`].
    ///
    /// ```
    /// use aho_corasick::{AhoCorasick, Match};
    ///
    /// let searcher = AhoCorasick::new(["append", "app", "end"])?;
    /// let found: Vec<Match> = searcher.find_iter("append").collect();
    /// assert_eq!(found, [Match::must(1, 0..3), Match::must(2, 3..6)]);
    /// # Ok::<(), aho_corasick::BuildError>(())
    /// ```
    pub fn new<I, P>(patterns: I) -> Result<AhoCorasick, BuildError>
    where
        I: IntoIterator<Item = P>,
        P: AsRef<[u8]>,
    {
        AhoCorasick::builder().build(patterns)
    }

    /// A builder, which sets the kind of match, and whether to ignore ASCII case. With [`MatchKind::Standard`], the
    /// default, the first search for every occurrence builds a second array. It often takes about as much time and
    /// memory as the build. [`AhoCorasickBuilder::overlapping`] builds that array at once, and says when it takes more.
    ///
    /// ```
    /// use aho_corasick::{AhoCorasick, Match, MatchKind};
    ///
    /// let mut builder = AhoCorasick::builder();
    /// let searcher = builder.match_kind(MatchKind::LeftmostFirst).ascii_case_insensitive(true).build(["abc", "ab"])?;
    /// assert_eq!(searcher.find("xABC"), Some(Match::must(0, 1..4)));
    /// # Ok::<(), aho_corasick::BuildError>(())
    /// ```
    pub fn builder() -> AhoCorasickBuilder {
        AhoCorasickBuilder::new()
    }

    /// Whether there is a match. The search stops at the first one. The [`StartKind`] leaves out no such search: if it
    /// leaves out anchored ones, the first anchored one builds what they need.
    ///
    /// # Panics
    ///
    /// If memory for that is refused.
    ///
    /// ```
    /// use aho_corasick::AhoCorasick;
    ///
    /// let searcher = AhoCorasick::new(["cat", "dog"])?;
    /// assert!(searcher.is_match("a catalogue"));
    /// assert!(!searcher.is_match("a book"));
    /// # Ok::<(), aho_corasick::BuildError>(())
    /// ```
    #[inline]
    pub fn is_match<'h, I: Into<Input<'h>>>(&self, input: I) -> bool {
        let input = input.into();
        if input.get_anchored().is_anchored() || self.has_empty() {
            return done(self.trie()).is_match(&input);
        }
        self.parts.leftmost.is_match(input.haystack(), input.searched())
    }

    /// The first match, if there is one.
    ///
    /// # Panics
    ///
    /// If the input is anchored, and the [`StartKind`] is `Unanchored`, which is the default; or if the input is not
    /// anchored, and the [`StartKind`] is `Anchored`. By a leftmost kind, the first search for an earliest match that is
    /// not anchored may build a second array, and panics if it can't.
    ///
    /// ```
    /// use aho_corasick::{AhoCorasick, Match, MatchKind};
    ///
    /// let words = ["Sam", "Samwise"];
    /// let standard = AhoCorasick::new(words)?;
    /// let longest = AhoCorasick::builder().match_kind(MatchKind::LeftmostLongest).build(words)?;
    /// assert_eq!(standard.find("Samwise"), Some(Match::must(0, 0..3)));
    /// assert_eq!(longest.find("Samwise"), Some(Match::must(1, 0..7)));
    /// # Ok::<(), aho_corasick::BuildError>(())
    /// ```
    #[inline]
    pub fn find<'h, I: Into<Input<'h>>>(&self, input: I) -> Option<Match> {
        let input = input.into();
        done(self.way(&input)).find(&input)
    }

    /// Like [`AhoCorasick::find`].
    ///
    /// # Errors
    ///
    /// Where that panics.
    ///
    /// ```
    /// use aho_corasick::{AhoCorasick, Anchored, Input, Match, StartKind};
    ///
    /// let searcher = AhoCorasick::builder().start_kind(StartKind::Both).build(["cat"])?;
    /// let input = Input::new("a cat").anchored(Anchored::Yes);
    /// assert_eq!(searcher.try_find(input.clone()), Ok(None));
    /// assert_eq!(searcher.try_find(input.range(2..)), Ok(Some(Match::must(0, 2..5))));
    /// # Ok::<(), aho_corasick::BuildError>(())
    /// ```
    #[inline]
    pub fn try_find<'h, I: Into<Input<'h>>>(&self, input: I) -> Result<Option<Match>, MatchError> {
        let input = input.into();
        Ok(self.way(&input)?.find(&input))
    }

    /// All matches that do not overlap: first that of [`AhoCorasick::find`], and then the first after each match.
    ///
    /// For an input without flags it allocates room for at most 1,024 matches, or for one for each four bytes of the
    /// longest pattern if that is more; and none before the third one. If memory for more than 1,024 is refused, it goes
    /// on with 1,024, which may take longer.
    ///
    /// If the input is anchored, each match begins where the one before ends. But no empty match begins there: if the search
    /// finds one, it goes on one byte later.
    ///
    /// # Panics
    ///
    /// Like [`AhoCorasick::find`].
    ///
    /// ```
    /// use aho_corasick::AhoCorasick;
    ///
    /// let searcher = AhoCorasick::new(["cat", "dog"])?;
    /// let starts: Vec<usize> = searcher.find_iter("dog, cat, dog").map(|it| it.start()).collect();
    /// assert_eq!(starts, [0, 5, 10]);
    /// # Ok::<(), aho_corasick::BuildError>(())
    /// ```
    #[inline]
    pub fn find_iter<'a, 'h, I: Into<Input<'h>>>(&'a self, input: I) -> FindIter<'a, 'h> {
        let input = input.into();
        done(self.way(&input)).find_iter(self, input)
    }

    /// Like [`AhoCorasick::find_iter`].
    ///
    /// # Errors
    ///
    /// Where that panics.
    ///
    /// ```
    /// use aho_corasick::{AhoCorasick, Anchored, Input};
    ///
    /// let searcher = AhoCorasick::new(["cat"])?;
    /// assert_eq!(searcher.try_find_iter("cat, cat").map(Iterator::count), Ok(2));
    /// assert!(searcher.try_find_iter(Input::new("cat").anchored(Anchored::Yes)).is_err());
    /// # Ok::<(), aho_corasick::BuildError>(())
    /// ```
    #[inline]
    pub fn try_find_iter<'a, 'h, I: Into<Input<'h>>>(&'a self, input: I) -> Result<FindIter<'a, 'h>, MatchError> {
        let input = input.into();
        Ok(self.way(&input)?.find_iter(self, input))
    }

    /// The matches that `leftmost` finds in a span.
    #[inline]
    pub(crate) fn leftmost_in<'a, 'h>(&'a self, haystack: &'h [u8], span: Span) -> FindIter<'a, 'h> {
        FindIter::pages(&self.parts.leftmost, haystack, span)
    }

    /// Every occurrence, also overlapping and nested ones: ordered by ends, at one end the longest first, and of equal
    /// patterns the first in the list.
    ///
    /// It allocates room for at most 256 matches, and none before the first one. If more occur within twice the length
    /// of the longest pattern, it is room for at most 4,096, or for those that end at one offset if these are more. The
    /// first search for every occurrence builds a second array, unless the searcher was built with it
    /// ([`AhoCorasickBuilder::overlapping`] says what it costs). Other threads that need it wait; without the feature
    /// `std` each of them builds one, and one is kept.
    ///
    /// # Panics
    ///
    /// If the input is anchored, the kind of match is not [`MatchKind::Standard`], the [`StartKind`] is `Anchored`, or the
    /// second array can't be built.
    ///
    /// ```
    /// use aho_corasick::{AhoCorasick, Match};
    ///
    /// let searcher = AhoCorasick::new(["append", "app", "end"])?;
    /// let found: Vec<Match> = searcher.find_overlapping_iter("append").collect();
    /// assert_eq!(found, [Match::must(1, 0..3), Match::must(0, 0..6), Match::must(2, 3..6)]);
    /// # Ok::<(), aho_corasick::BuildError>(())
    /// ```
    #[inline]
    pub fn find_overlapping_iter<'a, 'h, I: Into<Input<'h>>>(&'a self, input: I) -> FindOverlappingIter<'a, 'h> {
        let input = input.into();
        FindOverlappingIter::new(done(self.every_of(&input)), &input)
    }

    /// Like [`AhoCorasick::find_overlapping_iter`].
    ///
    /// # Errors
    ///
    /// Where that panics. Of several reasons the error names the first of these: the [`StartKind`] leaves out such a
    /// search, the kind of match is not [`MatchKind::Standard`], the input is anchored, the second array can't be built.
    ///
    /// ```
    /// use aho_corasick::{AhoCorasick, MatchKind};
    ///
    /// assert_eq!(AhoCorasick::new(["cats", "cat"])?.try_find_overlapping_iter("cats").map(Iterator::count), Ok(2));
    /// let searcher = AhoCorasick::builder().match_kind(MatchKind::LeftmostFirst).build(["cat"])?;
    /// assert!(searcher.try_find_overlapping_iter("cat").is_err());
    /// # Ok::<(), aho_corasick::BuildError>(())
    /// ```
    pub fn try_find_overlapping_iter<'a, 'h, I: Into<Input<'h>>>(
        &'a self,
        input: I,
    ) -> Result<FindOverlappingIter<'a, 'h>, MatchError> {
        let input = input.into();
        Ok(FindOverlappingIter::new(self.every_of(&input)?, &input))
    }

    /// The search for every occurrence in an input, if one is made.
    #[inline]
    fn every_of(&self, input: &Input<'_>) -> Result<Every<'_>, MatchError> {
        self.check(input.get_anchored())?;
        self.every_by_kind(input)
    }

    /// The same for an automaton, which looks at the kind of match first.
    #[inline]
    pub(crate) fn every_by_kind(&self, input: &Input<'_>) -> Result<Every<'_>, MatchError> {
        self.check_overlapping()?;
        if input.get_anchored().is_anchored() {
            return Err(MatchError::invalid_input_anchored());
        }
        self.check(Anchored::No)?;
        let every = self.every()?;
        let has_few = self.patterns_len() <= FEW_PATTERNS && !self.has_empty();
        Ok(Every { first: Some(&self.parts.leftmost).filter(|_| has_few), ..every })
    }

    /// Finds the next occurrence, in the order of [`AhoCorasick::find_overlapping_iter`]; in an anchored input the next
    /// one that begins at the start of the span. The state has the occurrence, and how far the search has come: pass the
    /// same input with it until there is none.
    ///
    /// A leftmost kind has no overlapping matches. There it finds the first match, and before that the occurrences to which
    /// another one is preferred later: those that a loop over the states of an
    /// [`Automaton`](crate::automaton::Automaton) meets. It is much slower than a search.
    ///
    /// # Panics
    ///
    /// Like [`AhoCorasick::find`], and if the array for every occurrence, or by a leftmost kind the states, can't be built.
    /// It may panic if the haystack has become shorter.
    ///
    /// ```
    /// use aho_corasick::{automaton::OverlappingState, AhoCorasick, Match};
    ///
    /// let (searcher, mut state) = (AhoCorasick::new(["app", "p"])?, OverlappingState::start());
    /// searcher.find_overlapping("app", &mut state);
    /// assert_eq!(state.get_match(), Some(Match::must(1, 1..2)));
    /// searcher.find_overlapping("app", &mut state);
    /// assert_eq!(state.get_match(), Some(Match::must(0, 0..3)));
    /// # Ok::<(), aho_corasick::BuildError>(())
    /// ```
    #[inline]
    pub fn find_overlapping<'h, I: Into<Input<'h>>>(&self, input: I, state: &mut OverlappingState) {
        done(self.try_find_overlapping(input, state))
    }

    /// Like [`AhoCorasick::find_overlapping`].
    ///
    /// # Errors
    ///
    /// Where that panics, except for the haystack.
    ///
    /// ```
    /// use aho_corasick::{automaton::OverlappingState, AhoCorasick, Anchored, Input};
    ///
    /// let (searcher, mut state) = (AhoCorasick::new(["cat"])?, OverlappingState::start());
    /// assert!(searcher.try_find_overlapping("cat", &mut state).is_ok() && state.get_match().is_some());
    /// assert!(searcher.try_find_overlapping(Input::new("cat").anchored(Anchored::Yes), &mut state).is_err());
    /// # Ok::<(), aho_corasick::BuildError>(())
    /// ```
    #[inline]
    pub fn try_find_overlapping<'h, I: Into<Input<'h>>>(
        &self,
        input: I,
        state: &mut OverlappingState,
    ) -> Result<(), MatchError> {
        let input = input.into();
        self.check(input.get_anchored())?;
        if self.parts.kind != MatchKind::Standard {
            state.step_states(self.states()?, &self.parts.pieces, &input);
        } else if input.get_anchored().is_anchored() {
            state.step_anchored(self.trie()?, &input);
        } else {
            state.step(self.every()?, &input);
        }
        Ok(())
    }

    /// Whether the [`StartKind`] has searches that are anchored, or not.
    #[inline]
    pub(crate) fn check(&self, anchored: Anchored) -> Result<(), MatchError> {
        match (self.parts.start_kind, anchored) {
            (StartKind::Unanchored, Anchored::Yes) => Err(MatchError::invalid_input_anchored()),
            (StartKind::Anchored, Anchored::No) => Err(MatchError::invalid_input_unanchored()),
            _ => Ok(()),
        }
    }

    /// Whether streams are searched.
    #[cfg(feature = "std")]
    pub(crate) fn check_stream(&self) -> Result<(), MatchError> {
        self.check(Anchored::No)?;
        self.check_empty()
    }

    /// Whether streams are searched for each of the patterns.
    #[cfg(feature = "std")]
    pub(crate) fn check_empty(&self) -> Result<(), MatchError> {
        if self.has_empty() {
            return Err(MatchError::unsupported_empty());
        }
        Ok(())
    }

    /// Whether the kind of match has overlapping matches.
    #[inline]
    fn check_overlapping(&self) -> Result<(), MatchError> {
        match self.parts.kind {
            MatchKind::Standard => Ok(()),
            kind => Err(MatchError::unsupported_overlapping(kind)),
        }
    }

    /// Whether the search is made, and its match is the one that `leftmost` finds.
    #[inline]
    fn is_plain(&self, input: &Input<'_>) -> bool {
        let is_earliest = input.get_earliest() && self.parts.kind != MatchKind::Standard;
        !is_earliest && !input.get_anchored().is_anchored() && self.parts.has_plain
    }

    /// Whether a pattern is empty. Then there is a match wherever a search begins.
    #[inline]
    pub(crate) fn has_empty(&self) -> bool {
        self.parts.empty.is_some()
    }

    /// What makes a search for matches that do not overlap, if it is made.
    #[inline]
    fn way(&self, input: &Input<'_>) -> Result<Way<'_>, MatchError> {
        if self.is_plain(input) {
            return Ok(Way::Leftmost(&self.parts.leftmost));
        }
        self.way_by_flags(input)
    }

    fn way_by_flags(&self, input: &Input<'_>) -> Result<Way<'_>, MatchError> {
        self.check(input.get_anchored())?;
        if input.get_anchored().is_anchored() || self.has_empty() {
            self.trie().map(Way::Trie)
        } else {
            self.earliest().map(Way::Leftmost)
        }
    }

    /// What makes anchored searches.
    fn trie(&self) -> Result<&Trie, MatchError> {
        let Parts { kind, ignore_case, ref pieces, ref trie, .. } = *self.parts;
        trie.get_or_try(|| Trie::new(kind, ignore_case, pieces)).map_err(not_built)
    }

    /// The states for loops over them, which the first call builds.
    #[inline]
    pub(crate) fn states(&self) -> Result<&States, MatchError> {
        let Parts { kind, ignore_case, ref pieces, ref states, .. } = *self.parts;
        states.get_or_try(|| States::new(kind, ignore_case, pieces)).map_err(not_built)
    }

    /// The match by a leftmost kind in a span, where no pattern is empty.
    #[inline]
    pub(crate) fn plain_match(&self, haystack: &[u8], span: Span) -> Option<Match> {
        self.parts.leftmost.find(haystack, span)
    }

    /// The patterns, and whether case is ignored.
    pub(crate) fn patterns(&self) -> (&Pieces, bool) {
        (&self.parts.pieces, self.parts.ignore_case)
    }

    /// The search for the matches that end first, which the first call builds.
    fn earliest(&self) -> Result<&Leftmost, MatchError> {
        let Parts { ignore_case, ref leftmost, ref pieces, ref earliest, .. } = *self.parts;
        let made = earliest.get_or_try(|| leftmost.earliest(ignore_case, pieces)).map_err(not_built)?;
        Ok(made.as_ref().unwrap_or(leftmost))
    }

    /// The search for every occurrence, which the first call builds.
    #[inline]
    pub(crate) fn every(&self) -> Result<Every<'_>, MatchError> {
        self.check_overlapping()?;
        let Parts { ignore_case, ref empty, ref pieces, ref every, .. } = *self.parts;
        let pieces = empty.as_ref().map_or(pieces, |it| &it.pieces);
        let prepared = every.get_or_try(|| Prepared::overlapping(ignore_case, pieces)).map_err(not_built)?;
        Ok(Every { prepared, pieces, longest: pieces.longest, empty: empty.as_ref(), first: None })
    }

    /// Lists the first known matches from a place on, whatever follows the haystack, or if nothing does; in place of what
    /// was in the list. Returns where the search goes on, and whether no more are known.
    #[cfg(feature = "std")]
    pub(crate) fn find_so_far(&self, haystack: &[u8], at: usize, more: bool, found: &mut Room) -> (usize, bool) {
        // (of the standard kind what ends first does so whatever follows)
        let is_open = more && self.parts.kind == MatchKind::Standard;
        let reached = self.parts.leftmost.known_page(haystack, at, more && !is_open, found);
        if !(is_open && reached.is_last) {
            return (reached.next, reached.is_last);
        }
        let known = found.last().map_or(at, |it| it.end());
        (known.max(haystack.len().saturating_sub(self.max_pattern_len().saturating_sub(1))), true)
    }

    /// The kind that [`AhoCorasickBuilder::kind`] asked for, and otherwise [`AhoCorasickKind::DFA`].
    ///
    /// ```
    /// use aho_corasick::{AhoCorasick, AhoCorasickKind};
    ///
    /// assert_eq!(AhoCorasick::new(["cat"])?.kind(), AhoCorasickKind::DFA);
    /// # Ok::<(), aho_corasick::BuildError>(())
    /// ```
    pub fn kind(&self) -> AhoCorasickKind {
        self.parts.automaton
    }

    /// Which searches are made.
    ///
    /// ```
    /// use aho_corasick::{AhoCorasick, StartKind};
    ///
    /// assert_eq!(AhoCorasick::new(["cat"])?.start_kind(), StartKind::Unanchored);
    /// # Ok::<(), aho_corasick::BuildError>(())
    /// ```
    pub fn start_kind(&self) -> StartKind {
        self.parts.start_kind
    }

    /// Which occurrences are matches.
    ///
    /// ```
    /// use aho_corasick::{AhoCorasick, MatchKind};
    ///
    /// assert_eq!(AhoCorasick::new(["cat"])?.match_kind(), MatchKind::Standard);
    /// # Ok::<(), aho_corasick::BuildError>(())
    /// ```
    pub fn match_kind(&self) -> MatchKind {
        self.parts.kind
    }

    /// How many patterns there are.
    ///
    /// ```
    /// use aho_corasick::AhoCorasick;
    ///
    /// assert_eq!(AhoCorasick::new(["cat", "bird"])?.patterns_len(), 2);
    /// # Ok::<(), aho_corasick::BuildError>(())
    /// ```
    pub fn patterns_len(&self) -> usize {
        self.parts.pieces.len()
    }

    /// The length of a pattern, by its number.
    pub(crate) fn pattern_len(&self, pattern: PatternID) -> usize {
        self.parts.pieces.len_of(pattern.as_u32())
    }

    /// The length of the shortest pattern, and `usize::MAX` without patterns.
    ///
    /// ```
    /// use aho_corasick::AhoCorasick;
    ///
    /// assert_eq!(AhoCorasick::new(["cat", "bird"])?.min_pattern_len(), 3);
    /// # Ok::<(), aho_corasick::BuildError>(())
    /// ```
    pub fn min_pattern_len(&self) -> usize {
        self.parts.pieces.shortest
    }

    /// The length of the longest pattern, and 0 without patterns.
    ///
    /// ```
    /// use aho_corasick::AhoCorasick;
    ///
    /// assert_eq!(AhoCorasick::new(["cat", "bird"])?.max_pattern_len(), 4);
    /// # Ok::<(), aho_corasick::BuildError>(())
    /// ```
    pub fn max_pattern_len(&self) -> usize {
        self.parts.pieces.longest
    }

    /// About how many bytes the searcher takes in memory, with what searches have built.
    ///
    /// ```
    /// use aho_corasick::AhoCorasick;
    ///
    /// assert!(AhoCorasick::new(["cat", "bird"])?.memory_usage() > 100);
    /// # Ok::<(), aho_corasick::BuildError>(())
    /// ```
    pub fn memory_usage(&self) -> usize {
        let Parts { leftmost, earliest, trie, empty, pieces, every, states, .. } = &*self.parts;
        let of_earliest = |it: &Option<Leftmost>| it.as_ref().map_or(0, Leftmost::memory_usage);
        size_of::<Parts>()
            + leftmost.memory_usage()
            + pieces.memory_usage()
            + empty.as_ref().map_or(0, Empty::memory_usage)
            + earliest.memory_usage(of_earliest)
            + trie.memory_usage(Trie::memory_usage)
            + every.memory_usage(Prepared::memory_usage)
            + states.memory_usage(States::memory_usage)
    }
}

fn not_built(why: impl Into<BuildError>) -> MatchError {
    MatchError::new(MatchErrorKind::NotBuilt { why: why.into() })
}

/// What a search returns.
///
/// # Panics
///
/// If it is not made.
#[inline]
pub(crate) fn done<T>(made: Result<T, MatchError>) -> T {
    match made {
        Ok(made) => made,
        Err(why) => not_made(&why),
    }
}

#[cold]
fn not_made(why: &MatchError) -> ! {
    panic!("{why}")
}

impl fmt::Debug for AhoCorasick {
    fn fmt(&self, f: &mut fmt::Formatter<'_>) -> fmt::Result {
        f.debug_struct("AhoCorasick")
            .field("match_kind", &self.parts.kind)
            .field("ascii_case_insensitive", &self.parts.ignore_case)
            .field("patterns_len", &self.patterns_len())
            .finish_non_exhaustive()
    }
}
