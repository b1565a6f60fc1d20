//! Every occurrence, one after another.
use crate::declared::{MATCH_STATE, START_STATE};
use crate::empty::{Empty, EmptyOccurrences};
use crate::leftmost::Leftmost;
use crate::library::{Prepared, Reached, FEW};
use crate::pieces::Pieces;
use crate::states::{States, Steps};
use crate::trie::{Beginning, Trie};
use crate::{Input, Match, PatternID, Span};
use alloc::vec::Vec;
use core::fmt;
use core::iter::FusedIterator;

/// The length of the parts that are searched, first and later.
const FIRST_PART: usize = 256;
const PART: usize = 1 << 16;

/// How many occurrences a page has at most, after the first one, unless more lie within twice the longest pattern.
const MANY: usize = 256;

/// How many occurrences a page has at most, with any pattern. Where more lie within twice the longest pattern, the
/// search by states also takes less time.
const MOST: usize = 4096;

/// The least gap between occurrences, in bytes, after which the search by states ends.
const GAP: usize = 4096;

/// Where every occurrence is searched for: an array for that, its patterns, and the length of the longest one.
#[derive(Clone, Copy)]
pub(crate) struct Every<'a> {
    pub prepared: &'a Prepared,
    pub pieces: &'a Pieces,
    pub longest: usize,
    /// The empty patterns, which the array lacks.
    pub empty: Option<&'a Empty>,
    /// What finds the occurrence that ends first, if that is faster.
    pub first: Option<&'a Leftmost>,
}

/// Every occurrence, of [`AhoCorasick::find_overlapping_iter`](crate::AhoCorasick::find_overlapping_iter).
///
/// ```
/// use aho_corasick::{AhoCorasick, FindOverlappingIter};
///
/// let searcher = AhoCorasick::new(["cats", "cat"])?;
/// let occurrences: FindOverlappingIter<'_, '_> = searcher.find_overlapping_iter("cats");
/// assert_eq!(occurrences.map(|it| it.end()).collect::<Vec<_>>(), [3, 4]);
/// # Ok::<(), aho_corasick::BuildError>(())
/// ```
#[derive(Clone)]
pub struct FindOverlappingIter<'a, 'h> {
    every: Every<'a>,
    haystack: &'h [u8],
    occurrences: Occurrences,
}

impl<'a, 'h> FindOverlappingIter<'a, 'h> {
    #[inline]
    pub(crate) fn new(every: Every<'a>, input: &Input<'h>) -> Self {
        FindOverlappingIter { every, haystack: input.haystack(), occurrences: Occurrences::new(input) }
    }
}

impl Iterator for FindOverlappingIter<'_, '_> {
    type Item = Match;

    #[inline]
    fn next(&mut self) -> Option<Match> {
        self.occurrences.next(self.every, self.haystack)
    }
}

impl FusedIterator for FindOverlappingIter<'_, '_> {}

impl fmt::Debug for FindOverlappingIter<'_, '_> {
    fn fmt(&self, f: &mut fmt::Formatter<'_>) -> fmt::Result {
        f.debug_struct("FindOverlappingIter").field("occurrences", &self.occurrences).finish_non_exhaustive()
    }
}

/// How far a search for every occurrence has come, of
/// [`AhoCorasick::find_overlapping`](crate::AhoCorasick::find_overlapping).
///
/// ```
/// use aho_corasick::{automaton::OverlappingState, AhoCorasick};
///
/// let (searcher, mut state, mut count) = (AhoCorasick::new(["cats", "cat"])?, OverlappingState::start(), 0);
/// loop {
///     searcher.find_overlapping("cats", &mut state);
///     if state.get_match().is_none() {
///         break;
///     }
///     count += 1;
/// }
/// assert_eq!(count, 2);
/// # Ok::<(), aho_corasick::BuildError>(())
/// ```
#[derive(Clone, Debug, Default)]
pub struct OverlappingState {
    way: Option<Way>,
    found: Option<Match>,
}

#[derive(Clone, Debug)]
enum Way {
    Every(Occurrences),
    /// In an anchored input.
    Beginning(Beginning),
    /// By a leftmost kind.
    States(Steps),
}

impl OverlappingState {
    /// The state of a search that has not begun.
    ///
    /// ```
    /// use aho_corasick::automaton::OverlappingState;
    ///
    /// assert_eq!(OverlappingState::start().get_match(), None);
    /// ```
    pub fn start() -> OverlappingState {
        OverlappingState::default()
    }

    /// The occurrence that the last call found, if it found one.
    ///
    /// ```
    /// use aho_corasick::{automaton::OverlappingState, AhoCorasick, Match};
    ///
    /// let (searcher, mut state) = (AhoCorasick::new(["cat"])?, OverlappingState::start());
    /// searcher.find_overlapping("a cat", &mut state);
    /// assert_eq!(state.get_match(), Some(Match::must(0, 2..5)));
    /// # Ok::<(), aho_corasick::BuildError>(())
    /// ```
    pub fn get_match(&self) -> Option<Match> {
        self.found
    }

    /// Finds the next occurrence.
    pub(crate) fn step(&mut self, every: Every<'_>, input: &Input<'_>) {
        self.found = match self.way.get_or_insert_with(|| Way::Every(Occurrences::new(input))) {
            Way::Every(occurrences) => occurrences.next(every, input.haystack()),
            _ => None,
        };
    }

    /// Finds the next occurrence at the start of an anchored input.
    pub(crate) fn step_anchored(&mut self, trie: &Trie, input: &Input<'_>) {
        self.found = match self.way.get_or_insert_with(|| Way::Beginning(Beginning::new(trie, input))) {
            Way::Beginning(beginning) => beginning.next(trie, input),
            _ => None,
        };
    }

    /// Finds the next occurrence that a loop over states meets.
    pub(crate) fn step_states(&mut self, states: &States, pieces: &Pieces, input: &Input<'_>) {
        self.found = match self.way.get_or_insert_with(|| Way::States(Steps::new(states, input))) {
            Way::States(steps) => steps.next(states, pieces, input),
            _ => None,
        };
    }
}

/// How far a search for every occurrence of any pattern has come.
#[derive(Clone, Debug)]
struct Occurrences {
    walk: Walk,
    empty: EmptyOccurrences,
}

impl Occurrences {
    #[inline]
    fn new(input: &Input<'_>) -> Occurrences {
        Occurrences { walk: Walk::new(input), empty: EmptyOccurrences::new(input) }
    }

    #[inline]
    fn next(&mut self, every: Every<'_>, haystack: &[u8]) -> Option<Match> {
        match every.empty {
            None => self.walk.next(every, haystack),
            Some(empty) => self.empty.next(empty, || self.walk.next(every, haystack)),
        }
    }
}

/// How far a search for every occurrence of the patterns that are not empty has come.
///
/// The haystack is searched in parts. To find the occurrences that end in a part, the search begins the length of the
/// longest pattern before it, so that occurrences from earlier parts lie whole in the searched bytes. Parts become
/// longer than that pattern, so the time is linear in the haystack and its occurrences, however long patterns are.
///
/// That needs room for the occurrences within twice the length of the pattern. If these are too many, or the room is
/// refused, the search goes on by states, with two calls for each offset at which a pattern ends. This needs room for
/// the occurrences that end there. Parts begin again after a gap at least as long as the pattern: so their first bytes,
/// which are read again, are no more than the bytes of the gap.
#[derive(Clone)]
struct Walk {
    span: Span,
    /// Occurrences that end up to here are found: they are in the room, or were given before.
    reached: usize,
    part: usize,
    /// How many occurrences the next page has at most.
    most: usize,
    page: Vec<Match>,
    /// Those of the page up to here were given, or end in an earlier part.
    given: usize,
    /// The state after the bytes up to `reached`, if the search goes on by states.
    state: Option<u32>,
    /// Room for the numbers of the patterns that end in a state.
    numbers: Vec<usize>,
}

impl Walk {
    #[inline]
    fn new(input: &Input<'_>) -> Walk {
        let (span, page, numbers) = (input.searched(), Vec::new(), Vec::new());
        Walk { span, reached: span.start, part: FIRST_PART, most: FEW, page, given: 0, state: None, numbers }
    }

    #[inline]
    fn next(&mut self, every: Every<'_>, haystack: &[u8]) -> Option<Match> {
        while self.given == self.page.len() {
            if self.reached == self.span.end {
                return None;
            }
            match self.state {
                Some(state) => self.step(every, haystack, state),
                None => self.turn(every, haystack),
            }
        }
        let found = self.page[self.given];
        self.given += 1;
        Some(found)
    }

    /// Finds the occurrences that end in the next part, or in as much of it as a page has room for.
    fn turn(&mut self, every: Every<'_>, haystack: &[u8]) {
        if let Some(first) = every.first.filter(|_| self.reached == self.span.start) {
            let found = first.find(haystack, self.span);
            self.reached = found.map_or(self.span.end, |it| it.end() - 1);
            if found.is_none() {
                return;
            }
        }
        let start = (self.reached + 1).saturating_sub(every.longest.max(1)).max(self.span.start);
        let end = self.reached.saturating_add(self.part).min(self.span.end);
        let page = match self.fill(every, haystack, Span { start, end }) {
            Some(page) => page,
            None => return self.begin_states(every, haystack, start),
        };
        put_longest_first(&mut self.page);
        self.given = self.page.partition_point(|it| it.end() <= self.reached);
        // (more than the page has may end where its last one does)
        self.reached = if page.is_last { end } else { page.next - 1 };
        self.page.truncate(self.page.partition_point(|it| it.end() <= self.reached));
        self.part = (2 * self.part).min(PART.max(every.longest.saturating_mul(4)));
        if !page.is_last {
            self.most = self.most.max(MANY);
        }
    }

    /// Finds a page of occurrences in a span. It grows until it has all, or goes farther beyond `reached` than the span
    /// begins before it, so that not much is read again. There is none if that takes too much room.
    fn fill(&mut self, every: Every<'_>, haystack: &[u8], span: Span) -> Option<Reached> {
        let least = 2 * self.reached - span.start;
        while self.has_room() {
            let page = every.prepared.overlapping_page(haystack, span, self.most, &mut self.page);
            if page.is_last || least + 1 < page.next {
                return Some(page);
            }
            self.most = MANY.max(2 * self.most);
        }
        None
    }

    /// Whether the page has its room, or gets it. (Little room is allocated once an occurrence is found.)
    fn has_room(&mut self) -> bool {
        self.page.clear();
        self.most <= FEW || self.most <= MOST && self.page.try_reserve_exact(self.most).is_ok()
    }

    /// Goes on by states, from the one after the bytes up to `reached`, of which no occurrence that ends later begins
    /// before the start.
    fn begin_states(&mut self, every: Every<'_>, haystack: &[u8], start: usize) {
        let (mut state, mut at) = (START_STATE, start);
        while at < self.reached {
            (state, at) = every.prepared.walk(state, haystack, Span { start: at, end: self.reached });
        }
        (self.state, self.page, self.given) = (Some(state), Vec::new(), 0);
    }

    /// Finds the occurrences that end at the next offset at which a pattern ends. After a gap parts begin again.
    fn step(&mut self, every: Every<'_>, haystack: &[u8], state: u32) {
        let end = self.reached.saturating_add(every.longest.max(GAP)).min(self.span.end);
        let (state, end) = every.prepared.walk(state, haystack, Span { start: self.reached, end });
        self.state = Some(state).filter(|it| *it >= MATCH_STATE);
        (self.reached, self.given, self.most) = (end, 0, MANY);
        self.list(every, state, end);
        put_longest_first(&mut self.page);
    }

    /// Lists the occurrences that end where a state is reached.
    fn list(&mut self, every: Every<'_>, state: u32, end: usize) {
        let count = every.prepared.patterns_at(state, &mut self.numbers);
        if self.numbers.len() < count {
            self.numbers.resize(count, 0);
            every.prepared.patterns_at(state, &mut self.numbers);
        }
        let numbers = self.numbers[..count].iter().map(|it| PatternID::of(*it));
        self.page.clear();
        self.page.extend(numbers.map(|it| Match::new(it, Span { start: end - every.pieces.len_of(it.as_u32()), end })));
    }
}

/// Sorts matches with one end: the longest first, and of equal patterns the first in the list.
fn put_longest_first(matches: &mut [Match]) {
    let mut at = 0;
    while at < matches.len() {
        let end = matches[at].end();
        let count = matches[at..].iter().take_while(|it| it.end() == end).count();
        if count > 1 {
            matches[at..at + count].sort_unstable_by_key(|it| (it.start(), it.pattern()));
        }
        at += count;
    }
}

impl fmt::Debug for Walk {
    fn fmt(&self, f: &mut fmt::Formatter<'_>) -> fmt::Result {
        f.debug_struct("Walk").field("span", &self.span).field("reached", &self.reached).finish_non_exhaustive()
    }
}
