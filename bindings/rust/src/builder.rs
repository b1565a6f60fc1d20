//! The builder of searchers.
use crate::empty::Empty;
use crate::lazy::Lazy;
use crate::leftmost::Leftmost;
use crate::library::Prepared;
use crate::pieces::Pieces;
use crate::prefilter::Prefilter;
use crate::searcher::Parts;
use crate::trie::Trie;
use crate::{AhoCorasick, AhoCorasickKind, BuildError, MatchKind, StartKind};

/// Builds searchers.
///
/// ```
/// use aho_corasick::{AhoCorasick, Match, MatchKind};
///
/// let searcher = AhoCorasick::builder()
///     .match_kind(MatchKind::LeftmostFirst)
///     .ascii_case_insensitive(true)
///     .build(["apple", "maple", "snapple"])?;
/// assert_eq!(searcher.find("A Snapple."), Some(Match::must(2, 2..9)));
/// # Ok::<(), aho_corasick::BuildError>(())
/// ```
#[derive(Clone, Debug)]
pub struct AhoCorasickBuilder {
    kind: MatchKind,
    ignore_case: bool,
    start_kind: StartKind,
    automaton: Option<AhoCorasickKind>,
    has_prefilter: bool,
    has_overlapping: bool,
}

impl Default for AhoCorasickBuilder {
    fn default() -> AhoCorasickBuilder {
        AhoCorasickBuilder::new()
    }
}

impl AhoCorasickBuilder {
    /// A builder with [`MatchKind::Standard`], case kept, and [`StartKind::Unanchored`].
    ///
    /// ```
    /// use aho_corasick::{AhoCorasick, AhoCorasickBuilder};
    ///
    /// let searcher: AhoCorasick = AhoCorasickBuilder::new().build(["cat"])?;
    /// assert!(searcher.is_match("a cat") && !searcher.is_match("a Cat"));
    /// # Ok::<(), aho_corasick::BuildError>(())
    /// ```
    pub fn new() -> AhoCorasickBuilder {
        AhoCorasickBuilder {
            kind: MatchKind::default(),
            ignore_case: false,
            start_kind: StartKind::default(),
            automaton: None,
            has_prefilter: true,
            has_overlapping: false,
        }
    }

    /// Sets which occurrences are matches.
    ///
    /// ```
    /// use aho_corasick::{AhoCorasick, MatchKind};
    ///
    /// let searcher = AhoCorasick::builder().match_kind(MatchKind::LeftmostLongest).build(["Sam", "Samwise"])?;
    /// assert_eq!(searcher.find("Samwise").map(|it| it.range()), Some(0..7));
    /// # Ok::<(), aho_corasick::BuildError>(())
    /// ```
    pub fn match_kind(&mut self, kind: MatchKind) -> &mut AhoCorasickBuilder {
        self.kind = kind;
        self
    }

    /// Sets whether A to Z equal a to z, in patterns and haystacks. Other letters are compared as they are.
    ///
    /// ```
    /// use aho_corasick::AhoCorasick;
    ///
    /// let searcher = AhoCorasick::builder().ascii_case_insensitive(true).build(["été"])?;
    /// assert!(searcher.is_match("éTé") && !searcher.is_match("ÉTÉ"));
    /// # Ok::<(), aho_corasick::BuildError>(())
    /// ```
    pub fn ascii_case_insensitive(&mut self, yes: bool) -> &mut AhoCorasickBuilder {
        self.ignore_case = yes;
        self
    }

    /// Sets which searches are made: a searcher by [`StartKind::Unanchored`] makes no anchored ones, and one by
    /// [`StartKind::Anchored`] makes no others.
    ///
    /// ```
    /// use aho_corasick::{AhoCorasick, Anchored, Input, StartKind};
    ///
    /// let searcher = AhoCorasick::builder().start_kind(StartKind::Anchored).build(["cat"])?;
    /// assert!(searcher.find(Input::new("cat").anchored(Anchored::Yes)).is_some());
    /// assert!(searcher.try_find("cat").is_err());
    /// # Ok::<(), aho_corasick::BuildError>(())
    /// ```
    pub fn start_kind(&mut self, kind: StartKind) -> &mut AhoCorasickBuilder {
        self.start_kind = kind;
        self
    }

    /// Sets what [`AhoCorasick::kind`] returns, and nothing else.
    ///
    /// ```
    /// use aho_corasick::{AhoCorasick, AhoCorasickKind};
    ///
    /// let searcher = AhoCorasick::builder().kind(Some(AhoCorasickKind::ContiguousNFA)).build(["cat"])?;
    /// assert_eq!(searcher.kind(), AhoCorasickKind::ContiguousNFA);
    /// # Ok::<(), aho_corasick::BuildError>(())
    /// ```
    pub fn kind(&mut self, kind: Option<AhoCorasickKind>) -> &mut AhoCorasickBuilder {
        self.automaton = kind;
        self
    }

    /// Sets whether an automaton has a [`Prefilter`] for the caller's own loops over its states. It changes no search:
    /// the library decides which candidates it looks for first.
    ///
    /// ```
    /// use aho_corasick::{automaton::Automaton, dfa::DFA};
    ///
    /// assert!(DFA::new(["cat"])?.prefilter().is_some());
    /// assert!(DFA::builder().prefilter(false).build(["cat"])?.prefilter().is_none());
    /// # Ok::<(), aho_corasick::BuildError>(())
    /// ```
    pub fn prefilter(&mut self, yes: bool) -> &mut AhoCorasickBuilder {
        self.has_prefilter = yes;
        self
    }

    /// Changes nothing: every state has one look-up for each byte.
    ///
    /// ```
    /// use aho_corasick::AhoCorasick;
    ///
    /// assert!(AhoCorasick::builder().dense_depth(3).build(["cat"])?.is_match("a cat"));
    /// # Ok::<(), aho_corasick::BuildError>(())
    /// ```
    pub fn dense_depth(&mut self, _depth: usize) -> &mut AhoCorasickBuilder {
        self
    }

    /// Changes nothing: bytes that no pattern has always share one number.
    ///
    /// ```
    /// use aho_corasick::AhoCorasick;
    ///
    /// assert!(AhoCorasick::builder().byte_classes(false).build(["cat"])?.is_match("a cat"));
    /// # Ok::<(), aho_corasick::BuildError>(())
    /// ```
    pub fn byte_classes(&mut self, _yes: bool) -> &mut AhoCorasickBuilder {
        self
    }

    /// Sets whether [`AhoCorasickBuilder::build`] also builds the second array, which searches for every occurrence
    /// need. Otherwise the first of these searches builds it, which often takes about as much time as `build`; if memory
    /// is refused, it panics, or returns a [`MatchError`](crate::MatchError). (The original has no such setting.)
    ///
    /// The second array has all patterns. The first one lacks those in which another one ends before the last byte. For
    /// lists with many of these, the second one is larger. It has a row for each different prefix of the patterns, and the
    /// first one for each different suffix. So it is also larger if many patterns end alike, and smaller if they begin
    /// alike. Otherwise it is about as large.
    ///
    /// By the leftmost kinds, and with [`StartKind::Anchored`], there are no such searches, and this changes nothing.
    ///
    /// ```
    /// use aho_corasick::AhoCorasick;
    ///
    /// let searcher = AhoCorasick::builder().overlapping(true).build(["append", "app", "end"])?;
    /// let before = searcher.memory_usage();
    /// assert_eq!(searcher.find_overlapping_iter("append").count(), 3);
    /// assert_eq!(searcher.memory_usage(), before);
    /// # Ok::<(), aho_corasick::BuildError>(())
    /// ```
    pub fn overlapping(&mut self, yes: bool) -> &mut AhoCorasickBuilder {
        self.has_overlapping = yes;
        self
    }

    /// A searcher for some patterns, which are numbered from 0. Without patterns it finds nothing. An empty pattern
    /// matches at each offset, also at the end.
    ///
    /// # Errors
    ///
    /// If there are more than [`PatternID::LIMIT`](crate::PatternID::LIMIT), memory is refused, the table of the search
    /// would have 2^31 entries or more, or the processor lacks the instructions that the library needs. (If the last
    /// request, of some hundred bytes, is refused, the program ends, as with Rust's collections.)
    ///
    /// ```
    /// use aho_corasick::AhoCorasick;
    ///
    /// let searcher = AhoCorasick::builder().build(vec![String::from("cat"), String::from("dog")])?;
    /// assert_eq!(searcher.patterns_len(), 2);
    /// # Ok::<(), aho_corasick::BuildError>(())
    /// ```
    pub fn build<I, P>(&self, patterns: I) -> Result<AhoCorasick, BuildError>
    where
        I: IntoIterator<Item = P>,
        P: AsRef<[u8]>,
    {
        let AhoCorasickBuilder { kind, ignore_case, start_kind, automaton, .. } = *self;
        let pieces = Pieces::new(patterns)?;
        let empty = Empty::of(&pieces)?;
        let needs_trie = start_kind != StartKind::Unanchored || empty.is_some();
        let trie = if needs_trie { Lazy::of(Trie::new(kind, ignore_case, &pieces)?) } else { Lazy::new() };
        // (with an empty pattern the trie makes all of its searches)
        let none = Pieces::default();
        let leftmost = Leftmost::new(kind, ignore_case, if empty.is_some() { &none } else { &pieces })?;
        let is_overlapping = kind == MatchKind::Standard && start_kind != StartKind::Anchored;
        let every = if self.has_overlapping && is_overlapping {
            Lazy::of(Prepared::overlapping(ignore_case, empty.as_ref().map_or(&pieces, |it| &it.pieces))?)
        } else {
            Lazy::new()
        };
        Ok(AhoCorasick::of(Parts {
            kind,
            start_kind,
            automaton: automaton.unwrap_or(AhoCorasickKind::DFA),
            ignore_case,
            has_plain: start_kind != StartKind::Anchored && empty.is_none(),
            leftmost,
            earliest: Lazy::new(),
            trie,
            empty,
            pieces,
            every,
            states: Lazy::new(),
        }))
    }

    /// A searcher for the patterns of another one, by its kind of match and its case.
    pub(crate) fn build_from(&self, other: &AhoCorasick) -> Result<AhoCorasick, BuildError> {
        let (pieces, ignore_case) = other.patterns();
        let mut builder = self.clone();
        builder.match_kind(other.match_kind()).ascii_case_insensitive(ignore_case);
        builder.build((0..pieces.len() as u32).map(|it| pieces.get(it)))
    }

    /// A searcher with a prefilter for loops over states, if it has one.
    pub(crate) fn build_with_prefilter<I, P>(&self, patterns: I) -> Result<(AhoCorasick, Option<Prefilter>), BuildError>
    where
        I: IntoIterator<Item = P>,
        P: AsRef<[u8]>,
    {
        let searcher = self.build(patterns)?;
        let prefilter = if self.has_prefilter { Prefilter::of(&searcher) } else { None };
        Ok((searcher, prefilter))
    }
}
