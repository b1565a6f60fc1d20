//! The names of the original's packed search, which is for a few patterns. Here it is the search of [`AhoCorasick`], for
//! any number of them.
//!
//! ```
//! use aho_corasick::{packed::Searcher, Match};
//!
//! let searcher = Searcher::new(["cat", "dog"]).unwrap();
//! assert_eq!(searcher.find("a dog"), Some(Match::must(1, 2..5)));
//! ```
use crate::{AhoCorasick, Input, Match, Span};
use alloc::vec::Vec;

pub use crate::iterators::FindIter;

/// Which occurrences are matches: the leftmost ones, and of several with one start the one that the kind prefers.
///
/// ```
/// use aho_corasick::packed::{MatchKind, Searcher};
///
/// let longest = Searcher::config().match_kind(MatchKind::LeftmostLongest).builder().extend(["Sam", "Samwise"]).build();
/// assert_eq!(longest.unwrap().find("Samwise").map(|it| it.range()), Some(0..7));
/// ```
#[derive(Clone, Copy, Debug, Default, PartialEq, Eq)]
#[non_exhaustive]
pub enum MatchKind {
    /// The earliest pattern in the list.
    #[default]
    LeftmostFirst,
    /// The longest pattern.
    LeftmostLongest,
}

/// The settings of a search.
///
/// ```
/// use aho_corasick::packed::{Config, MatchKind};
///
/// let mut config = Config::new();
/// config.match_kind(MatchKind::LeftmostLongest);
/// assert!(config.builder().add("cat").build().is_some());
/// ```
#[derive(Clone, Debug, Default)]
pub struct Config {
    kind: MatchKind,
}

impl Config {
    /// [`MatchKind::LeftmostFirst`].
    ///
    /// ```
    /// use aho_corasick::packed::Config;
    ///
    /// assert!(Config::new().builder().add("cat").build().is_some());
    /// ```
    pub fn new() -> Config {
        Config::default()
    }

    /// A builder with these settings.
    ///
    /// ```
    /// use aho_corasick::packed::Config;
    ///
    /// let mut builder = Config::new().builder();
    /// assert!(builder.is_empty() && builder.add("cat").len() == 1);
    /// ```
    pub fn builder(&self) -> Builder {
        Builder { kind: self.kind, patterns: Vec::new() }
    }

    /// Sets which occurrences are matches.
    ///
    /// ```
    /// use aho_corasick::packed::{Config, MatchKind};
    ///
    /// let searcher = Config::new().match_kind(MatchKind::LeftmostLongest).builder().add("cat").build().unwrap();
    /// assert_eq!(searcher.match_kind(), &MatchKind::LeftmostLongest);
    /// ```
    pub fn match_kind(&mut self, kind: MatchKind) -> &mut Config {
        self.kind = kind;
        self
    }

    /// Changes nothing: there is no limit to the number of patterns.
    ///
    /// ```
    /// use aho_corasick::packed::Config;
    ///
    /// assert!(Config::new().heuristic_pattern_limits(true).builder().add("cat").build().is_some());
    /// ```
    pub fn heuristic_pattern_limits(&mut self, _yes: bool) -> &mut Config {
        self
    }
}

/// Collects patterns.
///
/// ```
/// use aho_corasick::packed::Builder;
///
/// let searcher = Builder::new().add("cat").add("dog").build().unwrap();
/// assert_eq!(searcher.find_iter("dog, cat").count(), 2);
/// ```
#[derive(Clone, Debug, Default)]
pub struct Builder {
    kind: MatchKind,
    patterns: Vec<Vec<u8>>,
}

impl Builder {
    /// A builder with the settings of [`Config::new`].
    ///
    /// ```
    /// use aho_corasick::packed::Builder;
    ///
    /// assert!(Builder::new().is_empty());
    /// ```
    pub fn new() -> Builder {
        Builder::default()
    }

    /// Adds a pattern. It gets the next number, from 0.
    ///
    /// ```
    /// use aho_corasick::packed::Builder;
    ///
    /// assert_eq!(Builder::new().add("cat").add("dog").len(), 2);
    /// ```
    pub fn add<P: AsRef<[u8]>>(&mut self, pattern: P) -> &mut Builder {
        self.patterns.push(pattern.as_ref().to_vec());
        self
    }

    /// Adds some patterns.
    ///
    /// ```
    /// use aho_corasick::packed::Builder;
    ///
    /// assert_eq!(Builder::new().extend(["cat", "dog"]).len(), 2);
    /// ```
    pub fn extend<I: IntoIterator<Item = P>, P: AsRef<[u8]>>(&mut self, patterns: I) -> &mut Builder {
        self.patterns.extend(patterns.into_iter().map(|it| it.as_ref().to_vec()));
        self
    }

    /// How many patterns there are.
    ///
    /// ```
    /// use aho_corasick::packed::Builder;
    ///
    /// assert_eq!(Builder::new().add("cat").len(), 1);
    /// ```
    pub fn len(&self) -> usize {
        self.patterns.len()
    }

    /// Whether there are no patterns.
    ///
    /// ```
    /// use aho_corasick::packed::Builder;
    ///
    /// assert!(!Builder::new().add("cat").is_empty());
    /// ```
    pub fn is_empty(&self) -> bool {
        self.patterns.is_empty()
    }

    /// The length of the shortest pattern, and `usize::MAX` without patterns.
    ///
    /// ```
    /// use aho_corasick::packed::Builder;
    ///
    /// assert_eq!(Builder::new().extend(["cats", "dog"]).minimum_len(), 3);
    /// ```
    pub fn minimum_len(&self) -> usize {
        self.patterns.iter().map(Vec::len).min().unwrap_or(usize::MAX)
    }

    /// A searcher; or none without patterns, with an empty one, or if [`AhoCorasick`] can't be built.
    ///
    /// ```
    /// use aho_corasick::packed::Builder;
    ///
    /// assert!(Builder::new().add("cat").build().is_some());
    /// assert!(Builder::new().build().is_none() && Builder::new().add("").build().is_none());
    /// ```
    pub fn build(&self) -> Option<Searcher> {
        if self.is_empty() || self.minimum_len() == 0 {
            return None;
        }
        let kind = match self.kind {
            MatchKind::LeftmostFirst => crate::MatchKind::LeftmostFirst,
            MatchKind::LeftmostLongest => crate::MatchKind::LeftmostLongest,
        };
        let searcher = AhoCorasick::builder().match_kind(kind).build(&self.patterns).ok()?;
        Some(Searcher { searcher, kind: self.kind })
    }
}

/// Searches for some patterns.
///
/// ```
/// use aho_corasick::{packed::Searcher, Match};
///
/// let searcher = Searcher::new(["cat", "dog"]).unwrap();
/// assert_eq!(searcher.find("a dog"), Some(Match::must(1, 2..5)));
/// ```
#[derive(Clone, Debug)]
pub struct Searcher {
    searcher: AhoCorasick,
    kind: MatchKind,
}

impl Searcher {
    /// A searcher by [`MatchKind::LeftmostFirst`], if [`Builder::build`] makes one.
    ///
    /// ```
    /// use aho_corasick::packed::Searcher;
    ///
    /// assert!(Searcher::new(["cat"]).is_some());
    /// assert!(Searcher::new([""]).is_none());
    /// ```
    pub fn new<I: IntoIterator<Item = P>, P: AsRef<[u8]>>(patterns: I) -> Option<Searcher> {
        Builder::new().extend(patterns).build()
    }

    /// [`Config::new`].
    ///
    /// ```
    /// use aho_corasick::packed::Searcher;
    ///
    /// assert!(Searcher::config().builder().add("cat").build().is_some());
    /// ```
    pub fn config() -> Config {
        Config::new()
    }

    /// [`Builder::new`].
    ///
    /// ```
    /// use aho_corasick::packed::Searcher;
    ///
    /// assert!(Searcher::builder().add("cat").build().is_some());
    /// ```
    pub fn builder() -> Builder {
        Builder::new()
    }

    /// The first match, if there is one.
    ///
    /// ```
    /// use aho_corasick::{packed::Searcher, Match};
    ///
    /// assert_eq!(Searcher::new(["cat"]).unwrap().find("a cat"), Some(Match::must(0, 2..5)));
    /// ```
    #[inline]
    pub fn find<B: AsRef<[u8]>>(&self, haystack: B) -> Option<Match> {
        let haystack = haystack.as_ref();
        self.searcher.plain_match(haystack, Span { start: 0, end: haystack.len() })
    }

    /// The first match in a span, if there is one.
    ///
    /// # Panics
    ///
    /// Like [`Input::set_span`].
    ///
    /// ```
    /// use aho_corasick::{packed::Searcher, Match, Span};
    ///
    /// let searcher = Searcher::new(["cat"]).unwrap();
    /// assert_eq!(searcher.find_in("cat, cat", Span { start: 1, end: 8 }), Some(Match::must(0, 5..8)));
    /// assert_eq!(searcher.find_in("cat, cat", Span { start: 1, end: 7 }), None);
    /// ```
    #[inline]
    pub fn find_in<B: AsRef<[u8]>>(&self, haystack: B, span: Span) -> Option<Match> {
        let haystack = haystack.as_ref();
        self.searcher.plain_match(haystack, Input::new(haystack).span(span).searched())
    }

    /// All matches that do not overlap.
    ///
    /// ```
    /// use aho_corasick::packed::Searcher;
    ///
    /// let searcher = Searcher::new(["cat", "dog"]).unwrap();
    /// let starts: Vec<usize> = searcher.find_iter("dog, cat").map(|it| it.start()).collect();
    /// assert_eq!(starts, [0, 5]);
    /// ```
    #[inline]
    pub fn find_iter<'a, 'h, B: ?Sized + AsRef<[u8]>>(&'a self, haystack: &'h B) -> FindIter<'a, 'h> {
        self.searcher.find_iter(haystack)
    }

    /// Which occurrences are matches.
    ///
    /// ```
    /// use aho_corasick::packed::{MatchKind, Searcher};
    ///
    /// assert_eq!(Searcher::new(["cat"]).unwrap().match_kind(), &MatchKind::LeftmostFirst);
    /// ```
    pub fn match_kind(&self) -> &MatchKind {
        &self.kind
    }

    /// The length below which a haystack is searched in another way: none is, so it is 0.
    ///
    /// ```
    /// use aho_corasick::packed::Searcher;
    ///
    /// assert_eq!(Searcher::new(["cat"]).unwrap().minimum_len(), 0);
    /// ```
    pub fn minimum_len(&self) -> usize {
        0
    }

    /// About how many bytes the searcher takes in memory.
    ///
    /// ```
    /// use aho_corasick::packed::Searcher;
    ///
    /// assert!(Searcher::new(["cat"]).unwrap().memory_usage() > 0);
    /// ```
    pub fn memory_usage(&self) -> usize {
        self.searcher.memory_usage()
    }
}
