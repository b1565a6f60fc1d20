//! Anchored searches, and settings that change no match.

/// Whether a match has to begin where the search begins.
///
/// ```
/// use aho_corasick::{AhoCorasick, Anchored, Input, StartKind};
///
/// let searcher = AhoCorasick::builder().start_kind(StartKind::Both).build(["cat"])?;
/// assert!(searcher.find(Input::new("a cat").anchored(Anchored::No)).is_some());
/// assert!(searcher.find(Input::new("a cat").anchored(Anchored::Yes)).is_none());
/// # Ok::<(), aho_corasick::BuildError>(())
/// ```
#[derive(Clone, Copy, Debug, PartialEq, Eq, Hash)]
#[non_exhaustive]
pub enum Anchored {
    /// It may begin anywhere in the span.
    No,
    /// It begins at the start of the span.
    Yes,
}

impl Anchored {
    /// Whether it is [`Anchored::Yes`].
    ///
    /// ```
    /// use aho_corasick::Anchored;
    ///
    /// assert!(Anchored::Yes.is_anchored() && !Anchored::No.is_anchored());
    /// ```
    pub fn is_anchored(&self) -> bool {
        *self == Anchored::Yes
    }
}

/// Which searches a searcher makes. A search that the value leaves out returns a [`MatchError`](crate::MatchError), or
/// panics. For anchored searches the searcher has a trie of the patterns, which takes at most some 110 bytes for each
/// pattern, and two bytes for each byte of the patterns.
///
/// ```
/// use aho_corasick::{AhoCorasick, Anchored, Input, StartKind};
///
/// let (words, input) = (["cat"], Input::new("cat").anchored(Anchored::Yes));
/// assert!(AhoCorasick::new(words)?.try_find(input.clone()).is_err());
/// assert!(AhoCorasick::builder().start_kind(StartKind::Both).build(words)?.try_find(input).is_ok());
/// # Ok::<(), aho_corasick::BuildError>(())
/// ```
#[derive(Clone, Copy, Debug, Default, PartialEq, Eq)]
pub enum StartKind {
    /// Anchored and unanchored ones.
    Both,
    /// Only unanchored ones.
    #[default]
    Unanchored,
    /// Only anchored ones.
    Anchored,
}

/// The automata of the original. There is one search here, so this changes nothing.
///
/// ```
/// use aho_corasick::{AhoCorasick, AhoCorasickKind};
///
/// let searcher = AhoCorasick::builder().kind(Some(AhoCorasickKind::NoncontiguousNFA)).build(["cat"])?;
/// assert_eq!(searcher.kind(), AhoCorasickKind::NoncontiguousNFA);
/// # Ok::<(), aho_corasick::BuildError>(())
/// ```
#[derive(Clone, Copy, Debug, PartialEq, Eq)]
#[non_exhaustive]
pub enum AhoCorasickKind {
    /// States with lists of transitions.
    NoncontiguousNFA,
    /// The same in one array.
    ContiguousNFA,
    /// One look-up for each byte, as in this crate.
    DFA,
}
