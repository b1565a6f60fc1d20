//! Replacing the matches in a text.
use crate::searcher::done;
use crate::{AhoCorasick, Anchored, Match, MatchError};
use alloc::string::String;
use alloc::vec::Vec;

impl AhoCorasick {
    /// The haystack with each match replaced by the list's item at the number of its pattern. A match that cuts a
    /// character, possible for a pattern that is not UTF-8, stays in the text.
    ///
    /// # Panics
    ///
    /// If the list does not have one replacement for each pattern, or the [`StartKind`](crate::StartKind) is `Anchored`.
    ///
    /// ```
    /// use aho_corasick::AhoCorasick;
    ///
    /// let searcher = AhoCorasick::new(["cat", "dog"])?;
    /// assert_eq!(searcher.replace_all("dog and cat", &["dog", "cat"]), "cat and dog");
    /// # Ok::<(), aho_corasick::BuildError>(())
    /// ```
    pub fn replace_all<B: AsRef<str>>(&self, haystack: &str, replace_with: &[B]) -> String {
        done(self.try_replace_all(haystack, replace_with))
    }

    /// Like [`AhoCorasick::replace_all`].
    ///
    /// # Errors
    ///
    /// If the [`StartKind`](crate::StartKind) is `Anchored`.
    ///
    /// # Panics
    ///
    /// If the list does not have one replacement for each pattern.
    ///
    /// ```
    /// use aho_corasick::AhoCorasick;
    ///
    /// let searcher = AhoCorasick::new(["cat", "dog"])?;
    /// assert_eq!(searcher.try_replace_all("dog and cat", &["dog", "cat"]).unwrap(), "cat and dog");
    /// # Ok::<(), aho_corasick::BuildError>(())
    /// ```
    pub fn try_replace_all<B: AsRef<str>>(&self, haystack: &str, replace_with: &[B]) -> Result<String, MatchError> {
        self.check(Anchored::No)?;
        self.assert_one_for_each(replace_with);
        let mut replaced = String::with_capacity(haystack.len());
        self.try_replace_all_with(haystack, &mut replaced, |found, _, to| {
            to.push_str(replace_with[found.pattern()].as_ref());
            true
        })?;
        Ok(replaced)
    }

    /// Like [`AhoCorasick::replace_all`], for bytes.
    ///
    /// # Panics
    ///
    /// If the list does not have one replacement for each pattern, or the [`StartKind`](crate::StartKind) is `Anchored`.
    ///
    /// ```
    /// use aho_corasick::AhoCorasick;
    ///
    /// let searcher = AhoCorasick::new(["cat", "dog"])?;
    /// assert_eq!(searcher.replace_all_bytes(b"dog and cat", &["dog", "cat"]), b"cat and dog");
    /// # Ok::<(), aho_corasick::BuildError>(())
    /// ```
    pub fn replace_all_bytes<B: AsRef<[u8]>>(&self, haystack: &[u8], replace_with: &[B]) -> Vec<u8> {
        done(self.try_replace_all_bytes(haystack, replace_with))
    }

    /// Like [`AhoCorasick::replace_all_bytes`].
    ///
    /// # Errors
    ///
    /// If the [`StartKind`](crate::StartKind) is `Anchored`.
    ///
    /// # Panics
    ///
    /// If the list does not have one replacement for each pattern.
    ///
    /// ```
    /// use aho_corasick::AhoCorasick;
    ///
    /// let searcher = AhoCorasick::new(["cat", "dog"])?;
    /// assert_eq!(searcher.try_replace_all_bytes(b"dog", &["dog", "cat"]).unwrap(), b"cat");
    /// # Ok::<(), aho_corasick::BuildError>(())
    /// ```
    pub fn try_replace_all_bytes<B: AsRef<[u8]>>(
        &self,
        haystack: &[u8],
        replace_with: &[B],
    ) -> Result<Vec<u8>, MatchError> {
        self.check(Anchored::No)?;
        self.assert_one_for_each(replace_with);
        let mut replaced = Vec::with_capacity(haystack.len());
        self.try_replace_all_with_bytes(haystack, &mut replaced, |found, _, to| {
            to.extend_from_slice(replace_with[found.pattern()].as_ref());
            true
        })?;
        Ok(replaced)
    }

    pub(crate) fn assert_one_for_each<B>(&self, replace_with: &[B]) {
        let (given, wanted) = (replace_with.len(), self.patterns_len());
        assert!(given == wanted, "there are {given} replacements for {wanted} patterns");
    }

    /// Appends the haystack to `dst`; the function appends the replacement of each match. Its arguments are the match,
    /// the matched text, and `dst`. It returns whether to go on: after `false` the rest is appended unchanged.
    ///
    /// A match that cuts a character stays in the text, and the function is not called for it.
    ///
    /// # Panics
    ///
    /// If the [`StartKind`](crate::StartKind) is `Anchored`.
    ///
    /// ```
    /// use aho_corasick::AhoCorasick;
    ///
    /// let searcher = AhoCorasick::new(["cat", "dog"])?;
    /// let mut text = String::new();
    /// searcher.replace_all_with("cat, dog", &mut text, |_, word, text| {
    ///     text.push_str(&word.to_uppercase());
    ///     true
    /// });
    /// assert_eq!(text, "CAT, DOG");
    /// # Ok::<(), aho_corasick::BuildError>(())
    /// ```
    pub fn replace_all_with<F>(&self, haystack: &str, dst: &mut String, replace_with: F)
    where
        F: FnMut(&Match, &str, &mut String) -> bool,
    {
        done(self.try_replace_all_with(haystack, dst, replace_with))
    }

    /// Like [`AhoCorasick::replace_all_with`].
    ///
    /// # Errors
    ///
    /// Where that panics.
    ///
    /// ```
    /// use aho_corasick::AhoCorasick;
    ///
    /// let searcher = AhoCorasick::new(["cat", "dog"])?;
    /// let mut text = String::new();
    /// let replaced = searcher.try_replace_all_with("cat, dog", &mut text, |_, _, text| {
    ///     text.push('-');
    ///     true
    /// });
    /// assert!(replaced.is_ok() && text == "-, -");
    /// # Ok::<(), aho_corasick::BuildError>(())
    /// ```
    pub fn try_replace_all_with<F>(
        &self,
        haystack: &str,
        dst: &mut String,
        mut replace_with: F,
    ) -> Result<(), MatchError>
    where
        F: FnMut(&Match, &str, &mut String) -> bool,
    {
        self.check(Anchored::No)?;
        let mut at = 0;
        let is_text = |it: &Match| haystack.is_char_boundary(it.start()) && haystack.is_char_boundary(it.end());
        for found in self.find_iter(haystack).filter(is_text) {
            dst.push_str(&haystack[at..found.start()]);
            at = found.end();
            if !replace_with(&found, &haystack[found.range()], dst) {
                break;
            }
        }
        dst.push_str(&haystack[at..]);
        Ok(())
    }

    /// Like [`AhoCorasick::replace_all_with`], for bytes, where each match is replaced.
    ///
    /// # Panics
    ///
    /// If the [`StartKind`](crate::StartKind) is `Anchored`.
    ///
    /// ```
    /// use aho_corasick::AhoCorasick;
    ///
    /// let searcher = AhoCorasick::new(["cat", "dog"])?;
    /// let mut bytes = Vec::new();
    /// searcher.replace_all_with_bytes(b"cat, dog", &mut bytes, |_, word, bytes| {
    ///     bytes.push(word[0]);
    ///     true
    /// });
    /// assert_eq!(bytes, b"c, d");
    /// # Ok::<(), aho_corasick::BuildError>(())
    /// ```
    pub fn replace_all_with_bytes<F>(&self, haystack: &[u8], dst: &mut Vec<u8>, replace_with: F)
    where
        F: FnMut(&Match, &[u8], &mut Vec<u8>) -> bool,
    {
        done(self.try_replace_all_with_bytes(haystack, dst, replace_with))
    }

    /// Like [`AhoCorasick::replace_all_with_bytes`].
    ///
    /// # Errors
    ///
    /// Where that panics.
    ///
    /// ```
    /// use aho_corasick::AhoCorasick;
    ///
    /// let searcher = AhoCorasick::new(["cat", "dog"])?;
    /// let mut bytes = Vec::new();
    /// assert!(searcher.try_replace_all_with_bytes(b"cat, dog", &mut bytes, |_, _, _| false).is_ok());
    /// assert_eq!(bytes, b", dog");
    /// # Ok::<(), aho_corasick::BuildError>(())
    /// ```
    pub fn try_replace_all_with_bytes<F>(
        &self,
        haystack: &[u8],
        dst: &mut Vec<u8>,
        mut replace_with: F,
    ) -> Result<(), MatchError>
    where
        F: FnMut(&Match, &[u8], &mut Vec<u8>) -> bool,
    {
        self.check(Anchored::No)?;
        let mut at = 0;
        for found in self.find_iter(haystack) {
            dst.extend_from_slice(&haystack[at..found.start()]);
            at = found.end();
            if !replace_with(&found, &haystack[found.range()], dst) {
                break;
            }
        }
        dst.extend_from_slice(&haystack[at..]);
        Ok(())
    }
}
