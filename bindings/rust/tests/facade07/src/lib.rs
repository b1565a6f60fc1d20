//! The calls of `aho-corasick` 0.7 that regex 1.7.1, globset 0.4.9 and the crates of ripgrep 13 make, over this crate.
//! `bindings/rust/clients` runs the tests of these over it.
use std::marker::PhantomData;

pub use ours::BuildError as Error;
pub use ours::MatchKind;

#[derive(Clone, Copy, Debug)]
pub struct Match(ours::Match);

impl Match {
    pub fn pattern(&self) -> usize {
        self.0.pattern().as_usize()
    }

    pub fn start(&self) -> usize {
        self.0.start()
    }

    pub fn end(&self) -> usize {
        self.0.end()
    }
}

/// A searcher. The type of its states' numbers changes nothing here.
#[derive(Clone, Debug)]
pub struct AhoCorasick<S = usize>(ours::AhoCorasick, PhantomData<S>);

impl AhoCorasick {
    pub fn new_auto_configured<P: AsRef<[u8]>>(patterns: &[P]) -> AhoCorasick {
        AhoCorasickBuilder::new().build_with_size(patterns).unwrap()
    }
}

impl<S> AhoCorasick<S> {
    pub fn find<B: AsRef<[u8]>>(&self, haystack: B) -> Option<Match> {
        self.0.find(haystack.as_ref()).map(Match)
    }

    pub fn find_overlapping_iter<'a, 'h, B: ?Sized + AsRef<[u8]>>(
        &'a self,
        haystack: &'h B,
    ) -> FindOverlappingIter<'a, 'h> {
        FindOverlappingIter(self.0.find_overlapping_iter(haystack))
    }

    pub fn pattern_count(&self) -> usize {
        self.0.patterns_len()
    }

    pub fn heap_bytes(&self) -> usize {
        self.0.memory_usage()
    }
}

#[derive(Debug)]
pub struct FindOverlappingIter<'a, 'h>(ours::FindOverlappingIter<'a, 'h>);

impl Iterator for FindOverlappingIter<'_, '_> {
    type Item = Match;

    fn next(&mut self) -> Option<Match> {
        self.0.next().map(Match)
    }
}

#[derive(Clone, Debug, Default)]
pub struct AhoCorasickBuilder(ours::AhoCorasickBuilder);

impl AhoCorasickBuilder {
    pub fn new() -> AhoCorasickBuilder {
        AhoCorasickBuilder::default()
    }

    pub fn build_with_size<S, I, P>(&self, patterns: I) -> Result<AhoCorasick<S>, Error>
    where
        I: IntoIterator<Item = P>,
        P: AsRef<[u8]>,
    {
        self.0.build(patterns).map(|it| AhoCorasick(it, PhantomData))
    }

    pub fn auto_configure<P: AsRef<[u8]>>(&mut self, _patterns: &[P]) -> &mut AhoCorasickBuilder {
        self
    }

    pub fn match_kind(&mut self, kind: MatchKind) -> &mut AhoCorasickBuilder {
        self.0.match_kind(kind);
        self
    }

    pub fn dfa(&mut self, _yes: bool) -> &mut AhoCorasickBuilder {
        self
    }
}

pub mod packed {
    use super::Match;
    pub use ours::packed::MatchKind;

    #[derive(Clone, Debug)]
    pub struct Config(ours::packed::Config);

    impl Config {
        pub fn new() -> Config {
            Config(ours::packed::Config::new())
        }

        pub fn match_kind(&mut self, kind: MatchKind) -> &mut Config {
            self.0.match_kind(kind);
            self
        }

        pub fn builder(&self) -> Builder {
            Builder(self.0.builder())
        }
    }

    #[derive(Clone, Debug)]
    pub struct Builder(ours::packed::Builder);

    impl Builder {
        pub fn extend<I: IntoIterator<Item = P>, P: AsRef<[u8]>>(&mut self, patterns: I) -> &mut Builder {
            self.0.extend(patterns);
            self
        }

        pub fn build(&self) -> Option<Searcher> {
            self.0.build().map(Searcher)
        }
    }

    #[derive(Clone, Debug)]
    pub struct Searcher(ours::packed::Searcher);

    impl Searcher {
        pub fn find<B: AsRef<[u8]>>(&self, haystack: B) -> Option<Match> {
            self.0.find(haystack).map(Match)
        }

        pub fn heap_bytes(&self) -> usize {
            self.0.memory_usage()
        }
    }
}
