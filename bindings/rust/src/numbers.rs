//! The numbers of patterns and of states.
use alloc::vec::Vec;
use core::fmt;
use core::ops::{Index, IndexMut};

/// Declares a number of something, and the error of one that is too great.
macro_rules! number {
    ($(#[$doc:meta])* $name:ident, $(#[$doc_of_error:meta])* $error:ident, $what:literal) => {
        $(#[$doc])*
        #[derive(Clone, Copy, Debug, Default, PartialEq, Eq, PartialOrd, Ord, Hash)]
        pub struct $name(u32);

        impl $name {
            /// The first number.
            ///
            /// ```
            #[doc = concat!("use aho_corasick::automaton::", stringify!($name), " as ID;")]
            ///
            /// assert_eq!(ID::ZERO, ID::must(0));
            /// ```
            pub const ZERO: $name = $name(0);

            /// The greatest number, 2147483646.
            ///
            /// ```
            #[doc = concat!("use aho_corasick::automaton::", stringify!($name), " as ID;")]
            ///
            /// assert_eq!(ID::MAX.as_usize(), 2147483646);
            /// ```
            pub const MAX: $name = $name(i32::MAX as u32 - 1);

            /// How many numbers there are.
            ///
            /// ```
            #[doc = concat!("use aho_corasick::automaton::", stringify!($name), " as ID;")]
            ///
            /// assert_eq!(ID::LIMIT, ID::MAX.one_more());
            /// ```
            pub const LIMIT: usize = $name::MAX.0 as usize + 1;

            #[doc = concat!("How many bytes [`", stringify!($name), "::to_ne_bytes`] has.")]
            ///
            /// ```
            #[doc = concat!("use aho_corasick::automaton::", stringify!($name), " as ID;")]
            ///
            /// assert_eq!(ID::SIZE, ID::ZERO.to_ne_bytes().len());
            /// ```
            pub const SIZE: usize = 4;

            #[doc = concat!("The number, unless it is above [`", stringify!($name), "::MAX`].")]
            ///
            /// ```
            #[doc = concat!("use aho_corasick::automaton::", stringify!($name), " as ID;")]
            ///
            /// assert!(ID::new(7).is_ok() && ID::new(ID::LIMIT).is_err());
            /// ```
            pub const fn new(number: usize) -> Result<$name, $error> {
                if number < $name::LIMIT {
                    Ok($name(number as u32))
                } else {
                    Err($error(number as u64))
                }
            }

            /// The number.
            ///
            /// # Panics
            ///
            #[doc = concat!("If it is above [`", stringify!($name), "::MAX`].")]
            ///
            /// ```
            #[doc = concat!("use aho_corasick::automaton::", stringify!($name), " as ID;")]
            ///
            /// assert_eq!(ID::must(7).as_usize(), 7);
            /// ```
            pub fn must(number: usize) -> $name {
                $name::new(number).expect(concat!($what, " has so great a number"))
            }

            /// The lower 32 bits of a number, whatever they are.
            ///
            /// ```
            #[doc = concat!("use aho_corasick::automaton::", stringify!($name), " as ID;")]
            ///
            /// assert_eq!(ID::new_unchecked(7), ID::must(7));
            /// ```
            pub const fn new_unchecked(number: usize) -> $name {
                $name(number as u32)
            }

            /// A number, whatever it is.
            ///
            /// ```
            #[doc = concat!("use aho_corasick::automaton::", stringify!($name), " as ID;")]
            ///
            /// assert_eq!(ID::from_u32_unchecked(7), ID::must(7));
            /// ```
            pub const fn from_u32_unchecked(number: u32) -> $name {
                $name(number)
            }

            #[doc = concat!(
                "The number of these bytes, in the machine's order, unless it is above [`", stringify!($name), "::MAX`]."
            )]
            ///
            /// ```
            #[doc = concat!("use aho_corasick::automaton::", stringify!($name), " as ID;")]
            ///
            /// assert_eq!(ID::from_ne_bytes(7_u32.to_ne_bytes()), Ok(ID::must(7)));
            /// ```
            pub fn from_ne_bytes(bytes: [u8; 4]) -> Result<$name, $error> {
                $name::try_from(u32::from_ne_bytes(bytes))
            }

            /// The number of these bytes, in the machine's order, whatever it is.
            ///
            /// ```
            #[doc = concat!("use aho_corasick::automaton::", stringify!($name), " as ID;")]
            ///
            /// assert_eq!(ID::from_ne_bytes_unchecked(7_u32.to_ne_bytes()), ID::must(7));
            /// ```
            pub fn from_ne_bytes_unchecked(bytes: [u8; 4]) -> $name {
                $name(u32::from_ne_bytes(bytes))
            }

            /// The bytes of the number, in the machine's order.
            ///
            /// ```
            #[doc = concat!("use aho_corasick::automaton::", stringify!($name), " as ID;")]
            ///
            /// assert_eq!(ID::must(7).to_ne_bytes(), 7_u32.to_ne_bytes());
            /// ```
            pub fn to_ne_bytes(&self) -> [u8; 4] {
                self.0.to_ne_bytes()
            }

            /// The number as a `usize`.
            ///
            /// ```
            #[doc = concat!("use aho_corasick::automaton::", stringify!($name), " as ID;")]
            ///
            /// assert_eq!(ID::must(7).as_usize(), 7);
            /// ```
            #[inline]
            pub const fn as_usize(&self) -> usize {
                self.0 as usize
            }

            /// The number as a `u64`.
            ///
            /// ```
            #[doc = concat!("use aho_corasick::automaton::", stringify!($name), " as ID;")]
            ///
            /// assert_eq!(ID::must(7).as_u64(), 7);
            /// ```
            pub const fn as_u64(&self) -> u64 {
                self.0 as u64
            }

            /// The number as a `u32`.
            ///
            /// ```
            #[doc = concat!("use aho_corasick::automaton::", stringify!($name), " as ID;")]
            ///
            /// assert_eq!(ID::must(7).as_u32(), 7);
            /// ```
            pub const fn as_u32(&self) -> u32 {
                self.0
            }

            /// The number as an `i32`, in which each fits.
            ///
            /// ```
            #[doc = concat!("use aho_corasick::automaton::", stringify!($name), " as ID;")]
            ///
            /// assert_eq!(ID::must(7).as_i32(), 7);
            /// ```
            pub const fn as_i32(&self) -> i32 {
                self.0 as i32
            }

            /// The number plus one.
            ///
            /// ```
            #[doc = concat!("use aho_corasick::automaton::", stringify!($name), " as ID;")]
            ///
            /// assert_eq!(ID::must(7).one_more(), 8);
            /// ```
            pub const fn one_more(&self) -> usize {
                self.as_usize() + 1
            }
        }

        impl From<u8> for $name {
            fn from(number: u8) -> $name {
                $name(u32::from(number))
            }
        }

        try_from!($name, $error, u16, u32, u64, usize);

        /// The item of a list at the number.
        impl<T> Index<$name> for [T] {
            type Output = T;

            #[inline]
            fn index(&self, id: $name) -> &T {
                &self[id.as_usize()]
            }
        }

        impl<T> IndexMut<$name> for [T] {
            #[inline]
            fn index_mut(&mut self, id: $name) -> &mut T {
                &mut self[id.as_usize()]
            }
        }

        impl<T> Index<$name> for Vec<T> {
            type Output = T;

            #[inline]
            fn index(&self, id: $name) -> &T {
                &self[id.as_usize()]
            }
        }

        impl<T> IndexMut<$name> for Vec<T> {
            #[inline]
            fn index_mut(&mut self, id: $name) -> &mut T {
                &mut self[id.as_usize()]
            }
        }

        $(#[$doc_of_error])*
        #[derive(Clone, Debug, PartialEq, Eq)]
        pub struct $error(u64);

        impl $error {
            /// The number that was tried.
            ///
            /// ```
            #[doc = concat!("use aho_corasick::automaton::", stringify!($name), " as ID;")]
            ///
            /// assert_eq!(ID::new(usize::MAX).unwrap_err().attempted(), u64::MAX);
            /// ```
            pub fn attempted(&self) -> u64 {
                self.0
            }
        }

        impl fmt::Display for $error {
            fn fmt(&self, f: &mut fmt::Formatter<'_>) -> fmt::Result {
                write!(f, concat!($what, " has the number {}: the greatest is {}"), self.0, $name::MAX.0)
            }
        }

        #[cfg(feature = "std")]
        impl std::error::Error for $error {}
    };
}

macro_rules! try_from {
    ($name:ident, $error:ident, $($number:ty),*) => {$(
        impl TryFrom<$number> for $name {
            type Error = $error;

            fn try_from(number: $number) -> Result<$name, $error> {
                if number as u64 <= $name::MAX.as_u64() {
                    Ok($name(number as u32))
                } else {
                    Err($error(number as u64))
                }
            }
        }
    )*};
}

number!(
    /// The number of a pattern in the searcher's list, from 0. A searcher has at most [`PatternID::LIMIT`] patterns.
    ///
    /// ```
    /// use aho_corasick::PatternID;
    ///
    /// let id = PatternID::must(1);
    /// assert_eq!(id.as_usize(), 1);
    /// assert_eq!(["cat", "dog"][id], "dog");
    /// assert!(PatternID::new(PatternID::LIMIT).is_err());
    /// ```
    PatternID,
    /// A number above [`PatternID::MAX`], which no pattern has.
    ///
    /// ```
    /// use aho_corasick::{PatternID, PatternIDError};
    ///
    /// let why: PatternIDError = PatternID::new(PatternID::LIMIT).unwrap_err();
    /// assert_eq!(why.to_string(), "no pattern has the number 2147483647: the greatest is 2147483646");
    /// ```
    PatternIDError,
    "no pattern"
);

number!(
    /// The number of a state of an [`Automaton`](crate::automaton::Automaton).
    ///
    /// ```
    /// use aho_corasick::automaton::StateID;
    ///
    /// let id = StateID::must(1);
    /// assert_eq!(id.as_usize(), 1);
    /// assert_eq!(["first", "second"][id], "second");
    /// assert!(StateID::new(StateID::LIMIT).is_err());
    /// ```
    StateID,
    /// A number above [`StateID::MAX`], which no state has.
    ///
    /// ```
    /// use aho_corasick::automaton::{StateID, StateIDError};
    ///
    /// let why: StateIDError = StateID::new(StateID::LIMIT).unwrap_err();
    /// assert_eq!(why.attempted(), 2147483647);
    /// ```
    StateIDError,
    "no state"
);

impl PatternID {
    /// The number, which belongs to a pattern of a searcher.
    #[inline]
    pub(crate) fn of(number: usize) -> PatternID {
        PatternID(number as u32)
    }
}
