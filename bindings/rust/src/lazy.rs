//! A value that the first call for it makes.
use alloc::boxed::Box;
use core::marker::PhantomData;
use core::mem::size_of;
use core::ptr;
use core::sync::atomic::{AtomicPtr, Ordering};
#[cfg(feature = "std")]
use std::sync::{Mutex, PoisonError};

/// A value that is made once. Of several threads one makes it, and the others wait. Without the standard library there
/// is no lock: each of them makes it, and one value is kept. (`OnceLock` is missing in rustc 1.63, and its call for a
/// function that may fail is not stable.)
pub struct Lazy<T: Send + Sync> {
    /// Null, or from `Box::into_raw`. Once it is not null, nothing changes it.
    made: AtomicPtr<T>,
    /// Held by the thread that makes the value.
    #[cfg(feature = "std")]
    making: Mutex<()>,
    owned: PhantomData<Box<T>>,
}

impl<T: Send + Sync> Lazy<T> {
    pub fn new() -> Lazy<T> {
        Lazy {
            made: AtomicPtr::new(ptr::null_mut()),
            #[cfg(feature = "std")]
            making: Mutex::new(()),
            owned: PhantomData,
        }
    }

    /// A value that is made.
    pub fn of(value: T) -> Lazy<T> {
        let lazy = Lazy::new();
        lazy.keep(value);
        lazy
    }

    /// The value, if it was made.
    #[inline]
    pub fn get(&self) -> Option<&T> {
        let made = self.made.load(Ordering::Acquire);
        // SAFETY: it is null or leads to a value, written before the pointer was stored, that lives until `self` is
        // dropped.
        unsafe { made.as_ref() }
    }

    /// The value, made by a function if it was not made before. The function must not ask for the value.
    #[inline]
    pub fn get_or_try<E>(&self, make: impl FnOnce() -> Result<T, E>) -> Result<&T, E> {
        match self.get() {
            Some(made) => Ok(made),
            None => self.make(make),
        }
    }

    /// How many bytes the value takes in memory, if it was made, with those that a function tells of it.
    pub fn memory_usage(&self, of: impl FnOnce(&T) -> usize) -> usize {
        self.get().map_or(0, |made| size_of::<T>() + of(made))
    }

    #[cold]
    fn make<E>(&self, make: impl FnOnce() -> Result<T, E>) -> Result<&T, E> {
        // (a thread that panicked here stored nothing, so the next one makes the value)
        #[cfg(feature = "std")]
        let _making = self.making.lock().unwrap_or_else(PoisonError::into_inner);
        match self.get() {
            Some(made) => Ok(made),
            None => Ok(self.keep(make()?)),
        }
    }

    /// Stores a value, unless one is stored. Returns the one that is stored.
    fn keep(&self, value: T) -> &T {
        let new = Box::into_raw(Box::new(value));
        match self.made.compare_exchange(ptr::null_mut(), new, Ordering::AcqRel, Ordering::Acquire) {
            // SAFETY: it is stored now, so that it lives until `self` is dropped.
            Ok(_) => unsafe { &*new },
            Err(other) => {
                // SAFETY: another value was stored first. This one is from `into_raw`, and nobody else has it.
                drop(unsafe { Box::from_raw(new) });
                // SAFETY: what was stored leads to a value that lives until `self` is dropped.
                unsafe { &*other }
            }
        }
    }
}

impl<T: Send + Sync> Drop for Lazy<T> {
    fn drop(&mut self) {
        let made = *self.made.get_mut();
        if !made.is_null() {
            // SAFETY: it is from `into_raw`, and nobody borrows `self` any more.
            drop(unsafe { Box::from_raw(made) });
        }
    }
}

#[cfg(all(test, feature = "std"))]
mod tests {
    use super::*;
    use core::sync::atomic::AtomicUsize;
    use core::time::Duration;
    use std::sync::{Arc, Barrier};
    use std::thread;

    #[test]
    fn it_is_made_once_and_dropped_once() {
        const THREADS: usize = 8;
        let (value, lazy) = (Arc::new(1), Lazy::<Arc<i32>>::new());
        assert!(lazy.get().is_none());
        assert_eq!(lazy.get_or_try(|| Err::<Arc<i32>, _>("refused")), Err("refused"));
        let (begin, made) = (Barrier::new(THREADS), AtomicUsize::new(0));
        let make = || {
            made.fetch_add(1, Ordering::Relaxed);
            // (so that the other threads come while it is made)
            thread::sleep(Duration::from_millis(50));
            Ok::<_, ()>(value.clone())
        };
        thread::scope(|scope| {
            for _ in 0..THREADS {
                scope.spawn(|| {
                    begin.wait();
                    assert_eq!(lazy.get_or_try(make), Ok(&value));
                });
            }
        });
        assert_eq!(made.into_inner(), 1);
        assert_eq!((lazy.get(), Arc::strong_count(&value)), (Some(&value), 2));
        drop(lazy);
        assert_eq!(Arc::strong_count(&value), 1);
    }

    #[test]
    fn a_value_that_comes_second_is_dropped() {
        let (first, second, lazy) = (Arc::new(1), Arc::new(2), Lazy::<Arc<i32>>::new());
        assert_eq!((lazy.keep(first.clone()), lazy.keep(second.clone())), (&first, &first));
        assert_eq!((Arc::strong_count(&first), Arc::strong_count(&second)), (2, 1));
    }

    #[test]
    fn it_is_made_after_a_panic() {
        let lazy = Lazy::<i32>::new();
        assert!(std::panic::catch_unwind(|| lazy.get_or_try(|| -> Result<i32, ()> { panic!() })).is_err());
        assert_eq!(lazy.get_or_try(|| Ok::<_, ()>(1)), Ok(&1));
    }
}
