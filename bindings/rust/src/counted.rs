//! Things with several owners, for which there may be no memory.

use std::alloc::{Layout, alloc};
use std::ops::Deref;
use std::process::abort;
use std::ptr::NonNull;
use std::sync::atomic::{AtomicUsize, Ordering, fence};

/// A thing with several owners, as an [`Arc`](std::sync::Arc) has it: it goes with the last of them. But an Arc ends
/// the process where there is no memory for it, and this doesn't.
pub(crate) struct Counted<T> {
    at: NonNull<Kept<T>>,
}

/// What the owners share.
struct Kept<T> {
    owners: AtomicUsize,
    thing: T,
}

/// More owners than memory has room for, unless they are forgotten.
const MOST_OWNERS: usize = usize::MAX / 2;

// SAFETY: owners in several threads share the thing, and the last one drops it, as those of an Arc.
unsafe impl<T: Send + Sync> Send for Counted<T> {}
// SAFETY: as above; from a shared owner another one is made.
unsafe impl<T: Send + Sync> Sync for Counted<T> {}

impl<T> Counted<T> {
    /// The first owner of a thing; nothing if there is no memory for it.
    pub(crate) fn new(thing: T) -> Option<Self> {
        // SAFETY: the size isn't 0, since there is a counter.
        let block = unsafe { alloc(Layout::new::<Kept<T>>()) };
        let at = NonNull::new(block.cast::<Kept<T>>())?;
        // SAFETY: the block is of this layout, and nobody else has it.
        unsafe { at.write(Kept { owners: AtomicUsize::new(1), thing }) };
        Some(Counted { at })
    }

    fn kept(&self) -> &Kept<T> {
        // SAFETY: it was written, and stays until the last owner is dropped; nobody has it mutably before.
        unsafe { self.at.as_ref() }
    }
}

impl<T> Deref for Counted<T> {
    type Target = T;

    fn deref(&self) -> &T {
        &self.kept().thing
    }
}

impl<T> Clone for Counted<T> {
    fn clone(&self) -> Self {
        // nothing is read behind it: who clones has an owner already
        if self.kept().owners.fetch_add(1, Ordering::Relaxed) > MOST_OWNERS {
            abort();
        }
        Counted { at: self.at }
    }
}

impl<T> Drop for Counted<T> {
    fn drop(&mut self) {
        // what an owner did comes before the end of the thing, in whichever thread that is
        if self.kept().owners.fetch_sub(1, Ordering::Release) == 1 {
            fence(Ordering::Acquire);
            // SAFETY: this was the last owner. The block came from the allocator of a Box, with the layout of one.
            drop(unsafe { Box::from_raw(self.at.as_ptr()) });
        }
    }
}

#[cfg(test)]
mod tests {
    use super::*;
    use std::thread;

    /// Counts how often one of it was dropped.
    struct Dropped<'a>(&'a AtomicUsize);

    impl Drop for Dropped<'_> {
        fn drop(&mut self) {
            self.0.fetch_add(1, Ordering::Relaxed);
        }
    }

    #[test]
    fn a_thing_goes_with_its_last_owner() {
        let drops = AtomicUsize::new(0);
        let first = Counted::new((7, Dropped(&drops))).expect("memory is there");
        let second = first.clone();
        drop(first);
        assert_eq!((second.0, drops.load(Ordering::Relaxed)), (7, 0));
        thread::scope(|scope| {
            for _ in 0..8 {
                let mut owner = second.clone();
                scope.spawn(move || {
                    for _ in 0..100 {
                        owner = owner.clone();
                    }
                });
            }
        });
        assert_eq!((second.kept().owners.load(Ordering::Relaxed), drops.load(Ordering::Relaxed)), (1, 0));
        drop(second);
        assert_eq!(drops.load(Ordering::Relaxed), 1);
    }
}
