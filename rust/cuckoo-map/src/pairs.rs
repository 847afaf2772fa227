use crate::raw::Raw;
use crate::Keys;
use std::fmt;
use std::marker::PhantomData;

/// The pairs of a table at one moment, in the order of the keys. Other threads don't change them.
///
/// ```
/// use cuckoo_map::TextHandle;
///
/// let mut handle = TextHandle::open(100, 1)?.pop().unwrap();
/// handle.insert("two", 2)?;
/// handle.insert("one", 1)?;
/// let pairs: Vec<(Vec<u8>, u64)> = handle.pairs()?.collect();
/// assert_eq!(pairs, [(b"one".to_vec(), 1), (b"two".to_vec(), 2)]);
/// # Ok::<(), cuckoo_map::Error>(())
/// ```
pub struct Pairs<K: Keys> {
    raw: Raw,
    keys: PhantomData<K>,
}

// SAFETY: nothing else has them.
unsafe impl<K: Keys> Send for Pairs<K> {}

impl<K: Keys> Pairs<K> {
    pub(crate) fn none() -> Pairs<K> {
        Pairs {
            raw: Raw::CLOSED,
            keys: PhantomData,
        }
    }

    pub(crate) fn place(&mut self) -> &mut Raw {
        &mut self.raw
    }
}

impl<K: Keys> Iterator for Pairs<K> {
    type Item = (K::Kept, u64);

    fn next(&mut self) -> Option<Self::Item> {
        // SAFETY: they are closed, or a call on these keys gave them.
        unsafe { K::next(&mut self.raw) }
    }
}

impl<K: Keys> std::iter::FusedIterator for Pairs<K> {}

impl<K: Keys> Drop for Pairs<K> {
    fn drop(&mut self) {
        // SAFETY: as above.
        unsafe { K::close_pairs(&mut self.raw) }
    }
}

impl<K: Keys> fmt::Debug for Pairs<K> {
    fn fmt(&self, to: &mut fmt::Formatter<'_>) -> fmt::Result {
        to.debug_struct("Pairs").finish_non_exhaustive()
    }
}
