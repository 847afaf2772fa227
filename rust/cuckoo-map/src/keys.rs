use crate::raw::{self, Calls, Raw};

/// Keys that are numbers.
#[derive(Clone, Copy, Debug)]
pub enum Numbers {}

/// Keys that are texts of at most 64 bytes. They may be any bytes.
#[derive(Clone, Copy, Debug)]
pub enum Texts {}

/// The keys of a table: [`Numbers`] or [`Texts`].
pub trait Keys: Sealed {
    /// A copy of a key.
    type Kept;
}

impl Keys for Numbers {
    type Kept = u64;
}

impl Keys for Texts {
    type Kept = Vec<u8>;
}

/// What may be given as a key of such a table: a number, or what has bytes, as a `&str` or a
/// `&Vec<u8>`.
pub trait AsKey<K: Keys> {
    #[doc(hidden)]
    fn as_key(&self) -> K::Key<'_>;
}

impl AsKey<Numbers> for u64 {
    #[inline]
    fn as_key(&self) -> u64 {
        *self
    }
}

impl<T: AsRef<[u8]> + ?Sized> AsKey<Texts> for &T {
    #[inline]
    fn as_key(&self) -> &[u8] {
        (**self).as_ref()
    }
}

/// What only this crate implements.
pub trait Sealed: Calls + Sized {
    /// The next pair.
    ///
    /// # Safety
    ///
    /// The pairs are closed, or of a table with these keys.
    unsafe fn next(pairs: &mut Raw) -> Option<(Self::Kept, u64)>
    where
        Self: Keys;
}

impl Sealed for Numbers {
    unsafe fn next(pairs: &mut Raw) -> Option<(u64, u64)> {
        unsafe { raw::next_number(pairs) }
    }
}

impl Sealed for Texts {
    unsafe fn next(pairs: &mut Raw) -> Option<(Vec<u8>, u64)> {
        unsafe { raw::next_text(pairs) }
    }
}
