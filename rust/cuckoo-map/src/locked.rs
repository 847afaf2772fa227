use crate::raw::{Raw, OK};
use crate::{AsKey, Error, Keys, Pairs, Result, TableHandle};
use std::fmt;

/// A table that is locked by a handle: what is done by it is one call of the handle's, whatever it is
/// and however long it takes, and takes effect where it is dropped. Until then all other handles find
/// the table held, so their calls wait. It stays with its thread.
///
/// One that is forgotten, as by `std::mem::forget`, holds the table for good, and calls of its handle
/// are refused as [`Error::Closed`].
///
/// ```
/// let mut handle = cuckoo_map::TextHandle::open(100, 1)?.pop().unwrap();
/// let mut locked = handle.lock()?;
/// locked.insert("one", 1)?;
/// locked.insert("two", 2)?;
/// for (name, value) in locked.pairs()? {
///     locked.assign(&name, 10 * value)?;
/// }
/// locked.unlock();
/// assert_eq!(handle.find("two")?, Some(20));
/// # Ok::<(), cuckoo_map::Error>(())
/// ```
///
/// ```compile_fail,E0499
/// let mut handle = cuckoo_map::Handle::open(100, 1).unwrap().pop().unwrap();
/// let mut locked = handle.lock().unwrap();
/// handle.find(5).unwrap();
/// locked.find(5).unwrap();
/// ```
///
/// ```compile_fail,E0277
/// fn is_sent<T: Send>() {}
/// is_sent::<cuckoo_map::Locked<'_, cuckoo_map::Numbers>>();
/// ```
pub struct Locked<'a, K: Keys> {
    raw: Raw,
    handle: &'a mut TableHandle<K>,
}

impl<K: Keys> Drop for Locked<'_, K> {
    fn drop(&mut self) {
        // SAFETY: the table is locked, and the place of its handle is closed.
        let code = unsafe { K::unlock(&mut self.raw, &mut self.handle.raw) };
        debug_assert_eq!(code, OK);
    }
}

impl<K: Keys> fmt::Debug for Locked<'_, K> {
    fn fmt(&self, to: &mut fmt::Formatter<'_>) -> fmt::Result {
        to.debug_struct("Locked").finish_non_exhaustive()
    }
}

impl<'a, K: Keys> Locked<'a, K> {
    pub(crate) fn of(raw: Raw, handle: &'a mut TableHandle<K>) -> Locked<'a, K> {
        Locked { raw, handle }
    }

    /// Unlocks the table, as its drop does.
    pub fn unlock(self) {}

    /// The value of the key.
    pub fn find(&mut self, key: impl AsKey<K>) -> Result<Option<u64>> {
        let mut value = 0;
        let code = self.call(|raw| unsafe { K::locked_find(raw, key.as_key(), &mut value) })?;
        Ok((code == OK).then_some(value))
    }

    /// Whether the key is bound.
    pub fn contains(&mut self, key: impl AsKey<K>) -> Result<bool> {
        Ok(self.find(key)?.is_some())
    }

    /// Binds an unbound key, and gives whether it was unbound. This and the next may be refused as
    /// [`Error::NoMemory`], [`Error::Full`] or [`Error::LoadTooLow`]; then the table stays locked, and
    /// all that was done to it.
    pub fn insert(&mut self, key: impl AsKey<K>, value: u64) -> Result<bool> {
        Ok(self.call(|raw| unsafe { K::locked_insert(raw, key.as_key(), value) })? == OK)
    }

    /// Binds the key, and gives the value that it had.
    pub fn assign(&mut self, key: impl AsKey<K>, value: u64) -> Result<Option<u64>> {
        let mut old = 0;
        let code =
            self.call(|raw| unsafe { K::locked_assign(raw, key.as_key(), value, &mut old) })?;
        Ok((code != OK).then_some(old))
    }

    /// Unbinds the key, and gives the value that it had.
    pub fn erase(&mut self, key: impl AsKey<K>) -> Result<Option<u64>> {
        let mut value = 0;
        let code = self.call(|raw| unsafe { K::locked_erase(raw, key.as_key(), &mut value) })?;
        Ok((code == OK).then_some(value))
    }

    /// How many keys are bound, by a count.
    pub fn len(&mut self) -> Result<u64> {
        let mut count = 0;
        self.call(|raw| unsafe { K::locked_len(raw, &mut count) })?;
        Ok(count)
    }

    /// Whether no key is bound, by a count.
    pub fn is_empty(&mut self) -> Result<bool> {
        Ok(self.len()? == 0)
    }

    /// Unbinds all keys.
    pub fn clear(&mut self) -> Result<()> {
        self.call(|raw| unsafe { K::locked_clear(raw) })?;
        Ok(())
    }

    /// All pairs as they are now. Later calls don't change them.
    pub fn pairs(&mut self) -> Result<Pairs<K>> {
        let mut pairs = Pairs::none();
        self.call(|raw| unsafe { K::locked_export(raw, pairs.place()) })?;
        Ok(pairs)
    }

    fn call(&mut self, made: impl FnOnce(*mut Raw) -> i32) -> Result<i32> {
        match made(&mut self.raw) {
            code if code < 0 => Err(Error::of(code)),
            code => Ok(code),
        }
    }
}
