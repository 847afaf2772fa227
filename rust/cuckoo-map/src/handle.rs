use crate::raw::{Raw, ABSENT, BAD_SETTINGS, BUSY, DIFFERENT, OK, PRESENT};
use crate::{AsKey, Error, Keys, Locked, Numbers, Pairs, Result, Settings, Texts};
use std::fmt;
use std::marker::PhantomData;
use std::thread;

/// A handle of a table, by which one thread makes calls at a time. It goes from thread to thread,
/// but isn't shared and has no copies. The table ends with its last handle.
///
/// It is a [`Handle`] or a [`TextHandle`], by the table's keys.
///
/// Each call with a text may be refused as [`Error::TooLong`].
///
/// ```
/// fn is_sent<T: Send>() {}
/// is_sent::<cuckoo_map::Handle>();
/// ```
///
/// ```compile_fail,E0277
/// fn is_shared<T: Sync>() {}
/// is_shared::<cuckoo_map::Handle>();
/// ```
///
/// ```compile_fail,E0277
/// fn is_copied<T: Clone>() {}
/// is_copied::<cuckoo_map::Handle>();
/// ```
pub struct TableHandle<K: Keys> {
    pub(crate) raw: Raw,
    retries_busy: bool,
    keys: PhantomData<K>,
}

/// A handle of a table whose keys are numbers.
///
/// ```
/// let mut handle = cuckoo_map::Handle::open(100, 1)?.pop().unwrap();
/// assert!(handle.insert(5, 50)?);
/// assert_eq!(handle.find(5)?, Some(50));
/// # Ok::<(), cuckoo_map::Error>(())
/// ```
pub type Handle = TableHandle<Numbers>;

/// A handle of a table whose keys are texts.
///
/// ```
/// let mut handle = cuckoo_map::TextHandle::open(100, 1)?.pop().unwrap();
/// assert!(handle.insert("five", 5)?);
/// assert_eq!(handle.find(b"five")?, Some(5));
/// assert_eq!(handle.find(&"x".repeat(65)), Err(cuckoo_map::Error::TooLong));
/// # Ok::<(), cuckoo_map::Error>(())
/// ```
pub type TextHandle = TableHandle<Texts>;

/// How the value of a key compares with one that was asked for.
#[derive(Clone, Copy, Debug, PartialEq, Eq)]
pub enum Compared<T> {
    /// It is that, and the call was done.
    Equal,
    /// It is another one, and nothing was changed.
    Different(T),
    /// The key is unbound.
    Absent,
}

/// What a rename came to.
#[derive(Clone, Copy, Debug, PartialEq, Eq)]
pub enum Renamed {
    /// The value went from the one key, which is unbound now, to the other.
    Done,
    /// The key that was to be renamed is unbound. Nothing has changed.
    Unbound,
    /// Both keys are bound. Nothing has changed.
    Occupied,
}

// SAFETY: a handle may be used by one thread after the other; that it isn't by two at a time is
// since it has no copies, and its calls take it by `&mut`.
unsafe impl<K: Keys> Send for TableHandle<K> {}

impl<K: Keys> Drop for TableHandle<K> {
    fn drop(&mut self) {
        // SAFETY: the handle is closed, or open and in no other call; so it is below.
        unsafe { K::close(&mut self.raw) }
    }
}

impl<K: Keys> fmt::Debug for TableHandle<K> {
    fn fmt(&self, to: &mut fmt::Formatter<'_>) -> fmt::Result {
        to.debug_struct("TableHandle").finish_non_exhaustive()
    }
}

impl<K: Keys> TableHandle<K> {
    /// Opens a table for about so many keys, with so many handles: 1 to 1024.
    pub fn open(keys: u64, handles: u32) -> Result<Vec<TableHandle<K>>> {
        Self::open_with(&Settings::for_keys(keys, handles))
    }

    /// Opens a table, with `callers` handles.
    pub fn open_with(settings: &Settings) -> Result<Vec<TableHandle<K>>> {
        let count = settings.callers as usize;
        if count > 1024 {
            return Err(Error::of(BAD_SETTINGS));
        }
        let mut places: Vec<Raw> = (0..count).map(|_| Raw::CLOSED).collect();
        // SAFETY: there are so many places, all of them closed.
        match unsafe { K::open(settings, places.as_mut_ptr(), count) } {
            OK => Ok(places.into_iter().map(Self::of).collect()),
            code => Err(Error::of(code)),
        }
    }

    fn of(raw: Raw) -> TableHandle<K> {
        TableHandle {
            raw,
            retries_busy: true,
            keys: PhantomData,
        }
    }

    /// Whether a call that is refused as busy is made again, when other threads were let run: so it
    /// is as a handle is opened. Else the call gives [`Error::Busy`].
    pub fn retry_busy(&mut self, retries: bool) {
        self.retries_busy = retries;
    }

    /// The value of the key.
    pub fn find(&mut self, key: impl AsKey<K>) -> Result<Option<u64>> {
        let mut value = 0;
        let code = self.call(|raw| unsafe { K::find(raw, key.as_key(), &mut value) })?;
        Ok((code == OK).then_some(value))
    }

    /// Whether the key is bound.
    pub fn contains(&mut self, key: impl AsKey<K>) -> Result<bool> {
        Ok(self.call(|raw| unsafe { K::contains(raw, key.as_key()) })? == OK)
    }

    /// Binds an unbound key, and gives whether it was unbound. As each call that binds a key, it
    /// may be refused as [`Error::NoMemory`], [`Error::Full`] or [`Error::LoadTooLow`].
    pub fn insert(&mut self, key: impl AsKey<K>, value: u64) -> Result<bool> {
        Ok(self.call(|raw| unsafe { K::insert(raw, key.as_key(), value) })? == OK)
    }

    /// Binds the key, and gives the value that it had.
    pub fn assign(&mut self, key: impl AsKey<K>, value: u64) -> Result<Option<u64>> {
        let mut old = 0;
        let code = self.call(|raw| unsafe { K::assign(raw, key.as_key(), value, &mut old) })?;
        Ok((code != OK).then_some(old))
    }

    /// Adds to the value of the key, but not beyond `u64::MAX`, and binds an unbound key to `more`;
    /// gives whether it was unbound.
    pub fn add(&mut self, key: impl AsKey<K>, more: u64) -> Result<bool> {
        Ok(self.call(|raw| unsafe { K::add(raw, key.as_key(), more) })? == OK)
    }

    /// Binds a bound key, and gives the value that it had.
    pub fn update(&mut self, key: impl AsKey<K>, value: u64) -> Result<Option<u64>> {
        let mut old = 0;
        let code = self.call(|raw| unsafe { K::update(raw, key.as_key(), value, &mut old) })?;
        Ok((code == OK).then_some(old))
    }

    /// Compare and set: binds a key that is bound to `from` to `to`. Else it tells its value.
    ///
    /// ```
    /// use cuckoo_map::{Compared, Handle};
    ///
    /// let mut handle = Handle::open(100, 1)?.pop().unwrap();
    /// handle.insert(5, 50)?;
    /// assert_eq!(handle.swap_if(5, 50, 51)?, Compared::Equal);
    /// assert_eq!(handle.swap_if(5, 50, 52)?, Compared::Different(51));
    /// assert_eq!(handle.swap_if(6, 50, 52)?, Compared::Absent);
    /// # Ok::<(), cuckoo_map::Error>(())
    /// ```
    pub fn swap_if(&mut self, key: impl AsKey<K>, from: u64, to: u64) -> Result<Compared<u64>> {
        let mut seen = 0;
        let code =
            self.call(|raw| unsafe { K::swap_if(raw, key.as_key(), from, to, &mut seen) })?;
        Ok(compared(code, seen))
    }

    /// Unbinds the key, and gives the value that it had.
    pub fn erase(&mut self, key: impl AsKey<K>) -> Result<Option<u64>> {
        let mut value = 0;
        let code = self.call(|raw| unsafe { K::erase(raw, key.as_key(), &mut value) })?;
        Ok((code == OK).then_some(value))
    }

    /// Unbinds a key that is bound to this value.
    pub fn erase_if(&mut self, key: impl AsKey<K>, value: u64) -> Result<Compared<()>> {
        let code = self.call(|raw| unsafe { K::erase_if(raw, key.as_key(), value) })?;
        Ok(compared(code, ()))
    }

    /// Gives the value of `from` to another key, `to`, and unbinds `from`, in one step of the map: no
    /// other call finds both bound, or none. Where `from` is unbound or both are bound, it says so,
    /// and nothing has changed. It may be refused as an insertion of `to` is, and as
    /// [`Error::Twice`] where the two keys are one.
    ///
    /// ```
    /// use cuckoo_map::{Error, Handle, Renamed};
    ///
    /// let mut handle = Handle::open(100, 1)?.pop().unwrap();
    /// handle.insert(5, 50)?;
    /// assert_eq!(handle.rename(5, 6)?, Renamed::Done);
    /// assert_eq!(handle.find_all([5, 6])?, [None, Some(50)]);
    /// assert_eq!(handle.rename(5, 7)?, Renamed::Unbound);
    /// handle.insert(7, 70)?;
    /// assert_eq!(handle.rename(6, 7)?, Renamed::Occupied);
    /// assert_eq!(handle.rename(6, 6), Err(Error::Twice));
    /// # Ok::<(), Error>(())
    /// ```
    pub fn rename(&mut self, from: impl AsKey<K>, to: impl AsKey<K>) -> Result<Renamed> {
        let code = self.call(|raw| unsafe { K::rename(raw, from.as_key(), to.as_key()) })?;
        Ok(match code {
            ABSENT => Renamed::Unbound,
            PRESENT => Renamed::Occupied,
            _ => Renamed::Done,
        })
    }

    /// Changes the value of the key by a function, and gives the one that it was changed from. The
    /// function is called with no lock held: what it makes of a value is set where the key still has
    /// that. Where the key has another value by then, it is called again, on that; where the key is
    /// unbound by then, it was called in vain, and this gives `None`. So it may be called more than
    /// once, and also where this gives `None` or an error.
    ///
    /// ```
    /// let mut handles = cuckoo_map::Handle::open(100, 2)?;
    /// let (mut handle, mut other) = (handles.pop().unwrap(), handles.pop().unwrap());
    /// handle.insert(5, 50)?;
    /// assert_eq!(handle.update_by(5, |value| 2 * value)?, Some(50));
    /// assert_eq!(handle.find(5)?, Some(100));
    /// let mut calls = 0;
    /// let changed = handle.update_by(5, |value| {
    ///     calls += 1;
    ///     other.erase(5).unwrap();
    ///     2 * value
    /// })?;
    /// assert_eq!((changed, calls), (None, 1));
    /// # Ok::<(), cuckoo_map::Error>(())
    /// ```
    pub fn update_by(
        &mut self,
        key: impl AsKey<K>,
        mut change: impl FnMut(u64) -> u64,
    ) -> Result<Option<u64>> {
        self.change(key.as_key(), &mut change)
    }

    /// Changes the value of the key by a function, as [`update_by`](TableHandle::update_by) does, or
    /// binds an unbound key to `value`; gives whether it was unbound. Where the key is unbound by the
    /// time that what the function made is to be set, the function was called in vain, and the key is
    /// bound to `value`.
    ///
    /// ```
    /// let mut handles = cuckoo_map::Handle::open(100, 2)?;
    /// let (mut handle, mut other) = (handles.pop().unwrap(), handles.pop().unwrap());
    /// assert!(handle.upsert(5, |value| value + 1, 50)?);
    /// assert!(!handle.upsert(5, |value| value + 1, 60)?);
    /// assert_eq!(handle.find(5)?, Some(51));
    /// let erase_it = |value| {
    ///     other.erase(5).unwrap();
    ///     value + 1
    /// };
    /// assert!(handle.upsert(5, erase_it, 70)?);
    /// assert_eq!(handle.find(5)?, Some(70));
    /// # Ok::<(), cuckoo_map::Error>(())
    /// ```
    pub fn upsert(
        &mut self,
        key: impl AsKey<K>,
        mut change: impl FnMut(u64) -> u64,
        value: u64,
    ) -> Result<bool> {
        let key = key.as_key();
        loop {
            if self.change(key, &mut change)?.is_some() {
                return Ok(false);
            }
            if self.call(|raw| unsafe { K::insert(raw, key, value) })? == OK {
                return Ok(true);
            }
        }
    }

    /// How many keys are bound, counted under all locks.
    pub fn len(&mut self) -> Result<u64> {
        let mut count = 0;
        self.call(|raw| unsafe { K::len(raw, &mut count) })?;
        Ok(count)
    }

    /// Whether no key is bound, by a count of all.
    pub fn is_empty(&mut self) -> Result<bool> {
        Ok(self.len()? == 0)
    }

    /// How many slots the table has.
    pub fn capacity(&mut self) -> Result<u64> {
        let mut slots = 0;
        self.call(|raw| unsafe { K::capacity(raw, &mut slots) })?;
        Ok(slots)
    }

    /// Makes the table grow until it has so many slots, and gives whether it had fewer. It may be
    /// refused as [`Error::OverMax`], or as [`Error::NoMemory`]; then it may have doubled.
    pub fn reserve(&mut self, slots: u64) -> Result<bool> {
        Ok(self.call(|raw| unsafe { K::reserve(raw, slots) })? == OK)
    }

    /// Unbinds all keys, at one moment.
    pub fn clear(&mut self) -> Result<()> {
        self.call(|raw| unsafe { K::clear(raw) })?;
        Ok(())
    }

    /// All pairs at one moment.
    pub fn pairs(&mut self) -> Result<Pairs<K>> {
        let mut pairs = Pairs::none();
        self.call(|raw| unsafe { K::export(raw, pairs.place()) })?;
        Ok(pairs)
    }

    /// All pairs at one moment, and unbinds all keys at that moment. Where it is refused, they are
    /// bound still.
    pub fn drain(&mut self) -> Result<Pairs<K>> {
        let mut pairs = Pairs::none();
        self.call(|raw| unsafe { K::drain(raw, pairs.place()) })?;
        Ok(pairs)
    }

    /// Locks the table until what it gives is dropped. It requests memory, and may be refused as
    /// [`Error::NoMemory`].
    ///
    /// ```
    /// let mut handles = cuckoo_map::Handle::open(100, 2)?;
    /// let (mut handle, mut other) = (handles.pop().unwrap(), handles.pop().unwrap());
    /// handle.insert(5, 50)?;
    /// other.retry_busy(false);
    /// let mut locked = handle.lock()?;
    /// if let Some(value) = locked.erase(5)? {
    ///     locked.insert(6, value)?;
    /// }
    /// assert_eq!(other.find(5), Err(cuckoo_map::Error::Busy));
    /// drop(locked);
    /// assert_eq!(other.find_all([5, 6])?, [None, Some(50)]);
    /// # Ok::<(), cuckoo_map::Error>(())
    /// ```
    pub fn lock(&mut self) -> Result<Locked<'_, K>> {
        let mut locked = Raw::CLOSED;
        self.call(|raw| unsafe { K::lock(raw, &mut locked) })?;
        Ok(Locked::of(locked, self))
    }

    // Sets what the function makes of the value that was seen, as long as the key has another by
    // then.
    fn change(
        &mut self,
        key: K::Key<'_>,
        change: &mut impl FnMut(u64) -> u64,
    ) -> Result<Option<u64>> {
        let mut seen = 0;
        let mut code = self.call(|raw| unsafe { K::find(raw, key, &mut seen) })?;
        while code != ABSENT {
            let (from, to) = (seen, change(seen));
            code = self.call(|raw| unsafe { K::swap_if(raw, key, from, to, &mut seen) })?;
            if code == OK {
                return Ok(Some(from));
            }
        }
        Ok(None)
    }

    // Makes a call until it is answered.
    #[inline]
    pub(crate) fn call(&mut self, mut made: impl FnMut(*mut Raw) -> i32) -> Result<i32> {
        loop {
            match made(&mut self.raw) {
                BUSY if self.retries_busy => thread::yield_now(),
                code if code < 0 => return Err(Error::of(code)),
                code => return Ok(code),
            }
        }
    }
}

fn compared<T>(code: i32, seen: T) -> Compared<T> {
    match code {
        DIFFERENT => Compared::Different(seen),
        ABSENT => Compared::Absent,
        _ => Compared::Equal,
    }
}
