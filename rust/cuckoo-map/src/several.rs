use crate::raw::{self, Entry, OK};
use crate::{Handle, Result};

/// A key, the value that is expected of it, and its new one.
#[repr(C)]
#[derive(Clone, Copy, Debug, PartialEq, Eq)]
pub struct Change {
    /// The key.
    pub key: u64,
    /// The value that is expected of it.
    pub from: u64,
    /// Its new value.
    pub to: u64,
}

/// A key, what is taken from its value, and what is then added to it.
#[repr(C)]
#[derive(Clone, Copy, Debug, PartialEq, Eq)]
pub struct Part {
    /// The key.
    pub key: u64,
    /// What is taken from its value.
    pub take: u64,
    /// What is then added to it.
    pub put: u64,
}

/// Calls on several keys at one moment. They are refused as [`Error::Twice`](crate::Error::Twice)
/// where a key stands twice, and as [`Error::BadCount`](crate::Error::BadCount) where there are none,
/// or more than eight.
impl Handle {
    /// The values of the keys, in their order, all of one moment.
    ///
    /// ```
    /// let mut handle = cuckoo_map::Handle::open(100, 1)?.pop().unwrap();
    /// handle.insert(5, 50)?;
    /// assert_eq!(handle.find_all([5, 6])?, [Some(50), None]);
    /// assert_eq!(handle.find_all([5, 5]), Err(cuckoo_map::Error::Twice));
    /// # Ok::<(), cuckoo_map::Error>(())
    /// ```
    pub fn find_all<const N: usize>(&mut self, keys: [u64; N]) -> Result<[Option<u64>; N]> {
        let (value, bound) = (0, 0);
        let mut entries = keys.map(|key| Entry { key, value, bound });
        let at = entries.as_mut_ptr();
        // SAFETY: there are so many entries; and so it is below.
        self.call(|handle| unsafe { raw::cuckoo_find_all(handle, at, N) })?;
        Ok(entries.map(|entry| (entry.bound != 0).then_some(entry.value)))
    }

    /// Compare and set: where each key is bound to the value that is expected of it, binds each to
    /// its new one, all at one moment. Gives whether it did.
    ///
    /// ```
    /// use cuckoo_map::{Change, Handle};
    ///
    /// let mut handle = Handle::open(100, 1)?.pop().unwrap();
    /// handle.insert(5, 50)?;
    /// handle.insert(6, 60)?;
    /// let swap = [Change { key: 5, from: 50, to: 60 }, Change { key: 6, from: 60, to: 50 }];
    /// assert!(handle.set_if_all(&swap)?);
    /// assert!(!handle.set_if_all(&swap)?);
    /// # Ok::<(), cuckoo_map::Error>(())
    /// ```
    pub fn set_if_all(&mut self, changes: &[Change]) -> Result<bool> {
        let (at, count) = (changes.as_ptr(), changes.len());
        let code = self.call(|handle| unsafe { raw::cuckoo_set_if_all(handle, at, count) })?;
        Ok(code == OK)
    }

    /// Takes from the values of the keys and adds to them, all at one moment, where each key is
    /// bound, has as much, and gets no more than `u64::MAX`. Gives whether it did.
    ///
    /// ```
    /// use cuckoo_map::{Handle, Part};
    ///
    /// let mut handle = Handle::open(100, 1)?.pop().unwrap();
    /// handle.insert(5, 50)?;
    /// handle.insert(6, 60)?;
    /// let parts = [Part { key: 5, take: 30, put: 0 }, Part { key: 6, take: 0, put: 30 }];
    /// assert!(handle.move_all(&parts)?);
    /// assert!(!handle.move_all(&parts)?);
    /// assert_eq!(handle.find_all([5, 6])?, [Some(20), Some(90)]);
    /// # Ok::<(), cuckoo_map::Error>(())
    /// ```
    pub fn move_all(&mut self, parts: &[Part]) -> Result<bool> {
        let (at, count) = (parts.as_ptr(), parts.len());
        let code = self.call(|handle| unsafe { raw::cuckoo_move(handle, at, count) })?;
        Ok(code == OK)
    }
}
