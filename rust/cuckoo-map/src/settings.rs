use crate::raw::cuckoo_settings_for;
use crate::{Handle, Keys, Result, TableHandle, TextHandle};

/// What a table is opened with.
///
/// ```
/// use cuckoo_map::{Error, Settings};
///
/// let settings = Settings { max: 2, power: 1, s: 0, ..Settings::for_keys(8, 1) };
/// let mut handle = settings.open()?.pop().unwrap();
/// let refused = (0..).find_map(|key| handle.insert(key, 0).err());
/// assert_eq!(refused, Some(Error::Full));
/// # Ok::<(), Error>(())
/// ```
#[repr(C)]
#[derive(Clone, Copy, Debug, PartialEq, Eq)]
pub struct Settings {
    /// The table has 2^s stripes: 0 to 10, and at most `power`. 10, but for small tables.
    pub s: u32,
    /// It opens with 2^power buckets of four slots: 1 to `max`.
    pub power: u32,
    /// It never has more than 2^max buckets: 1 to 26.
    pub max: u32,
    /// It has so many handles: 1 to 1024.
    pub callers: u32,
    /// Tries to take a stripe before a call is refused as busy: 1 at least.
    pub turns: u32,
    /// Tries to displace entries without the whole table: 0 to 64.
    pub rounds: u32,
    /// An insertion grows it only where so many per cent of its slots are taken: 0 to 100.
    pub min_load: u32,
}

impl Settings {
    /// Settings for about so many keys, and so many handles: the table opens with room for the
    /// keys, and grows where more come. `turns` is 64, which is best where there are more threads
    /// than processors.
    pub fn for_keys(keys: u64, callers: u32) -> Settings {
        let mut settings = Settings {
            s: 0,
            power: 0,
            max: 0,
            callers,
            turns: 0,
            rounds: 0,
            min_load: 0,
        };
        // SAFETY: it writes all fields of the settings.
        unsafe { cuckoo_settings_for(keys, callers, 64, &mut settings) };
        settings
    }

    /// Opens a table whose keys are numbers, with all its handles.
    pub fn open(&self) -> Result<Vec<Handle>> {
        self.open_table()
    }

    /// Opens a table whose keys are texts, with all its handles.
    pub fn open_texts(&self) -> Result<Vec<TextHandle>> {
        self.open_table()
    }

    /// Opens a table, with all its handles.
    pub fn open_table<K: Keys>(&self) -> Result<Vec<TableHandle<K>>> {
        TableHandle::open_with(self)
    }
}
