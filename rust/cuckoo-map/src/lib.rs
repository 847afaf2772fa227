//! A concurrent hash map that cannot lose a key, over the C library `libcuckoo_map.a`. What the
//! library does is proved of the code that runs; this crate, which calls it, is not.
//!
//! A table is called through handles, one for each thread that makes calls at a time: opening a
//! table gives all of them, and each goes to a thread. The table ends with its last handle. The
//! keys of a [`Handle`] are numbers, and those of a [`TextHandle`] texts of at most 64 bytes, which
//! are any bytes; the values are numbers.
//!
//! ```
//! use cuckoo_map::Handle;
//! use std::thread;
//!
//! let mut handles = Handle::open(1000, 5)?;
//! let mut last = handles.pop().unwrap();
//! thread::scope(|scope| {
//!     for mut handle in handles {
//!         scope.spawn(move || {
//!             for key in 0..1000 {
//!                 handle.add(key, 1).unwrap();
//!             }
//!         });
//!     }
//! });
//! assert_eq!(last.find(5)?, Some(4));
//! assert_eq!(last.drain()?.map(|(_, count)| count).sum::<u64>(), 4000);
//! # Ok::<(), cuckoo_map::Error>(())
//! ```
//!
//! Each answered call takes effect once, at one moment, in one order in which a plain map gives the
//! same answers. A refused call changes no binding; [`Error`] says why it was refused. A call that
//! is refused as busy lets other threads run, and is made again until it is answered, or refused
//! otherwise; [`TableHandle::retry_busy`] leaves that to the program.
#![warn(missing_docs)]

mod error;
mod handle;
mod keys;
mod locked;
mod pairs;
mod raw;
mod settings;
mod several;

pub use error::{Error, Result};
pub use handle::{Compared, Handle, Renamed, TableHandle, TextHandle};
pub use keys::{AsKey, Keys, Numbers, Texts};
pub use locked::Locked;
pub use pairs::Pairs;
pub use settings::Settings;
pub use several::{Change, Part};
