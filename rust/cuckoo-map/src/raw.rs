//! The calls of the library, as `cuckoo_map.h` declares them.
use crate::several::{Change, Part};
use crate::{Numbers, Settings, Texts};
use std::ffi::c_void;
use std::ptr;

/// A handle, pairs or a locked table: null where it is closed. It is the owner, and has no copies.
#[repr(C)]
pub struct Raw {
    at: *mut c_void,
}

impl Raw {
    pub const CLOSED: Raw = Raw {
        at: ptr::null_mut(),
    };
}

pub const OK: i32 = 0;
pub const ABSENT: i32 = 1;
pub const PRESENT: i32 = 2;
pub const DIFFERENT: i32 = 3;

pub const BUSY: i32 = -1;
pub const NO_MEMORY: i32 = -2;
pub const FULL: i32 = -3;
pub const LOAD_TOO_LOW: i32 = -4;
pub const OVER_MAX: i32 = -5;
pub const BAD_SETTINGS: i32 = -6;
pub const TOO_LONG: i32 = -7;
pub const CLOSED: i32 = -8;
pub const TWICE: i32 = -10;
pub const BAD_COUNT: i32 = -11;

/// A key, and what was found of it.
#[repr(C)]
#[derive(Clone, Copy)]
pub struct Entry {
    pub key: u64,
    pub value: u64,
    pub bound: u64,
}

extern "C" {
    pub fn cuckoo_settings_for(keys: u64, callers: u32, turns: u32, settings: *mut Settings);
    pub fn cuckoo_find_all(handle: *mut Raw, entries: *mut Entry, count: usize) -> i32;
    pub fn cuckoo_set_if_all(handle: *mut Raw, changes: *const Change, count: usize) -> i32;
    pub fn cuckoo_move(handle: *mut Raw, parts: *const Part, count: usize) -> i32;
}

/// The calls on one type of keys.
///
/// # Safety
///
/// Handles, pairs and locked tables are closed, or opened by the same implementation, and are in no
/// other call; the other pointers lead to what the types say.
pub unsafe trait Calls {
    /// How a call takes a key.
    type Key<'a>: Copy;

    unsafe fn open(settings: *const Settings, handles: *mut Raw, count: usize) -> i32;
    unsafe fn close(handle: *mut Raw);
    unsafe fn find(handle: *mut Raw, key: Self::Key<'_>, value: *mut u64) -> i32;
    unsafe fn contains(handle: *mut Raw, key: Self::Key<'_>) -> i32;
    unsafe fn insert(handle: *mut Raw, key: Self::Key<'_>, value: u64) -> i32;
    unsafe fn assign(handle: *mut Raw, key: Self::Key<'_>, value: u64, old: *mut u64) -> i32;
    unsafe fn add(handle: *mut Raw, key: Self::Key<'_>, more: u64) -> i32;
    unsafe fn update(handle: *mut Raw, key: Self::Key<'_>, value: u64, old: *mut u64) -> i32;
    unsafe fn swap_if(
        handle: *mut Raw,
        key: Self::Key<'_>,
        from: u64,
        to: u64,
        seen: *mut u64,
    ) -> i32;
    unsafe fn erase(handle: *mut Raw, key: Self::Key<'_>, value: *mut u64) -> i32;
    unsafe fn erase_if(handle: *mut Raw, key: Self::Key<'_>, value: u64) -> i32;
    unsafe fn rename(handle: *mut Raw, from: Self::Key<'_>, to: Self::Key<'_>) -> i32;
    unsafe fn len(handle: *mut Raw, count: *mut u64) -> i32;
    unsafe fn capacity(handle: *mut Raw, slots: *mut u64) -> i32;
    unsafe fn reserve(handle: *mut Raw, slots: u64) -> i32;
    unsafe fn clear(handle: *mut Raw) -> i32;
    unsafe fn export(handle: *mut Raw, pairs: *mut Raw) -> i32;
    unsafe fn drain(handle: *mut Raw, pairs: *mut Raw) -> i32;
    unsafe fn close_pairs(pairs: *mut Raw);
    unsafe fn lock(handle: *mut Raw, locked: *mut Raw) -> i32;
    unsafe fn unlock(locked: *mut Raw, handle: *mut Raw) -> i32;
    unsafe fn locked_find(locked: *mut Raw, key: Self::Key<'_>, value: *mut u64) -> i32;
    unsafe fn locked_insert(locked: *mut Raw, key: Self::Key<'_>, value: u64) -> i32;
    unsafe fn locked_assign(locked: *mut Raw, key: Self::Key<'_>, value: u64, old: *mut u64)
        -> i32;
    unsafe fn locked_erase(locked: *mut Raw, key: Self::Key<'_>, value: *mut u64) -> i32;
    unsafe fn locked_len(locked: *mut Raw, count: *mut u64) -> i32;
    unsafe fn locked_clear(locked: *mut Raw) -> i32;
    unsafe fn locked_export(locked: *mut Raw, pairs: *mut Raw) -> i32;
}

// Declares a call, with the name that `Calls` has for it.
macro_rules! call {
    ($name:ident = $function:ident($($part:ident: $type:ty),*) $(-> $result:ty)?) => {
        unsafe fn $name($($part: $type),*) $(-> $result)? {
            extern "C" {
                fn $function($($part: $type),*) $(-> $result)?;
            }
            unsafe { $function($($part),*) }
        }
    };
    // Of a key that goes to the library in these parts.
    ($name:ident = $function:ident of $key:ident: $taken:ty as
        [$($in_key:ident: $in_key_type:ty = $value:expr),*]($($part:ident: $type:ty),*)) => {
        unsafe fn $name(handle: *mut Raw, $key: $taken, $($part: $type),*) -> i32 {
            extern "C" {
                fn $function(handle: *mut Raw, $($in_key: $in_key_type,)* $($part: $type),*) -> i32;
            }
            unsafe { $function(handle, $($value,)* $($part),*) }
        }
    };
    // Of two such keys.
    ($name:ident = $function:ident of two $key:ident: $taken:ty as
        [$($in_key:ident: $in_key_type:ty = $value:expr),*]) => {
        unsafe fn $name(handle: *mut Raw, from: $taken, to: $taken) -> i32 {
            extern "C" {
                fn $function(handle: *mut Raw, $(_: $in_key_type,)* $(_: $in_key_type),*) -> i32;
            }
            unsafe {
                $function(
                    handle,
                    $({ let $key = from; $value },)*
                    $({ let $key = to; $value }),*
                )
            }
        }
    };
}

// Implements `Calls` by functions, in its order, for keys that go to the library in these parts.
macro_rules! calls {
    ($keys:ty, type Key<$life:lifetime> = $key_type:ty; $key:ident as $parts:tt;
        $open:ident $close:ident $find:ident $contains:ident $insert:ident $assign:ident $add:ident
        $update:ident $swap_if:ident $erase:ident $erase_if:ident $rename:ident $len:ident
        $capacity:ident $reserve:ident $clear:ident $export:ident $drain:ident
        $close_pairs:ident $lock:ident $unlock:ident $locked_find:ident $locked_insert:ident
        $locked_assign:ident $locked_erase:ident $locked_len:ident $locked_clear:ident
        $locked_export:ident) => {
        unsafe impl Calls for $keys {
            type Key<$life> = $key_type;

            call!(open = $open(settings: *const Settings, handles: *mut Raw, count: usize) -> i32);
            call!(close = $close(handle: *mut Raw));
            call!(find = $find of $key: Self::Key<'_> as $parts(value: *mut u64));
            call!(contains = $contains of $key: Self::Key<'_> as $parts());
            call!(insert = $insert of $key: Self::Key<'_> as $parts(value: u64));
            call!(assign = $assign of $key: Self::Key<'_> as $parts(value: u64, old: *mut u64));
            call!(add = $add of $key: Self::Key<'_> as $parts(more: u64));
            call!(update = $update of $key: Self::Key<'_> as $parts(value: u64, old: *mut u64));
            call!(swap_if = $swap_if of $key: Self::Key<'_> as
                $parts(from: u64, to: u64, seen: *mut u64));
            call!(erase = $erase of $key: Self::Key<'_> as $parts(value: *mut u64));
            call!(erase_if = $erase_if of $key: Self::Key<'_> as $parts(value: u64));
            call!(rename = $rename of two $key: Self::Key<'_> as $parts);
            call!(len = $len(handle: *mut Raw, count: *mut u64) -> i32);
            call!(capacity = $capacity(handle: *mut Raw, slots: *mut u64) -> i32);
            call!(reserve = $reserve(handle: *mut Raw, slots: u64) -> i32);
            call!(clear = $clear(handle: *mut Raw) -> i32);
            call!(export = $export(handle: *mut Raw, pairs: *mut Raw) -> i32);
            call!(drain = $drain(handle: *mut Raw, pairs: *mut Raw) -> i32);
            call!(close_pairs = $close_pairs(pairs: *mut Raw));
            call!(lock = $lock(handle: *mut Raw, locked: *mut Raw) -> i32);
            call!(unlock = $unlock(locked: *mut Raw, handle: *mut Raw) -> i32);
            call!(locked_find = $locked_find of $key: Self::Key<'_> as $parts(value: *mut u64));
            call!(locked_insert = $locked_insert of $key: Self::Key<'_> as $parts(value: u64));
            call!(locked_assign = $locked_assign of $key: Self::Key<'_> as
                $parts(value: u64, old: *mut u64));
            call!(locked_erase = $locked_erase of $key: Self::Key<'_> as $parts(value: *mut u64));
            call!(locked_len = $locked_len(locked: *mut Raw, count: *mut u64) -> i32);
            call!(locked_clear = $locked_clear(locked: *mut Raw) -> i32);
            call!(locked_export = $locked_export(locked: *mut Raw, pairs: *mut Raw) -> i32);
        }
    };
}

calls! {
    Numbers, type Key<'a> = u64; key as [number: u64 = key];
    cuckoo_open_with cuckoo_close cuckoo_find cuckoo_contains cuckoo_insert cuckoo_assign cuckoo_add
    cuckoo_update cuckoo_swap_if cuckoo_erase cuckoo_erase_if cuckoo_rename cuckoo_len
    cuckoo_capacity cuckoo_reserve cuckoo_clear cuckoo_export cuckoo_drain cuckoo_pairs_close
    cuckoo_lock cuckoo_unlock cuckoo_locked_find cuckoo_locked_insert cuckoo_locked_assign
    cuckoo_locked_erase cuckoo_locked_len cuckoo_locked_clear cuckoo_locked_export
}

// A slice of no bytes has a pointer that isn't null, which is what the library wants.
calls! {
    Texts, type Key<'a> = &'a [u8];
    key as [at: *const u8 = key.as_ptr(), length: usize = key.len()];
    cuckoo_text_open_with cuckoo_text_close cuckoo_text_find cuckoo_text_contains cuckoo_text_insert
    cuckoo_text_assign cuckoo_text_add cuckoo_text_update cuckoo_text_swap_if cuckoo_text_erase
    cuckoo_text_erase_if cuckoo_text_rename cuckoo_text_len cuckoo_text_capacity
    cuckoo_text_reserve cuckoo_text_clear cuckoo_text_export cuckoo_text_drain
    cuckoo_text_pairs_close cuckoo_text_lock cuckoo_text_unlock cuckoo_text_locked_find
    cuckoo_text_locked_insert cuckoo_text_locked_assign cuckoo_text_locked_erase
    cuckoo_text_locked_len cuckoo_text_locked_clear cuckoo_text_locked_export
}

extern "C" {
    fn cuckoo_pairs_next(pairs: *mut Raw, key: *mut u64, value: *mut u64) -> i32;
    fn cuckoo_text_pairs_next(
        pairs: *mut Raw,
        key: *mut u8,
        room: usize,
        length: *mut usize,
        value: *mut u64,
    ) -> i32;
}

/// The next pair of a table whose keys are numbers.
///
/// # Safety
///
/// The pairs are closed, or such a table's.
pub unsafe fn next_number(pairs: &mut Raw) -> Option<(u64, u64)> {
    let (mut key, mut value) = (0, 0);
    let code = unsafe { cuckoo_pairs_next(pairs, &mut key, &mut value) };
    (code == OK).then_some((key, value))
}

/// The next pair of a table whose keys are texts.
///
/// # Safety
///
/// The pairs are closed, or such a table's.
pub unsafe fn next_text(pairs: &mut Raw) -> Option<(Vec<u8>, u64)> {
    let mut bytes = [0; 64];
    let (mut length, mut value) = (0, 0);
    let code = unsafe {
        cuckoo_text_pairs_next(
            pairs,
            bytes.as_mut_ptr(),
            bytes.len(),
            &mut length,
            &mut value,
        )
    };
    (code == OK).then(|| (bytes[..length].to_vec(), value))
}
