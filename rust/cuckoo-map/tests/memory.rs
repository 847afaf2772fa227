//! Calls of a process that may have no more memory: this one, so there is one test.
#![cfg(target_os = "linux")]
use cuckoo_map::{Error, Settings};

/// RLIMIT_AS, and its rlimit.
const ADDRESSES: i32 = 9;

#[repr(C)]
#[derive(Clone, Copy)]
struct Limit {
    now: u64,
    most: u64,
}

extern "C" {
    fn getrlimit(resource: i32, limit: *mut Limit) -> i32;
    fn setrlimit(resource: i32, limit: *const Limit) -> i32;
}

fn limit() -> Limit {
    let mut limit = Limit { now: 0, most: 0 };
    // SAFETY: it writes the limit.
    assert_eq!(unsafe { getrlimit(ADDRESSES, &mut limit) }, 0);
    limit
}

fn set_limit(limit: Limit) {
    // SAFETY: it reads the limit.
    assert_eq!(unsafe { setrlimit(ADDRESSES, &limit) }, 0);
}

#[test]
fn want_of_memory_has_a_name() {
    let settings = Settings {
        s: 0,
        max: 26,
        ..Settings::for_keys(40, 1)
    };
    let largest = Settings {
        power: 26,
        ..settings
    };
    let mut handle = settings.open().unwrap().pop().unwrap();
    assert_eq!(handle.insert(1, 10), Ok(true));
    let before = limit();
    set_limit(Limit {
        now: 1 << 28,
        ..before
    });
    let opened = largest.open().err();
    let reserved = handle.reserve(4 << 26);
    set_limit(before);
    assert_eq!(opened, Some(Error::NoMemory));
    assert_eq!(reserved, Err(Error::NoMemory));
    assert_eq!(handle.find(1), Ok(Some(10)));
}
