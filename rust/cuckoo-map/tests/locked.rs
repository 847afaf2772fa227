//! Tables that are locked.
use cuckoo_map::{AsKey, Error, Handle, Keys, Numbers, Settings, TableHandle, TextHandle, Texts};
use std::mem;
use std::thread;

/// Each call, and what it leaves.
fn calls<K: Keys>(one: impl AsKey<K> + Copy, two: impl AsKey<K> + Copy) {
    let mut handles = TableHandle::<K>::open(100, 2).unwrap();
    let (mut handle, mut other) = (handles.pop().unwrap(), handles.pop().unwrap());
    other.retry_busy(false);
    assert_eq!(handle.insert(one, 10), Ok(true));
    let mut locked = handle.lock().unwrap();
    assert_eq!(locked.len(), Ok(1));
    assert_eq!(
        (locked.find(one), locked.find(two)),
        (Ok(Some(10)), Ok(None))
    );
    assert_eq!(
        (locked.contains(one), locked.contains(two)),
        (Ok(true), Ok(false))
    );
    assert_eq!(
        (locked.insert(one, 11), locked.insert(two, 20)),
        (Ok(false), Ok(true))
    );
    assert_eq!(
        (locked.assign(one, 12), locked.erase(two)),
        (Ok(Some(10)), Ok(Some(20)))
    );
    assert_eq!(
        (locked.erase(two), locked.assign(two, 21)),
        (Ok(None), Ok(None))
    );
    let values: Vec<u64> = locked.pairs().unwrap().map(|(_, value)| value).collect();
    assert_eq!(values, [12, 21]);
    assert_eq!(other.find(one), Err(Error::Busy));
    assert_eq!(other.lock().err(), Some(Error::Busy));
    drop(locked);
    assert_eq!((other.find(one), other.len()), (Ok(Some(12)), Ok(2)));
    let mut locked = other.lock().unwrap();
    assert_eq!((locked.clear(), locked.is_empty()), (Ok(()), Ok(true)));
    locked.unlock();
    assert_eq!((handle.is_empty(), other.is_empty()), (Ok(true), Ok(true)));
}

#[test]
fn calls_are_answered() {
    calls::<Numbers>(1, 2);
    calls::<Texts>("one", "two");
}

#[test]
fn refusals_have_names() {
    let long = "x".repeat(65);
    let mut texts = TextHandle::open(100, 1).unwrap().pop().unwrap();
    let mut locked = texts.lock().unwrap();
    assert_eq!(locked.insert(&long, 1), Err(Error::TooLong));
    assert_eq!(locked.find(&long), Err(Error::TooLong));
    let small = Settings {
        max: 1,
        ..Settings::for_keys(1, 1)
    };
    let mut numbers = small.open().unwrap().pop().unwrap();
    let mut locked = numbers.lock().unwrap();
    let refused = (0..).find_map(|key| locked.insert(key, key).err());
    assert_eq!(refused, Some(Error::Full));
    let count = locked.len().unwrap();
    drop(locked);
    assert_eq!(numbers.len(), Ok(count));
}

#[test]
fn one_that_is_forgotten_holds_its_table() {
    let mut handles = Handle::open(100, 2).unwrap();
    let (mut handle, mut other) = (handles.pop().unwrap(), handles.pop().unwrap());
    other.retry_busy(false);
    mem::forget(handle.lock().unwrap());
    assert_eq!(handle.find(1), Err(Error::Closed));
    assert_eq!(handle.lock().err(), Some(Error::Closed));
    assert_eq!(other.find(1), Err(Error::Busy));
}

#[test]
fn others_see_all_or_none() {
    let handles = Handle::open(100, 4).unwrap();
    let (lockers, finders): (Vec<_>, Vec<_>) = handles
        .into_iter()
        .enumerate()
        .partition(|(i, _)| i % 2 == 0);
    thread::scope(|scope| {
        for (_, mut handle) in lockers {
            scope.spawn(move || {
                for _ in 0..500 {
                    let mut locked = handle.lock().unwrap();
                    for key in 0..8 {
                        let value = locked.erase(key).unwrap().unwrap_or(0);
                        assert_eq!(locked.insert(key, value + 1), Ok(true));
                    }
                }
            });
        }
        for (_, mut handle) in finders {
            scope.spawn(move || {
                for _ in 0..500 {
                    let found = handle.find_all([0, 1, 2, 3, 4, 5, 6, 7]).unwrap();
                    assert!(found.iter().all(|value| *value == found[0]), "{found:?}");
                }
            });
        }
    });
}
