//! Handles that go to threads.
use cuckoo_map::{Change, Compared, Error, Handle, Part, Renamed, Settings, TextHandle};
use std::sync::atomic::{AtomicBool, Ordering};
use std::thread;
use std::time::{Duration, Instant};

const THREADS: u64 = 8;
const ROUNDS: u64 = 20_000;

/// Few turns, so that calls are refused as busy.
fn impatient(keys: u64, callers: u32) -> Settings {
    Settings {
        turns: 1,
        ..Settings::for_keys(keys, callers)
    }
}

#[test]
fn additions_of_all_threads_are_there() {
    let handles = impatient(10, THREADS as u32).open().unwrap();
    let threads: Vec<_> = handles
        .into_iter()
        .map(|mut handle| {
            thread::spawn(move || {
                for round in 0..ROUNDS {
                    match round % 2 {
                        0 => handle.add(round % 10, 1).unwrap(),
                        _ => handle.upsert(round % 10, |sum| sum + 1, 1).unwrap(),
                    };
                }
                handle
            })
        })
        .collect();
    let mut handles: Vec<Handle> = threads.into_iter().map(|one| one.join().unwrap()).collect();
    let mut last = handles.pop().unwrap();
    drop(handles);
    assert_eq!(last.len(), Ok(10));
    assert_eq!(
        last.drain().unwrap().map(|(_, sum)| sum).sum::<u64>(),
        THREADS * ROUNDS
    );
    assert_eq!(last.is_empty(), Ok(true));
}

#[test]
fn no_key_is_lost_where_the_table_grows() {
    let mut handles = impatient(1, THREADS as u32 + 1).open_texts().unwrap();
    let mut last = handles.pop().unwrap();
    thread::scope(|scope| {
        for (owner, mut handle) in handles.into_iter().enumerate() {
            scope.spawn(move || {
                for number in 0..2000 {
                    let key = format!("{owner} {number}");
                    assert_eq!(handle.insert(&key, number), Ok(true));
                    assert_eq!(handle.find(&key), Ok(Some(number)));
                    if number % 2 == 0 {
                        assert_eq!(handle.erase(&key), Ok(Some(number)));
                    }
                }
            });
        }
    });
    assert_eq!(last.len(), Ok(THREADS * 1000));
    for owner in 0..THREADS {
        for number in 0..2000 {
            let bound = (number % 2 == 1).then_some(number);
            assert_eq!(last.find(&format!("{owner} {number}")), Ok(bound));
        }
    }
}

/// Threads count until a call of one is refused as busy; a minute at most.
#[test]
fn a_busy_call_may_be_left_to_the_program() {
    let was_busy = AtomicBool::new(false);
    let end = Instant::now() + Duration::from_secs(60);
    thread::scope(|scope| {
        for mut handle in impatient(10_000, 4).open().unwrap() {
            let was_busy = &was_busy;
            handle.retry_busy(false);
            scope.spawn(move || {
                while !was_busy.load(Ordering::Relaxed) && Instant::now() < end {
                    match handle.len() {
                        Ok(0) => {}
                        refused => {
                            assert_eq!(refused, Err(Error::Busy));
                            was_busy.store(true, Ordering::Relaxed);
                        }
                    }
                }
            });
        }
    });
    assert!(was_busy.into_inner());
}

#[test]
fn each_call_answers_as_a_plain_map() {
    let mut handle = TextHandle::open(100, 1).unwrap().pop().unwrap();
    assert_eq!(handle.find("a"), Ok(None));
    assert_eq!(handle.insert("a", 1), Ok(true));
    assert_eq!(handle.insert("a", 2), Ok(false));
    assert_eq!(handle.assign("a", 3), Ok(Some(1)));
    assert_eq!(handle.assign("", 4), Ok(None));
    assert_eq!(handle.add("a", u64::MAX), Ok(false));
    assert_eq!(handle.add("c", 5), Ok(true));
    assert_eq!(handle.erase("c"), Ok(Some(5)));
    assert_eq!(handle.find(b"a"), Ok(Some(u64::MAX)));
    assert_eq!(handle.update("a", 5), Ok(Some(u64::MAX)));
    assert_eq!(handle.update("b", 5), Ok(None));
    assert_eq!(handle.swap_if("a", 4, 6), Ok(Compared::Different(5)));
    assert_eq!(handle.swap_if("a", 5, 6), Ok(Compared::Equal));
    assert_eq!(handle.erase_if("a", 5), Ok(Compared::Different(())));
    assert_eq!(handle.erase_if("b", 5), Ok(Compared::Absent));
    assert_eq!(handle.update_by("a", |value| value + 1), Ok(Some(6)));
    assert_eq!(handle.update_by("b", |value| value + 1), Ok(None));
    assert_eq!(handle.upsert("a", |value| value + 1, 0), Ok(false));
    assert_eq!(handle.upsert("b", |value| value + 1, 9), Ok(true));
    assert_eq!(handle.erase_if("b", 9), Ok(Compared::Equal));
    assert_eq!(handle.contains(&vec![b'b']), Ok(false));
    assert_eq!(handle.rename("b", "c"), Ok(Renamed::Unbound));
    assert_eq!(handle.rename("a", ""), Ok(Renamed::Occupied));
    assert_eq!(handle.rename("a", "b"), Ok(Renamed::Done));
    assert_eq!(handle.find("a"), Ok(None));
    assert_eq!(handle.rename(b"b", &String::from("a")), Ok(Renamed::Done));
    assert_eq!(handle.erase(&String::from("a")), Ok(Some(8)));
    assert_eq!(handle.pairs().unwrap().collect::<Vec<_>>(), [(vec![], 4)]);
    let slots = handle.capacity().unwrap();
    assert_eq!(handle.reserve(slots), Ok(false));
    assert_eq!(handle.reserve(slots + 1), Ok(true));
    assert_eq!(handle.clear(), Ok(()));
    assert_eq!(handle.is_empty(), Ok(true));
}

#[test]
fn refusals_have_names() {
    for handles in [0, 1025, u32::MAX] {
        assert_eq!(Handle::open(100, handles).err(), Some(Error::BadSettings));
    }
    let settings = Settings {
        max: 4,
        ..Settings::for_keys(40, 1)
    };
    let mut handle = settings.open().unwrap().pop().unwrap();
    assert_eq!(handle.reserve(65), Err(Error::OverMax));
    assert_eq!((0..).find_map(|key| handle.insert(key, 0).err()), Some(Error::Full));
    let few = Settings {
        s: 0,
        power: 1,
        min_load: 100,
        ..Settings::for_keys(8, 1)
    };
    let mut sparse = few.open().unwrap().pop().unwrap();
    assert_eq!((0..).find_map(|key| sparse.insert(key, 0).err()), Some(Error::LoadTooLow));
    let mut texts = settings.open_texts().unwrap().pop().unwrap();
    assert_eq!(texts.insert(&[0; 65], 1), Err(Error::TooLong));
    assert_eq!(texts.insert(&[0; 64], 1), Ok(true));
    assert_eq!(texts.rename(&[0; 64], &[0; 65]), Err(Error::TooLong));
    assert_eq!(texts.rename(&[0; 65], &[0; 64]), Err(Error::TooLong));
    assert_eq!(texts.rename(&[0; 64], &[0; 64]), Err(Error::Twice));
    assert_eq!(texts.find(&[0; 64]), Ok(Some(1)));
    assert_eq!(Error::TooLong.to_string(), "a text has more than 64 bytes");
}

#[test]
fn calls_take_one_to_eight_different_keys() {
    let mut handle = Handle::open(100, 1).unwrap().pop().unwrap();
    for key in 0..9 {
        assert_eq!(handle.insert(key, 10 * key), Ok(true));
    }
    let changes: Vec<Change> = (0..9)
        .map(|key| Change { key, from: 10 * key, to: 10 * key + 1 })
        .collect();
    let parts: Vec<Part> = (0..9).map(|key| Part { key, take: 1, put: 2 }).collect();
    assert_eq!(handle.find_all([]), Err(Error::BadCount));
    assert_eq!(handle.find_all([0, 1, 2, 3, 4, 5, 6, 7, 8]), Err(Error::BadCount));
    for count in [0, 9] {
        assert_eq!(handle.set_if_all(&changes[..count]), Err(Error::BadCount));
        assert_eq!(handle.move_all(&parts[..count]), Err(Error::BadCount));
    }
    assert_eq!(handle.find_all([1, 1]), Err(Error::Twice));
    assert_eq!(handle.set_if_all(&[changes[1]; 2]), Err(Error::Twice));
    assert_eq!(handle.move_all(&[parts[1]; 2]), Err(Error::Twice));
    assert_eq!(handle.find_all([8, 7, 6, 5, 4, 3, 2, 1]).unwrap()[..2], [Some(80), Some(70)]);
    assert_eq!(handle.set_if_all(&changes[1..]), Ok(true));
    assert_eq!(handle.move_all(&parts[1..]), Ok(true));
    assert_eq!(handle.find_all([0, 1, 8]), Ok([Some(0), Some(12), Some(82)]));
}

/// A call yields after so many turns, which other threads need where there are more than processors.
#[test]
fn settings_for_keys_have_few_turns() {
    let settings = Settings::for_keys(100, 3);
    assert_eq!((settings.turns, settings.callers), (64, 3));
}

/// As many handles as there may be are opened, and one more is refused.
#[test]
fn there_are_1024_handles_at_most() {
    let mut handles = Settings::for_keys(100, 1024).open().unwrap();
    assert_eq!(handles.len(), 1024);
    assert_eq!(handles[1023].insert(1, 10), Ok(true));
    assert_eq!(handles[0].find(1), Ok(Some(10)));
    assert_eq!(Settings::for_keys(100, 1025).open().err(), Some(Error::BadSettings));
}
