//! Calls that let other threads run: the `sched_yield` of this program counts them.
#![cfg(unix)]
use cuckoo_map::{Handle, Settings};
use std::cell::Cell;
use std::sync::atomic::{AtomicBool, Ordering};
use std::thread;
use std::time::{Duration, Instant};

thread_local! {
    /// How often this thread has let others run.
    static YIELDS: Cell<u32> = const { Cell::new(0) };
}

#[no_mangle]
extern "C" fn sched_yield() -> i32 {
    YIELDS.with(|yields| yields.set(yields.get() + 1));
    0
}

/// Counts the keys until a count has let others run, here or in another thread; a minute at most.
fn count(handle: &mut Handle, has_yielded: &AtomicBool) {
    let end = Instant::now() + Duration::from_secs(60);
    while !has_yielded.load(Ordering::Relaxed) && Instant::now() < end {
        let before = YIELDS.with(Cell::get);
        assert_eq!(handle.len(), Ok(0));
        if YIELDS.with(Cell::get) > before {
            has_yielded.store(true, Ordering::Relaxed);
        }
    }
}

#[test]
fn a_call_that_is_busy_lets_other_threads_run() {
    let has_yielded = AtomicBool::new(false);
    let settings = Settings {
        turns: 1,
        ..Settings::for_keys(10_000, 4)
    };
    thread::scope(|scope| {
        for mut handle in settings.open().unwrap() {
            let has_yielded = &has_yielded;
            scope.spawn(move || count(&mut handle, has_yielded));
        }
    });
    assert!(has_yielded.into_inner());
}
