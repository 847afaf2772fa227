//! Tables and pairs that are dropped. Valgrind tells what of them is kept.
use cuckoo_map::{AsKey, Keys, Numbers, TableHandle, Texts};

/// A table ends with its last handle, and keys in it. Its pairs end unread, in part and to the end.
fn drop_all<K: Keys>(one: impl AsKey<K> + Copy, two: impl AsKey<K>) {
    let mut handles = TableHandle::<K>::open(100, 3).unwrap();
    let mut last = handles.pop().unwrap();
    drop(handles);
    assert_eq!(last.insert(one, 1), Ok(true));
    assert_eq!(last.insert(two, 2), Ok(true));
    drop(last.pairs().unwrap());
    assert!(last.pairs().unwrap().next().is_some());
    assert_eq!(last.drain().unwrap().count(), 2);
    assert_eq!(last.insert(one, 3), Ok(true));
    drop(last.lock().unwrap());
    assert_eq!(last.lock().unwrap().pairs().unwrap().count(), 1);
}

#[test]
fn tables_of_numbers_are_freed() {
    drop_all::<Numbers>(1, 2);
}

#[test]
fn tables_of_texts_are_freed() {
    drop_all::<Texts>("one", "two");
}
