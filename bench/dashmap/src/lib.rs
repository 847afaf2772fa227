//! Calls of C on dashmap, which `bench/peers.h` declares: on maps from numbers, and on maps from
//! texts, to numbers.
use dashmap::mapref::entry::Entry;
use dashmap::DashMap;
use std::hash::{BuildHasherDefault, Hasher};
use std::slice;

/// A text for the time of a call.
#[repr(C)]
pub struct Text {
    at: *const u8,
    length: usize,
}

impl Text {
    // Of one that C++ gives.
    fn bytes(&self) -> &[u8] {
        // SAFETY: C++ has so many bytes there, and nobody writes them during the call.
        unsafe { slice::from_raw_parts(self.at, self.length) }
    }
}

extern "C" {
    fn dash_hash(text: Text) -> u64;
}

/// What the other tables take: a number is its own hash, and that of a text is C++'s.
#[derive(Default)]
pub struct Hash(u64);

impl Hasher for Hash {
    fn write(&mut self, bytes: &[u8]) {
        let text = Text {
            at: bytes.as_ptr(),
            length: bytes.len(),
        };
        // SAFETY: it reads the text, and keeps nothing of it.
        self.0 = unsafe { dash_hash(text) };
    }

    fn write_u64(&mut self, number: u64) {
        self.0 = number;
    }

    // The length of a text, which comes before its bytes.
    fn write_usize(&mut self, _: usize) {}

    fn finish(&self) -> u64 {
        self.0
    }
}

/// It has as many shards as dashmap chooses: four for each processor, up to the next power of two.
type Map<Key> = DashMap<Key, u64, BuildHasherDefault<Hash>>;

// Defines the calls on maps that keep one type of keys. C++ gives a key as another type, of which
// the expression makes what the map looks for.
macro_rules! calls {
    ($kept:ty, $key:ident: $given:ty as $sought:expr;
        $open:ident $close:ident $find:ident $insert:ident $update:ident $add:ident
        $erase:ident) => {
        #[no_mangle]
        pub extern "C" fn $open(keys: usize) -> Box<Map<$kept>> {
            Box::new(Map::with_capacity_and_hasher(keys, Default::default()))
        }

        #[no_mangle]
        pub extern "C" fn $close(_: Box<Map<$kept>>) {}

        #[no_mangle]
        pub extern "C" fn $find(map: &Map<$kept>, $key: $given, value: &mut u64) -> bool {
            let found = map.get($sought);
            found.map(|found| *value = *found).is_some()
        }

        #[no_mangle]
        pub extern "C" fn $insert(map: &Map<$kept>, $key: $given, value: u64) -> bool {
            match map.entry($sought.to_owned()) {
                Entry::Occupied(_) => false,
                Entry::Vacant(entry) => {
                    entry.insert(value);
                    true
                }
            }
        }

        #[no_mangle]
        pub extern "C" fn $update(map: &Map<$kept>, $key: $given, value: u64) -> bool {
            let found = map.get_mut($sought);
            found.map(|mut found| *found = value).is_some()
        }

        // A key that is bound isn't copied, and one that is bound meanwhile is added to.
        #[no_mangle]
        pub extern "C" fn $add(map: &Map<$kept>, $key: $given) -> bool {
            if let Some(mut found) = map.get_mut($sought) {
                *found += 1;
                return false;
            }
            match map.entry($sought.to_owned()) {
                Entry::Occupied(mut entry) => {
                    *entry.get_mut() += 1;
                    false
                }
                Entry::Vacant(entry) => {
                    entry.insert(1);
                    true
                }
            }
        }

        #[no_mangle]
        pub extern "C" fn $erase(map: &Map<$kept>, $key: $given) -> bool {
            map.remove($sought).is_some()
        }
    };
}

calls! {
    u64, key: u64 as &key;
    dash_open dash_close dash_find dash_insert dash_update dash_add dash_erase
}

calls! {
    Vec<u8>, key: Text as key.bytes();
    dash_text_open dash_text_close dash_text_find dash_text_insert dash_text_update dash_text_add
    dash_text_erase
}
