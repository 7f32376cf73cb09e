// ICU and glibc, which order German names by rules of their own: keys of bytes, and names compared.
use crate::input::Texts;
use crate::lists::{part, Keys};
use std::cmp::Ordering;
use std::ffi::{c_char, c_int, CStr};

// Names with a 0 behind each, as C wants them.
pub struct Ended {
    text: Vec<u8>,
    starts: Vec<usize>,
}

impl Ended {
    pub fn of(names: &Texts) -> Ended {
        let mut ended = Ended { text: Vec::new(), starts: vec![0] };
        for name in names.iter() {
            ended.text.extend_from_slice(name);
            ended.text.push(0);
            ended.starts.push(ended.text.len());
        }
        ended
    }

    pub fn len(&self) -> usize {
        self.starts.len() - 1
    }

    fn at(&self, number: u32) -> &[u8] {
        &self.text[self.starts[number as usize]..self.starts[number as usize + 1]]
    }

    pub fn iter(&self) -> impl Iterator<Item = &[u8]> {
        (0..self.len() as u32).map(|number| self.at(number))
    }
}

// Room for the key of a name of 1,000 letters.
type Room = [u8; 1 << 14];
const ROOM: Room = [0; 1 << 14];

// What orders names that have a 0 behind them.
pub trait Collator {
    fn version(&self) -> &str;

    // The key, written into the front of `room`, and how long it is.
    fn key(&self, name: &[u8], room: &mut Room) -> usize;

    fn compare(&self, a: &[u8], b: &[u8]) -> Ordering;

    // The keys of the names that begin so on the first level are from the first of these on and below the second. There may
    // be no such bounds.
    fn bounds(&self, ask: &[u8], room: &mut Room) -> Option<[Vec<u8>; 2]>;
}

impl dyn Collator + '_ {
    // How long all keys are together.
    pub fn keys(&self, names: &Ended) -> u64 {
        let mut room = ROOM;
        names.iter().map(|name| self.key(name, &mut room) as u64).sum()
    }

    pub fn stored_keys(&self, names: &Ended) -> Keys<u8> {
        let mut room = ROOM;
        let mut keys = Keys::with_capacity(names.len(), 4 * names.text.len());
        for name in names.iter() {
            let length = self.key(name, &mut room);
            keys.all.extend_from_slice(&room[..length]);
            keys.end_key();
        }
        keys
    }

    // How many names of a list are not behind the next.
    pub fn compares(&self, names: &Ended, places: &[u32]) -> u64 {
        places.windows(2).filter(|two| self.compare(names.at(two[0]), names.at(two[1])).is_le()).count() as u64
    }

    pub fn list_by_comparing(&self, names: &Ended) -> Vec<u32> {
        let mut places: Vec<u32> = (0..names.len() as u32).collect();
        places.sort_unstable_by(|a, b| self.compare(names.at(*a), names.at(*b)).then(a.cmp(b)));
        places
    }

    // How many names all questions find together, by stored keys.
    pub fn finds(&self, keys: &Keys<u8>, places: &[u32], asks: &Ended) -> u64 {
        let mut room = ROOM;
        let mut found = 0;
        for [lower, upper] in asks.iter().filter_map(|ask| self.bounds(ask, &mut room)) {
            let standing = |number| match keys.key(number) {
                key if key < &lower[..] => Ordering::Less,
                key if key < &upper[..] => Ordering::Equal,
                _ => Ordering::Greater,
            };
            found += part(places, standing).len() as u64;
        }
        found
    }
}

extern "C" {
    fn setlocale(category: c_int, locale: *const c_char) -> *const c_char;
    fn strxfrm(to: *mut c_char, from: *const c_char, size: usize) -> usize;
    fn strcoll(a: *const c_char, b: *const c_char) -> c_int;
    fn gnu_get_libc_version() -> *const c_char;
}

struct Glibc {
    version: String,
}

// Where there is the locale.
pub fn open_glibc() -> Option<Box<dyn Collator>> {
    const LC_ALL: c_int = 6;
    const LOCALE: &CStr = c"de_DE.UTF-8";
    // Both strings end with a 0, and no other thread runs.
    let (locale, version) = unsafe { (setlocale(LC_ALL, LOCALE.as_ptr()), CStr::from_ptr(gnu_get_libc_version())) };
    let version = format!("glibc {} under {}", version.to_string_lossy(), LOCALE.to_string_lossy());
    (!locale.is_null()).then(|| Box::new(Glibc { version }) as Box<dyn Collator>)
}

impl Collator for Glibc {
    fn version(&self) -> &str {
        &self.version
    }

    fn key(&self, name: &[u8], room: &mut Room) -> usize {
        // There is a 0 behind the name, and the room is as long as said.
        let length = unsafe { strxfrm(room.as_mut_ptr().cast(), name.as_ptr().cast(), room.len()) };
        assert!(length < room.len(), "glibc makes no key");
        length
    }

    fn compare(&self, a: &[u8], b: &[u8]) -> Ordering {
        // There is a 0 behind both.
        unsafe { strcoll(a.as_ptr().cast(), b.as_ptr().cast()) }.cmp(&0)
    }

    fn bounds(&self, _: &[u8], _: &mut Room) -> Option<[Vec<u8>; 2]> {
        None
    }
}

#[cfg(not(icu))]
pub fn open_icu() -> Option<Box<dyn Collator>> {
    None
}

#[cfg(icu)]
pub use icu::open as open_icu;

#[cfg(icu)]
mod icu {
    use super::{c_char, c_int, CStr, Collator, Ordering, Room};

    // icu.c
    extern "C" {
        fn icu_open(version: *mut c_char) -> c_int;
        fn icu_key(name: *const u8, length: i32, room: *mut u8, size: i32) -> i32;
        fn icu_compare(a: *const u8, a_length: i32, b: *const u8, b_length: i32) -> c_int;
        fn icu_bound(key: *const u8, length: i32, upper: c_int, room: *mut u8, size: i32) -> i32;
    }

    struct Icu {
        version: String,
    }

    pub fn open() -> Option<Box<dyn Collator>> {
        let mut version = [0; 20];
        // ICU writes at most 20 bytes, with a 0 at the end.
        let (opened, version) = unsafe { (icu_open(version.as_mut_ptr()), CStr::from_ptr(version.as_ptr())) };
        let version = format!("ICU {}, collator de", version.to_string_lossy());
        (opened != 0).then(|| Box::new(Icu { version }) as Box<dyn Collator>)
    }

    // How long a name is without the 0 behind it.
    fn length(name: &[u8]) -> i32 {
        name.len() as i32 - 1
    }

    impl Icu {
        fn bound(&self, key: &[u8], upper: bool) -> Vec<u8> {
            let mut bound = vec![0; key.len() + 4];
            // There is a 0 behind the key, and the room is as long as said.
            let size = bound.len() as i32;
            let length = unsafe { icu_bound(key.as_ptr(), length(key), upper as c_int, bound.as_mut_ptr(), size) };
            assert!(length > 0, "ICU makes no bound");
            bound.truncate(length as usize);
            bound
        }
    }

    impl Collator for Icu {
        fn version(&self) -> &str {
            &self.version
        }

        fn key(&self, name: &[u8], room: &mut Room) -> usize {
            // The lengths are those of the name and of the room.
            let length = unsafe { icu_key(name.as_ptr(), length(name), room.as_mut_ptr(), room.len() as i32) };
            assert!(length > 0, "ICU makes no key");
            length as usize
        }

        fn compare(&self, a: &[u8], b: &[u8]) -> Ordering {
            // The lengths are those of the names.
            unsafe { icu_compare(a.as_ptr(), length(a), b.as_ptr(), length(b)) }.cmp(&0)
        }

        fn bounds(&self, ask: &[u8], room: &mut Room) -> Option<[Vec<u8>; 2]> {
            let length = self.key(ask, room);
            let key = &room[..=length];
            Some([self.bound(key, false), self.bound(key, true)])
        }
    }
}
