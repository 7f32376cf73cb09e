// The library's functions, as crates/timing and crates/capi hand them to C. Where a table or lists are not as they should be
// those that count answer 0.
use crate::input::{Numbers, Texts};

// A function of a table (letters, pairs and how many pairs), of names (text and starts) and of further slices. Each slice is
// a pointer and a length.
macro_rules! declare {
    ($function:ident($($pointer:ty),*) -> $answer:ty $(, $utf8:ident)?) => {
        fn $function(
            letters: *const u16, _: usize, pairs: *const u16, _: usize, how_many: u64, $($utf8: bool,)?
            text: *const u8, _: usize, starts: *const u32, _: usize
            $(, _: $pointer, _: usize)*
        ) -> $answer;
    };
}

macro_rules! call {
    ($function:ident, $table:expr, $($utf8:expr,)? ; $names:expr $(, $slice:expr, $pointer:ident)*) => {
        // Each pointer is that of a slice, with its length; what is written to is lent as `&mut`.
        unsafe {
            $function(
                $table.letters.as_ptr(), $table.letters.len(), $table.pairs.as_ptr(), $table.pairs.len(), $table.how_many(), $($utf8,)?
                $names.text.as_ptr(), $names.text.len(), $names.starts.as_ptr(), $names.starts.len()
                $(, $slice.$pointer(), $slice.len())*
            )
        }
    };
}

// Where a part of a list begins, and how long it is.
#[repr(C)]
struct Part {
    _place: usize,
    length: usize,
}

// 0 where nothing is wrong.
#[repr(C)]
struct Verdict {
    what: u32,
    _place: u64,
}

extern "C" {
    declare!(timing_keys(*mut u32) -> u64, utf8);
    declare!(timing_compares(*const u32) -> u64, utf8);
    declare!(timing_finds(*const u32, *const u8, *const u32) -> u64, utf8);
    declare!(nullahbowl_find(*const u32, *const u8) -> Part);
    declare!(timing_list(*mut u32) -> bool, utf8);
    declare!(nullahbowl_check(*const u32) -> Verdict);
}

// How many numbers all keys have together. Each is written into the front of `room`, over the one before.
pub fn keys(table: &Numbers, names: &Texts, room: &mut [u32]) -> u64 {
    call!(timing_keys, table, table.utf8, ; names, room, as_mut_ptr)
}

// How many names of a list are before the next.
pub fn compares(table: &Numbers, names: &Texts, places: &[u32]) -> u64 {
    call!(timing_compares, table, table.utf8, ; names, places, as_ptr)
}

// How many names all questions find together. Table and lists are checked once.
pub fn finds(table: &Numbers, names: &Texts, places: &[u32], asks: &Texts) -> u64 {
    call!(timing_finds, table, table.utf8, ; names, places, as_ptr, asks.text, as_ptr, asks.starts, as_ptr)
}

// How many names begin so. Table and lists are checked.
pub fn find(table: &Numbers, names: &Texts, places: &[u32], ask: &[u8]) -> u64 {
    call!(nullahbowl_find, table, ; names, places, as_ptr, ask, as_ptr).length as u64
}

// All names' numbers in order, written into `places`; whether they could be.
pub fn list(table: &Numbers, names: &Texts, places: &mut [u32]) -> bool {
    call!(timing_list, table, table.utf8, ; names, places, as_mut_ptr)
}

pub fn check(table: &Numbers, names: &Texts, places: &[u32]) -> bool {
    call!(nullahbowl_check, table, ; names, places, as_ptr).what == 0
}
