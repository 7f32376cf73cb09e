// The library's functions, over slices.

#[repr(C)]
#[derive(Clone, Copy, PartialEq, Eq, Debug)]
pub struct KeyAnswer {
    pub what: u32,
    pub number: u64,
}

#[repr(C)]
#[derive(Clone, Copy, PartialEq, Eq, Debug)]
pub struct Part {
    pub place: usize,
    pub length: usize,
}

#[repr(C)]
#[derive(Clone, Copy, PartialEq, Eq, Debug)]
pub struct Verdict {
    pub what: u32,
    pub place: u64,
}

#[derive(Clone, Copy)]
pub struct Table<'a> {
    pub letters: &'a [u16],
    pub pairs: &'a [u16],
    pub how_many: u64,
}

#[derive(Clone, Copy)]
pub struct Lists<'a> {
    pub text: &'a [u8],
    pub starts: &'a [u32],
    pub places: &'a [u32],
}

extern "C" {
    fn nullahbowl_key(
        letters: *const u16,
        letters_len: usize,
        pairs: *const u16,
        pairs_len: usize,
        how_many: u64,
        name: *const u8,
        name_len: usize,
        room: *mut u16,
        room_len: usize,
    ) -> KeyAnswer;
    fn nullahbowl_find(
        letters: *const u16,
        letters_len: usize,
        pairs: *const u16,
        pairs_len: usize,
        how_many: u64,
        text: *const u8,
        text_len: usize,
        starts: *const u32,
        starts_len: usize,
        places: *const u32,
        places_len: usize,
        ask: *const u8,
        ask_len: usize,
    ) -> Part;
    fn nullahbowl_check(
        letters: *const u16,
        letters_len: usize,
        pairs: *const u16,
        pairs_len: usize,
        how_many: u64,
        text: *const u8,
        text_len: usize,
        starts: *const u32,
        starts_len: usize,
        places: *const u32,
        places_len: usize,
    ) -> Verdict;
    fn nullahbowl_find_each(
        letters: *const u16,
        letters_len: usize,
        pairs: *const u16,
        pairs_len: usize,
        how_many: u64,
        text: *const u8,
        text_len: usize,
        starts: *const u32,
        starts_len: usize,
        places: *const u32,
        places_len: usize,
        asks: *const u8,
        asks_len: usize,
        ask_starts: *const u32,
        ask_starts_len: usize,
        parts: *mut Part,
        parts_len: usize,
    ) -> Verdict;
}

// Calls a function of a table and of slices, each as a pointer and a length. No slice's pointer is null or unaligned, and what is
// lent to be written is lent to nobody else: that is all that is asked.
macro_rules! call {
    ($function:ident, $table:expr $(, $slice:expr => $pointer:ident)*) => {
        unsafe {
            $function(
                $table.letters.as_ptr(),
                $table.letters.len(),
                $table.pairs.as_ptr(),
                $table.pairs.len(),
                $table.how_many
                $(, $slice.$pointer(), $slice.len())*
            )
        }
    };
}

// The same of a function that takes lists behind the table.
macro_rules! call_with_lists {
    ($function:ident, $table:expr, $lists:expr $(, $slice:expr => $pointer:ident)*) => {
        call!(
            $function,
            $table,
            $lists.text => as_ptr,
            $lists.starts => as_ptr,
            $lists.places => as_ptr
            $(, $slice => $pointer)*
        )
    };
}

pub fn key(table: Table, name: &[u8], room: &mut [u16]) -> KeyAnswer {
    call!(nullahbowl_key, table, name => as_ptr, room => as_mut_ptr)
}

pub fn find(table: Table, lists: Lists, ask: &[u8]) -> Part {
    call_with_lists!(nullahbowl_find, table, lists, ask => as_ptr)
}

pub fn check(table: Table, lists: Lists) -> Verdict {
    call_with_lists!(nullahbowl_check, table, lists)
}

pub fn find_each(table: Table, lists: Lists, asks: &[u8], ask_starts: &[u32], parts: &mut [Part]) -> Verdict {
    call_with_lists!(nullahbowl_find_each, table, lists, asks => as_ptr, ask_starts => as_ptr, parts => as_mut_ptr)
}
