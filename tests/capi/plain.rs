// The rules once more, as plainly as they can be said: what the library should answer.
use crate::library::{KeyAnswer, Lists, Part, Table, Verdict};

pub const MAX_NAME: usize = 1000;

// Why the numbers are no table: the place of the fault.
pub fn table_fault(table: Table) -> Option<u64> {
    if table.letters.len() != 768 {
        return Some(0);
    }
    if table.pairs.len() as u128 != 5 * table.how_many as u128 {
        return Some(0);
    }
    if table.how_many > 200 {
        return Some(0);
    }
    let pairs: Vec<&[u16]> = table.pairs.chunks(5).collect();
    for (place, pair) in pairs.iter().enumerate() {
        if pair[0] > 255 || pair[1] > 255 {
            return Some(place as u64);
        }
    }
    for (place, pair) in pairs.iter().enumerate() {
        if pairs[..place].iter().any(|earlier| earlier[..2] == pair[..2]) {
            return Some(place as u64);
        }
    }
    None
}

// What a name is read as: the weights of each piece.
fn pieces(table: Table, name: &[u8]) -> Vec<[u16; 3]> {
    let mut pieces = Vec::new();
    let mut rest = name;
    while !rest.is_empty() {
        let pair = rest.get(1).and_then(|second| {
            table.pairs.chunks(5).find(|pair| pair[0] == rest[0] as u16 && pair[1] == *second as u16)
        });
        match pair {
            Some(pair) => {
                pieces.push([pair[2], pair[3], pair[4]]);
                rest = &rest[2..];
            }
            None => {
                let at = 3 * rest[0] as usize;
                pieces.push([table.letters[at], table.letters[at + 1], table.letters[at + 2]]);
                rest = &rest[1..];
            }
        }
    }
    pieces
}

fn row_of(pieces: &[[u16; 3]], level: usize) -> Vec<u16> {
    pieces.iter().map(|weights| weights[level]).filter(|weight| *weight != 0).collect()
}

pub fn first_row(table: Table, name: &[u8]) -> Vec<u16> {
    row_of(&pieces(table, name), 0)
}

pub fn key(table: Table, name: &[u8]) -> Vec<u16> {
    let pieces = pieces(table, name);
    [row_of(&pieces, 0), row_of(&pieces, 1), row_of(&pieces, 2)].join(&0)
}

// What nullahbowl_key answers, and the key where it is written.
pub fn key_answer(table: Table, name: &[u8], room: usize) -> (KeyAnswer, Vec<u16>) {
    if table_fault(table).is_some() {
        return (KeyAnswer { what: 2, number: 1 }, Vec::new());
    }
    if name.len() > MAX_NAME {
        return (KeyAnswer { what: 2, number: 2 }, Vec::new());
    }
    let key = key(table, name);
    let number = key.len() as u64;
    if key.len() > room {
        return (KeyAnswer { what: 1, number }, Vec::new());
    }
    (KeyAnswer { what: 0, number }, key)
}

pub const FINE: Verdict = Verdict { what: 0, place: 0 };

// What is wrong with the starts of names, or of questions, in a text.
pub fn names_verdict(text: &[u8], starts: &[u32]) -> Verdict {
    let Some(last) = starts.last() else {
        return Verdict { what: 2, place: 0 };
    };
    for place in 1..starts.len() {
        if starts[place] < starts[place - 1] {
            return Verdict { what: 3, place: place as u64 };
        }
    }
    if *last as usize != text.len() {
        return Verdict { what: 5, place: starts.len() as u64 - 1 };
    }
    for number in 1..starts.len() {
        if starts[number] - starts[number - 1] > MAX_NAME as u32 {
            return Verdict { what: 4, place: number as u64 - 1 };
        }
    }
    FINE
}

pub fn name<'a>(text: &'a [u8], starts: &[u32], number: usize) -> &'a [u8] {
    &text[starts[number] as usize..starts[number + 1] as usize]
}

// What is known of table and lists: what is wrong with them, and where nothing is the first rows of the names in the list.
pub struct Known {
    pub verdict: Verdict,
    rows: Vec<Vec<u16>>,
}

pub fn know(table: Table, lists: Lists) -> Known {
    let wrong = |what, place| Known { verdict: Verdict { what, place }, rows: Vec::new() };
    if let Some(place) = table_fault(table) {
        return wrong(1, place);
    }
    let names = names_verdict(lists.text, lists.starts);
    if names != FINE {
        return wrong(names.what, names.place);
    }
    for (place, number) in lists.places.iter().enumerate() {
        if *number as usize + 1 >= lists.starts.len() {
            return wrong(6, place as u64);
        }
    }
    let listed = || lists.places.iter().map(|number| name(lists.text, lists.starts, *number as usize));
    let keys: Vec<Vec<u16>> = listed().map(|name| key(table, name)).collect();
    for place in 1..keys.len() {
        if keys[place] < keys[place - 1] {
            return wrong(7, place as u64);
        }
    }
    Known { verdict: FINE, rows: listed().map(|name| first_row(table, name)).collect() }
}

impl Known {
    // What nullahbowl_find answers: the whole list is looked through.
    pub fn part(&self, table: Table, ask: &[u8]) -> Part {
        if self.verdict != FINE || ask.len() > MAX_NAME {
            return Part { place: 0, length: 0 };
        }
        let asked = first_row(table, ask);
        let length = self.rows.iter().filter(|row| row.starts_with(&asked)).count();
        let place = self.rows.iter().filter(|row| **row < asked).count();
        assert!(self.rows[place..place + length].iter().all(|row| row.starts_with(&asked)));
        Part { place, length }
    }
}
