// The same in plain Rust, written for speed and to be read: tables checked, keys, names compared, lists made, checked and
// searched, by the same rules.
use crate::input::{Numbers, Texts};
use crate::lists::{part, Keys};
use std::cmp::Ordering;

const MAX_PAIRS: u64 = 200;
const MAX_NAME: usize = 1000;
// No row, or no pair: there are at most 200.
const NONE: u8 = u8::MAX;

type Weights = [u16; 3];

#[derive(Clone, Copy)]
struct Letter {
    weights: Weights,
    // The row of the pairs that begin with it, where some do.
    row: u8,
}

pub struct Table {
    letters: [Letter; 256],
    // For a letter that begins a pair: which pair it is with each letter behind it.
    rows: Vec<[u8; 256]>,
    pairs: Vec<Weights>,
}

impl Table {
    // Numbers as a table, where they are one.
    pub fn check(numbers: &Numbers) -> Option<Table> {
        let how_many = numbers.how_many();
        let shape = numbers.letters.len() == 3 * 256 && numbers.pairs.len() as u64 == 5 * how_many && how_many <= MAX_PAIRS;
        if !shape {
            return None;
        }
        let mut letters = [Letter { weights: [0; 3], row: NONE }; 256];
        for (letter, weights) in letters.iter_mut().zip(numbers.letters.chunks_exact(3)) {
            letter.weights.copy_from_slice(weights);
        }
        let mut table = Table { letters, rows: Vec::new(), pairs: Vec::new() };
        for pair in numbers.pairs.chunks_exact(5) {
            let first = u8::try_from(pair[0]).ok()?;
            let second = u8::try_from(pair[1]).ok()?;
            let letter = &mut table.letters[first as usize];
            if letter.row == NONE {
                letter.row = table.rows.len() as u8;
                table.rows.push([NONE; 256]);
            }
            let place = &mut table.rows[letter.row as usize][second as usize];
            if *place != NONE {
                return None;
            }
            *place = table.pairs.len() as u8;
            table.pairs.push([pair[2], pair[3], pair[4]]);
        }
        Some(table)
    }

    // What the next one or two letters weigh, and what is behind them.
    #[inline]
    fn piece<'n>(&self, name: &'n [u8]) -> Option<(&Weights, &'n [u8])> {
        let (first, rest) = name.split_first()?;
        let letter = &self.letters[*first as usize];
        if let (Some(row), Some((second, behind))) = (self.rows.get(letter.row as usize), rest.split_first()) {
            if let Some(pair) = self.pairs.get(row[*second as usize] as usize) {
                return Some((pair, behind));
            }
        }
        Some((&letter.weights, rest))
    }

    fn row<'a, const LEVEL: usize>(&'a self, name: &'a [u8]) -> Row<'a, LEVEL> {
        Row { table: self, rest: name }
    }

    // A name's key, put behind what stands in `out`. The name is read once.
    fn push_key(&self, mut name: &[u8], later: &mut [Vec<u32>; 2], out: &mut Vec<u32>) {
        let [second, third] = later;
        second.clear();
        third.clear();
        while let Some((weights, rest)) = self.piece(name) {
            name = rest;
            for (weight, row) in weights.iter().zip([&mut *out, &mut *second, &mut *third]) {
                if *weight != 0 {
                    row.push(*weight as u32);
                }
            }
        }
        out.push(0);
        out.extend_from_slice(second);
        out.push(0);
        out.extend_from_slice(third);
    }

    // A name's key in a vector of its own, row after row, as one writes it first.
    pub fn key(&self, name: &[u8]) -> Vec<u32> {
        let mut key = Vec::with_capacity(3 * name.len() + 2);
        key.extend(self.row::<0>(name).map(u32::from));
        key.push(0);
        key.extend(self.row::<1>(name).map(u32::from));
        key.push(0);
        key.extend(self.row::<2>(name).map(u32::from));
        key
    }

    // Rows are read side by side, level after level, up to the first difference.
    pub fn compare(&self, a: &[u8], b: &[u8]) -> Ordering {
        self.row::<0>(a)
            .cmp(self.row::<0>(b))
            .then_with(|| self.row::<1>(a).cmp(self.row::<1>(b)))
            .then_with(|| self.row::<2>(a).cmp(self.row::<2>(b)))
    }

    // The same from behind what both begin with, as far as the last letter there that begins no pair.
    pub fn compare_the_rest(&self, a: &[u8], b: &[u8]) -> Ordering {
        let alike = a.iter().zip(b).take_while(|(a, b)| a == b).count();
        let last = a[..alike].iter().rposition(|letter| self.letters[*letter as usize].row == NONE);
        let from = last.map_or(0, |last| last + 1);
        self.compare(&a[from..], &b[from..])
    }

    // Whether a name's first row is before that of what is asked, begins with it, or is after it.
    fn standing(&self, name: &[u8], ask: &[u8]) -> Ordering {
        let mut row = self.row::<0>(name);
        for weight in self.row::<0>(ask) {
            let order = row.next().cmp(&Some(weight));
            if order.is_ne() {
                return order;
            }
        }
        Ordering::Equal
    }
}

// The weights of a level that count.
struct Row<'a, const LEVEL: usize> {
    table: &'a Table,
    rest: &'a [u8],
}

impl<const LEVEL: usize> Iterator for Row<'_, LEVEL> {
    type Item = u16;

    #[inline]
    fn next(&mut self) -> Option<u16> {
        loop {
            let (weights, rest) = self.table.piece(self.rest)?;
            self.rest = rest;
            if weights[LEVEL] != 0 {
                return Some(weights[LEVEL]);
            }
        }
    }
}

// Whether starts are as they should be: none is before the one in front of it, no name is too long, the last is the end.
fn names_are_sound(names: &Texts) -> bool {
    let rising = |two: &[u32]| two[0] <= two[1] && (two[1] - two[0]) as usize <= MAX_NAME;
    names.starts.windows(2).all(rising) && names.starts.last().is_some_and(|end| *end as usize == names.text.len())
}

// A list of names in order.
pub struct Catalogue<'a> {
    table: &'a Table,
    names: &'a Texts,
    places: &'a [u32],
}

impl<'a> Catalogue<'a> {
    // Lists as a catalogue, where they are one.
    pub fn check(table: &'a Table, names: &'a Texts, places: &'a [u32]) -> Option<Catalogue<'a>> {
        let catalogue = Catalogue { table, names, places };
        let sound = names_are_sound(names) && places.iter().all(|number| (*number as usize) < names.len());
        let in_order = |two: &[u32]| table.compare(catalogue.name(two[0]), catalogue.name(two[1])).is_le();
        (sound && places.windows(2).all(in_order)).then_some(catalogue)
    }

    fn name(&self, number: u32) -> &'a [u8] {
        self.names.at(number as usize)
    }

    // The part of the list that begins so. No key is stored and none is made: first rows are read side by side.
    pub fn find(&self, ask: &[u8]) -> &'a [u32] {
        match ask.len() {
            0..=MAX_NAME => part(self.places, |number| self.table.standing(self.name(number), ask)),
            _ => &[],
        }
    }

    // The same by two cuts through the list.
    pub fn find_by_two_cuts(&self, ask: &[u8]) -> &'a [u32] {
        let standing = |number: &u32| self.table.standing(self.name(*number), ask);
        let low = self.places.partition_point(|number| standing(number).is_lt());
        let part = &self.places[low..];
        &part[..part.partition_point(|number| standing(number).is_eq())]
    }

    // The same with a key made for each comparison, as one writes it first.
    pub fn find_by_new_keys(&self, ask: &[u8]) -> &'a [u32] {
        let row: Vec<u32> = self.table.row::<0>(ask).map(u32::from).collect();
        let low = self.places.partition_point(|number| self.table.key(self.name(*number)) < row);
        let part = &self.places[low..];
        &part[..part.partition_point(|number| self.table.key(self.name(*number)).starts_with(&row))]
    }
}

// All names' keys.
pub fn stored_keys(table: &Table, names: &Texts) -> Keys<u32> {
    let mut keys = Keys::with_capacity(names.len(), 3 * names.text.len() + 2 * names.len());
    let mut later = [Vec::new(), Vec::new()];
    for name in names.iter() {
        table.push_key(name, &mut later, &mut keys.all);
        keys.end_key();
    }
    keys
}

// The part of a list that begins so, by stored keys.
pub fn find_by_stored_keys<'a>(table: &Table, keys: &Keys<u32>, places: &'a [u32], ask: &[u8]) -> &'a [u32] {
    let row: Vec<u32> = table.row::<0>(ask).map(u32::from).collect();
    part(places, |number| {
        let key = keys.key(number);
        key[..key.len().min(row.len())].cmp(&row)
    })
}

// What follows is timed; it answers what the functions of the library do.

// How many numbers all keys have together. The last key is left in `room`.
pub fn keys(numbers: &Numbers, names: &Texts, room: &mut Vec<u32>) -> Option<u64> {
    let table = Table::check(numbers).filter(|_| names_are_sound(names))?;
    let mut later = [Vec::new(), Vec::new()];
    let mut all = 0;
    for name in names.iter() {
        room.clear();
        table.push_key(name, &mut later, room);
        all += room.len() as u64;
    }
    Some(all)
}

// The same with a vector for each key.
pub fn own_keys(numbers: &Numbers, names: &Texts) -> Option<u64> {
    let table = Table::check(numbers).filter(|_| names_are_sound(names))?;
    Some(names.iter().map(|name| table.key(name).len() as u64).sum())
}

// How many names of a list are before the next.
pub fn compares(
    numbers: &Numbers,
    names: &Texts,
    places: &[u32],
    compare: impl Fn(&Table, &[u8], &[u8]) -> Ordering,
) -> Option<u64> {
    let table = Table::check(numbers).filter(|_| names_are_sound(names))?;
    let before = |two: &&[u32]| compare(&table, names.at(two[0] as usize), names.at(two[1] as usize)).is_lt();
    Some(places.windows(2).filter(before).count() as u64)
}

// How many names begin so. All is checked.
pub fn find(numbers: &Numbers, names: &Texts, places: &[u32], ask: &[u8]) -> Option<u64> {
    let table = Table::check(numbers)?;
    let catalogue = Catalogue::check(&table, names, places)?;
    Some(catalogue.find(ask).len() as u64)
}

pub fn check(numbers: &Numbers, names: &Texts, places: &[u32]) -> bool {
    Table::check(numbers).is_some_and(|table| Catalogue::check(&table, names, places).is_some())
}

// All names in order, by keys in one vector.
pub fn list(numbers: &Numbers, names: &Texts) -> Option<Vec<u32>> {
    let table = Table::check(numbers).filter(|_| names_are_sound(names))?;
    Some(stored_keys(&table, names).in_order())
}

// The same with a vector for each key.
pub fn list_by_own_keys(numbers: &Numbers, names: &Texts) -> Option<Vec<u32>> {
    let table = Table::check(numbers).filter(|_| names_are_sound(names))?;
    let mut places: Vec<u32> = (0..names.len() as u32).collect();
    places.sort_by_cached_key(|number| table.key(names.at(*number as usize)));
    Some(places)
}

// The same without keys.
pub fn list_by_comparing(numbers: &Numbers, names: &Texts) -> Option<Vec<u32>> {
    let table = Table::check(numbers).filter(|_| names_are_sound(names))?;
    let name = |number: &u32| names.at(*number as usize);
    let mut places: Vec<u32> = (0..names.len() as u32).collect();
    places.sort_unstable_by(|a, b| table.compare(name(a), name(b)).then(a.cmp(b)));
    Some(places)
}
