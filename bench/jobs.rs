// The same jobs done by ours, by plain Rust, and by ICU and glibc: their answers compared, and their times.
use crate::input::{questions, Numbers, Texts};
use crate::lists::Keys;
use crate::names::Random;
use crate::others::{Collator, Ended};
use crate::plain::{Catalogue, Table};
use crate::race::{Job, Races};
use crate::table::{grouped, Row};
use crate::{ours, plain, MAX_NAME, SEED};
use std::fmt::Debug;
use std::hint::black_box;

// Each run goes over so many names, or questions, at least, so that it takes long enough to be timed.
const LEAST: usize = 100_000;
const LARGE: usize = 1_000_000;
// So many names' keys are compared number by number.
const KEYS_COMPARED: usize = 1000;

// Names under a table, and what is asked of them.
pub struct Bench<'a> {
    numbers: &'a Numbers,
    table: Table,
    names: Texts,
    // In order.
    places: Vec<u32>,
    asks: Texts,
    // A tenth of them, for what takes long.
    few_asks: Texts,
    icu: Option<Other<'a>>,
    glibc: Option<Other<'a>>,
    rounds: usize,
}

// The same names as ICU or glibc has them.
struct Other<'a> {
    collator: &'a dyn Collator,
    names: Ended,
    keys: Keys<u8>,
    places: Vec<u32>,
    asks: Ended,
}

impl<'a> Other<'a> {
    fn new(collator: &'a dyn Collator, names: &Texts, asks: &Texts) -> Result<Other<'a>, String> {
        let names = Ended::of(names);
        let keys = collator.stored_keys(&names);
        let places = keys.in_order();
        let what = format!("{}: names not behind the next by keys and by comparing", collator.version());
        same(&what, places.len() as u64 - 1, collator.compares(&names, &places))?;
        Ok(Other { collator, names, keys, places, asks: Ended::of(asks) })
    }
}

// Where two sides should answer the same.
fn same<T: PartialEq + Debug>(what: &str, one: T, other: T) -> Result<(), String> {
    match one == other {
        true => Ok(()),
        false => Err(format!("{what}: not the same: {one:?} and {other:?}")),
    }
}

fn same_list(what: &str, one: &[u32], other: &[u32]) -> Result<(), String> {
    match one.iter().zip(other).position(|(one, other)| one != other) {
        None => same(what, one.len(), other.len()),
        Some(place) => Err(format!("{what}: not the same at place {place}")),
    }
}

// A job for a race, done so many times over.
fn job<'a>(repeats: usize, mut once: impl FnMut() -> u64 + 'a) -> Option<Job<'a>> {
    Some(Box::new(move || (0..repeats).map(|_| once()).sum()))
}

// The same of ICU or glibc, where they are there.
fn job_of<'a>(other: &'a Option<Other>, repeats: usize, once: impl Fn(&Other) -> u64 + 'a) -> Option<Job<'a>> {
    other.as_ref().and_then(|other| job(repeats, move || once(other)))
}

impl<'a> Bench<'a> {
    // Runs are 5, or 3 of very many names, unless it is said how many. Where answers differ it says where.
    pub fn new(
        numbers: &'a Numbers,
        names: Texts,
        [icu, glibc]: [Option<&'a dyn Collator>; 2],
        rounds: Option<usize>,
    ) -> Result<Bench<'a>, String> {
        if names.len() < 2 {
            return Err("it wants two names at least".to_string());
        }
        let table = Table::check(numbers).ok_or("plain Rust turns the table away")?;
        let places = plain::list(numbers, &names).ok_or("plain Rust turns the names away")?;
        let asks = questions(&names, names.len().max(LEAST), &mut Random(SEED + 1));
        let few_asks = Texts::of(asks.iter().take(asks.len() / 10));
        let other = |collator: Option<&'a dyn Collator>| collator.map(|one| Other::new(one, &names, &asks)).transpose();
        let (icu, glibc) = (other(icu)?, other(glibc)?);
        let rounds = rounds.unwrap_or(if names.len() < LARGE { 5 } else { 3 });
        let bench = Bench { numbers, table, names, places, asks, few_asks, icu, glibc, rounds };
        bench.compare_answers()?;
        Ok(bench)
    }

    fn catalogue(&self) -> Result<Catalogue<'_>, String> {
        Catalogue::check(&self.table, &self.names, &self.places).ok_or("plain Rust turns its own list away".to_string())
    }

    fn compare_answers(&self) -> Result<(), String> {
        let Bench { numbers, table, names, places, asks, few_asks, .. } = self;
        let catalogue = self.catalogue()?;

        let mut room = vec![0; 3 * MAX_NAME + 2];
        for name in names.iter().take(KEYS_COMPARED) {
            let length = ours::keys(numbers, &Texts::of([name]), &mut room) as usize;
            same("a key", &room[..length], &table.key(name)[..])?;
        }
        let all = Some(ours::keys(numbers, names, &mut room));
        same("numbers of all keys", all, plain::keys(numbers, names, &mut Vec::new()))?;
        same("numbers of all own keys", all, plain::own_keys(numbers, names))?;

        let mut list = vec![0; names.len()];
        same("whether a list can be made", ours::list(numbers, names, &mut list), true)?;
        same_list("the list", &list, places)?;
        same_list("the list by own keys", &plain::list_by_own_keys(numbers, names).unwrap_or_default(), places)?;
        same_list("the list without keys", &plain::list_by_comparing(numbers, names).unwrap_or_default(), places)?;
        let before = Some(ours::compares(numbers, names, places));
        same("names before the next", before, plain::compares(numbers, names, places, Table::compare))?;
        same("names before the next by the rest", before, plain::compares(numbers, names, places, Table::compare_the_rest))?;
        same("whether a list is right", ours::check(numbers, names, places), plain::check(numbers, names, places))?;
        list.reverse();
        same("whether it is when turned round", ours::check(numbers, names, &list), plain::check(numbers, names, &list))?;

        let found = |asks: &Texts, find: &dyn Fn(&[u8]) -> usize| asks.iter().map(find).sum::<usize>() as u64;
        let by_rows = |ask: &[u8]| catalogue.find(ask).len();
        let all = found(asks, &by_rows);
        same("names found", ours::finds(numbers, names, places, asks), all)?;
        same("names found by two cuts", found(asks, &|ask| catalogue.find_by_two_cuts(ask).len()), all)?;
        let stored = plain::stored_keys(table, names);
        let by_stored = |ask: &[u8]| plain::find_by_stored_keys(table, &stored, places, ask).len();
        same("names found by stored keys", found(asks, &by_stored), all)?;
        let by_new = |ask: &[u8]| catalogue.find_by_new_keys(ask).len();
        same("names found by new keys", found(few_asks, &by_new), found(few_asks, &by_rows))?;
        for ask in asks.iter().take(10) {
            same("names found with all checks", ours::find(numbers, names, places, ask), by_rows(ask) as u64)?;
        }

        if let Some(icu) = &self.icu {
            same_list("the list of ICU without keys", &icu.collator.list_by_comparing(&icu.names), &icu.places)?;
        }
        Ok(())
    }

    // What was timed, in a line.
    pub fn note(&self) -> Result<String, String> {
        let catalogue = self.catalogue()?;
        let none = self.asks.iter().filter(|ask| catalogue.find(ask).is_empty()).count();
        Ok(format!(
            "{} names of {:.1} letters, pairs: {}; {} questions, of which {:.1} % find nothing; best of {}",
            grouped(self.names.len()),
            self.names.text.len() as f64 / self.names.len() as f64,
            self.numbers.how_many(),
            grouped(self.asks.len()),
            100.0 * none as f64 / self.asks.len() as f64,
            self.rounds
        ))
    }

    // So often a job over all names is repeated in a run.
    fn repeats(&self) -> usize {
        LEAST.div_ceil(self.names.len())
    }

    // The times of a race, of which each went over so many.
    fn row(&self, job: &'static str, how_many: usize, times: [Option<f64>; 4]) -> Row {
        let [ours, theirs @ ..] = times.map(|time| time.map(|time| time / how_many as f64));
        Row { job, names: self.names.len(), pairs: self.numbers.how_many(), ours: ours.unwrap_or(f64::NAN), theirs }
    }

    pub fn rows(&self, races: &mut Races) -> Result<Vec<Row>, String> {
        let mut rows = Vec::from(self.keys(races));
        rows.extend(self.compares(races));
        rows.extend(self.finds(races)?);
        rows.push(self.find_with_checks(races));
        rows.extend(self.lists(races));
        rows.push(self.checks(races));
        rows.extend(self.in_utf8(races));
        Ok(rows)
    }

    fn keys(&self, races: &mut Races) -> [Row; 2] {
        let Bench { numbers, names, .. } = self;
        let repeats = self.repeats();
        let mut room = vec![0; 3 * MAX_NAME + 2];
        let mut plain_room = Vec::new();
        let jobs = [
            job(repeats, || ours::keys(numbers, names, &mut room)),
            job(repeats, || plain::keys(black_box(numbers), names, &mut plain_room).unwrap_or(0)),
            job_of(&self.icu, repeats, |icu| icu.collator.keys(&icu.names)),
            job_of(&self.glibc, repeats, |glibc| glibc.collator.keys(&glibc.names)),
            job(repeats, || plain::own_keys(black_box(numbers), names).unwrap_or(0)),
        ];
        let [ours, plain, icu, glibc, own] = races.race(self.rounds, jobs);
        [
            self.row("key", repeats * names.len(), [ours, plain, icu, glibc]),
            self.row("key, theirs in a vector of its own", repeats * names.len(), [ours, own, None, None]),
        ]
    }

    fn compares(&self, races: &mut Races) -> [Row; 2] {
        let Bench { numbers, names, places, .. } = self;
        let repeats = self.repeats();
        let compared = repeats * (names.len() - 1);
        let jobs = [
            job(repeats, || ours::compares(numbers, names, places)),
            job(repeats, || plain::compares(black_box(numbers), names, places, Table::compare).unwrap_or(0)),
            job_of(&self.icu, repeats, |icu| icu.collator.compares(&icu.names, &icu.places)),
            job_of(&self.glibc, repeats, |glibc| glibc.collator.compares(&glibc.names, &glibc.places)),
            job(repeats, || plain::compares(black_box(numbers), names, places, Table::compare_the_rest).unwrap_or(0)),
        ];
        let [ours, plain, icu, glibc, rest] = races.race(self.rounds, jobs);
        [
            self.row("compare", compared, [ours, plain, icu, glibc]),
            self.row("compare, theirs skips what both begin with", compared, [ours, rest, None, None]),
        ]
    }

    // Ours checks first, with and without questions; the difference is what they cost.
    fn finds(&self, races: &mut Races) -> Result<[Row; 4], String> {
        let Bench { numbers, table, names, places, asks, few_asks, .. } = self;
        let catalogue = self.catalogue()?;
        let stored = plain::stored_keys(table, names);
        let none = Texts::of([[0; 0]; 0]);
        let jobs = [
            job(1, || ours::finds(numbers, names, places, asks)),
            job(1, || ours::finds(numbers, names, places, &none)),
            job(1, || asks.iter().map(|ask| catalogue.find(ask).len() as u64).sum()),
            job(1, || asks.iter().map(|ask| catalogue.find_by_two_cuts(ask).len() as u64).sum()),
            job(1, || asks.iter().map(|ask| plain::find_by_stored_keys(table, &stored, places, ask).len() as u64).sum()),
            job(1, || few_asks.iter().map(|ask| catalogue.find_by_new_keys(ask).len() as u64).sum()),
            job_of(&self.icu, 1, |icu| icu.collator.finds(&icu.keys, &icu.places, &icu.asks)),
        ];
        let [asked, not_asked, by_rows, by_two_cuts, by_stored, by_new, icu] = races.race(self.rounds, jobs);
        let ours = asked.zip(not_asked).map(|(asked, not_asked)| asked - not_asked);
        let by_new = by_new.map(|time| time * asks.len() as f64 / few_asks.len() as f64);
        Ok([
            self.row("find", asks.len(), [ours, by_rows, None, None]),
            self.row("find, theirs by two cuts", asks.len(), [ours, by_two_cuts, None, None]),
            self.row("find, theirs by stored keys", asks.len(), [ours, by_stored, icu, None]),
            self.row("find, theirs by a new key for each comparison", asks.len(), [ours, by_new, None, None]),
        ])
    }

    fn find_with_checks(&self, races: &mut Races) -> Row {
        let Bench { numbers, names, places, asks, .. } = self;
        let repeats = self.repeats();
        let mut next = (0..asks.len()).cycle();
        let mut plain_next = next.clone();
        let mut ask = move || asks.at(next.next().unwrap_or(0));
        let mut plain_ask = move || asks.at(plain_next.next().unwrap_or(0));
        let jobs = [
            job(repeats, || ours::find(numbers, names, places, ask())),
            job(repeats, || plain::find(black_box(numbers), names, places, plain_ask()).unwrap_or(0)),
            None,
            None,
        ];
        self.row("find, all checked each time", repeats, races.race(self.rounds, jobs))
    }

    fn lists(&self, races: &mut Races) -> [Row; 3] {
        let Bench { numbers, names, .. } = self;
        let repeats = self.repeats();
        let mut room = vec![0; names.len()];
        let length = |list: Option<Vec<u32>>| black_box(list).map_or(0, |list| list.len() as u64);
        let jobs = [
            job(repeats, || ours::list(numbers, names, &mut room).into()),
            job(repeats, || length(plain::list(black_box(numbers), names))),
            job_of(&self.icu, repeats, |icu| length(Some(icu.collator.stored_keys(&icu.names).in_order()))),
            job_of(&self.glibc, repeats, |glibc| length(Some(glibc.collator.stored_keys(&glibc.names).in_order()))),
            job(repeats, || length(plain::list_by_own_keys(black_box(numbers), names))),
            job(repeats, || length(plain::list_by_comparing(black_box(numbers), names))),
            job_of(&self.icu, repeats, |icu| length(Some(icu.collator.list_by_comparing(&icu.names)))),
        ];
        let [ours, plain, icu, glibc, by_own, by_comparing, icu_by_comparing] = races.race(self.rounds, jobs);
        [
            self.row("list", repeats, [ours, plain, icu, glibc]),
            self.row("list, theirs with a vector for each key", repeats, [ours, by_own, None, None]),
            self.row("list, theirs without keys", repeats, [ours, by_comparing, icu_by_comparing, None]),
        ]
    }

    // Ours of names in UTF-8 beside ours of bytes, where both read the same letters. Reading the names once beforehand, which
    // finds out whether they are names, is left out of comparing and finding, and is part of checking.
    fn in_utf8(&self, races: &mut Races) -> Vec<Row> {
        let Bench { numbers, names, places, asks, .. } = self;
        if !names.text.is_ascii() {
            return Vec::new();
        }
        let wide = numbers.in_utf8();
        let repeats = self.repeats();
        let none = Texts::of([[0; 0]; 0]);
        let (mut room, mut wide_room) = (vec![0; 3 * MAX_NAME + 2], vec![0; 3 * MAX_NAME + 2]);
        let (mut list, mut wide_list) = (vec![0; names.len()], vec![0; names.len()]);
        let jobs = [
            job(repeats, || ours::keys(&wide, names, &mut wide_room)),
            job(repeats, || ours::keys(numbers, names, &mut room)),
            job(repeats, || ours::compares(&wide, names, places)),
            job(repeats, || ours::compares(numbers, names, places)),
            job(repeats, || ours::compares(&wide, names, &[])),
            job(repeats, || ours::compares(numbers, names, &[])),
            job(1, || ours::finds(&wide, names, places, asks)),
            job(1, || ours::finds(&wide, names, places, &none)),
            job(1, || ours::finds(numbers, names, places, asks)),
            job(1, || ours::finds(numbers, names, places, &none)),
            job(repeats, || ours::list(&wide, names, &mut wide_list).into()),
            job(repeats, || ours::list(numbers, names, &mut list).into()),
        ];
        let [wide_key, key, wide_compare, compare, wide_read, read, wide_find, wide_check, find, check, wide_list, list] =
            races.race(self.rounds, jobs);
        let less = |asked: Option<f64>, not: Option<f64>| asked.zip(not).map(|(asked, not)| asked - not);
        let of_names = repeats * names.len();
        vec![
            self.row("key in UTF-8, beside ours of bytes", of_names, [wide_key, key, None, None]),
            self.row("compare in UTF-8, beside ours of bytes", of_names - repeats, [less(wide_compare, wide_read), less(compare, read), None, None]),
            self.row("find in UTF-8, beside ours of bytes", asks.len(), [less(wide_find, wide_check), less(find, check), None, None]),
            self.row("list in UTF-8, beside ours of bytes", repeats, [wide_list, list, None, None]),
            self.row("check of a list in UTF-8, beside ours of bytes", 1, [wide_check, check, None, None]),
        ]
    }

    fn checks(&self, races: &mut Races) -> Row {
        let Bench { numbers, names, places, .. } = self;
        let repeats = self.repeats();
        let jobs = [
            job(repeats, || ours::check(numbers, names, places).into()),
            job(repeats, || plain::check(black_box(numbers), names, places).into()),
            job_of(&self.icu, repeats, |icu| icu.collator.compares(&icu.names, &icu.places)),
            job_of(&self.glibc, repeats, |glibc| glibc.collator.compares(&glibc.names, &glibc.places)),
        ];
        self.row("check of a list", repeats, races.race(self.rounds, jobs))
    }
}
