// Drives the library beside a plain reading of the same rules (plain.rs), on inputs that are made from a fixed seed
// (inputs.rs) and often damaged (damage.rs): what it answers, that it writes what it should and nothing else, and that it
// reads nothing past the ends of what is lent (lent.rs). It says how many cases of each kind there were. A difference, or a
// kind of which there was no case, ends it with 1.
mod damage;
mod each;
mod inputs;
mod lent;
mod library;
mod plain;

use inputs::{Input, Random};
use lent::Fenced;
use library::{Lists, Table};
use std::collections::BTreeMap;
use std::ffi::c_int;
use std::process::ExitCode;
use std::sync::atomic::{AtomicU64, Ordering};

// The number of the case under way.
static CASE: AtomicU64 = AtomicU64::new(1);

extern "C" {
    fn signal(number: c_int, handler: extern "C" fn(c_int)) -> usize;
    fn alarm(seconds: u32) -> u32;
}

// Ends the program where the library is stopped: by a fence, by itself, or since it does not return.
extern "C" fn stopped(number: c_int) {
    println!("drive: case {}: the library is stopped by signal {number}", CASE.load(Ordering::Relaxed));
    std::process::exit(1);
}

// How many cases of each kind, and how many differences.
#[derive(Default)]
struct Tally {
    kinds: BTreeMap<String, u64>,
    differences: u64,
}

impl Tally {
    // Kinds that have to occur.
    fn want(&mut self, kinds: impl IntoIterator<Item = String>) {
        self.kinds.extend(kinds.into_iter().map(|kind| (kind, 0)));
    }

    // One case of a kind.
    fn case(&mut self, kind: &str, same: bool, tell: impl FnOnce() -> String) {
        let number = CASE.fetch_add(1, Ordering::Relaxed);
        *self.kinds.entry(kind.into()).or_default() += 1;
        if !same {
            self.difference(number, || format!("{kind}: {}", tell()));
        }
    }

    // A difference. The first is told.
    fn difference(&mut self, number: u64, tell: impl FnOnce() -> String) {
        self.differences += 1;
        if self.differences == 1 {
            println!("drive: case {number}: {}", tell());
        }
    }

    // What is lent for reading has to be as it was when the last case is done.
    fn only_read(&mut self, holds: bool, input: &Input) {
        if !holds {
            let number = CASE.load(Ordering::Relaxed) - 1;
            self.difference(number, || format!("what is lent for reading is written to; {}", lengths(input)));
        }
    }

    // The kinds of each function in a line.
    fn print(&self) {
        let mut lines: BTreeMap<&str, Vec<String>> = BTreeMap::new();
        for (kind, count) in &self.kinds {
            let (function, what) = kind.split_once(": ").unwrap();
            lines.entry(function).or_default().push(format!("{what} {count}"));
        }
        for (function, kinds) in lines {
            println!("  {function}: {}", kinds.join(", "));
        }
    }
}

// Pages for what is lent.
struct Memory {
    letters: Fenced<u16>,
    pairs: Fenced<u16>,
    text: Fenced<u8>,
    starts: Fenced<u32>,
    places: Fenced<u32>,
    name: Fenced<u8>,
    room: Fenced<u16>,
}

impl Memory {
    fn new() -> Memory {
        Memory {
            letters: Fenced::new(1),
            pairs: Fenced::new(16),
            text: Fenced::new(256),
            starts: Fenced::new(64),
            places: Fenced::new(64),
            name: Fenced::new(2),
            room: Fenced::new(4),
        }
    }

    fn holds_table(&self, input: &Input) -> bool {
        self.letters.holds(&input.letters) && self.pairs.holds(&input.pairs)
    }

    fn holds(&self, input: &Input) -> bool {
        self.holds_table(input)
            && self.text.holds(&input.text)
            && self.starts.holds(&input.starts)
            && self.places.holds(&input.places)
    }
}

struct Drive {
    random: Random,
    memory: Memory,
    tally: Tally,
}

// How long what is lent is.
fn lengths(input: &Input) -> String {
    format!(
        "letters {}, pairs {} said to be {}, text {}, starts {}, places {}",
        input.letters.len(),
        input.pairs.len(),
        input.how_many,
        input.text.len(),
        input.starts.len(),
        input.places.len(),
    )
}

// What lies in the room, and on both sides of it, before a key is made.
const BLANK: u16 = 0xabcd;

impl Drive {
    fn key(&mut self, input: &Input, name: &[u8], room: usize) {
        let Drive { random, memory, tally } = self;
        let (answer, key) = plain::key_answer(input.table(), name, room);
        let kind = match (answer.what, answer.number) {
            (0, _) => "key: written",
            (1, _) => "key: too short a room",
            (_, 1) => "key: no table",
            _ => "key: too long a name",
        };
        let at_end = random.one_in(2);
        // The room ends at the fence, or there are numbers behind it that have to stay.
        let around = random.of(&[0, 0, 8]);
        let mut after = vec![BLANK; room + 2 * around];
        let lent = memory.room.lend(&after, at_end);
        after[around..around + key.len()].copy_from_slice(&key);
        let table = Table {
            letters: memory.letters.lend(&input.letters, at_end),
            pairs: memory.pairs.lend(&input.pairs, at_end),
            how_many: input.how_many,
        };
        let got = library::key(table, memory.name.lend(name, at_end), &mut lent[around..around + room]);
        tally.case(kind, got == answer && *lent == after, || {
            let room_says = match (0..after.len()).find(|at| lent[*at] != after[*at]) {
                Some(at) => {
                    format!("place {} of the room is {}, not {}", at as isize - around as isize, lent[at], after[at])
                }
                None => "the room is right".into(),
            };
            format!("{got:?}, not {answer:?}; {room_says}; {}; room {room}, name {name:?}", lengths(input))
        });
        tally.only_read(memory.holds_table(input) && memory.name.holds(name), input);
    }

    // The lists checked, and asked with each question.
    fn lists(&mut self, input: &Input, asks: &[Vec<u8>]) {
        let Drive { random, memory, tally } = self;
        let known = plain::know(input.table(), input.lists());
        let verdict = known.verdict;
        let at_end = random.one_in(2);
        let table = Table {
            letters: memory.letters.lend(&input.letters, at_end),
            pairs: memory.pairs.lend(&input.pairs, at_end),
            how_many: input.how_many,
        };
        let lists = Lists {
            text: memory.text.lend(&input.text, at_end),
            starts: memory.starts.lend(&input.starts, at_end),
            places: memory.places.lend(&input.places, at_end),
        };
        let got = library::check(table, lists);
        tally.case(&format!("check: {}", verdict.what), got == verdict, || {
            format!("{got:?}, not {verdict:?}; {}", lengths(input))
        });
        for ask in asks {
            let part = known.part(table, ask);
            let kind = match (verdict.what, ask.len() > plain::MAX_NAME, part.length) {
                (1.., ..) => "find: no table or lists",
                (_, true, _) => "find: too long a question",
                (_, _, 0) => "find: part of none",
                _ => "find: part",
            };
            let got = library::find(table, lists, memory.name.lend(ask, at_end));
            tally.case(kind, got == part, || format!("{got:?}, not {part:?}; {}; asked with {ask:?}", lengths(input)));
            tally.only_read(memory.name.holds(ask), input);
        }
        tally.only_read(memory.holds(input), input);
    }
}

// Tables, some of them damaged, and names under each.
fn drive_keys(drive: &mut Drive) {
    drive.tally.want(["written", "too short a room", "no table", "too long a name"].map(|kind| format!("key: {kind}")));
    for _ in 0..4000 {
        let mut input = inputs::any_table(&mut drive.random);
        if drive.random.one_in(3) {
            damage::table(&mut drive.random, &mut input);
        }
        for _ in 0..8 {
            let random = &mut drive.random;
            let name = inputs::any_name(random, &input.alphabet);
            let needs = plain::key_answer(input.table(), &name, 0).0.number as usize;
            let room = match random.below(8) {
                0 => 0,
                1 | 2 => needs.saturating_sub(1),
                3 => needs + 1,
                4 => needs + random.below(100),
                5 => random.below(needs + 1),
                _ => needs,
            };
            drive.key(&input, &name, room);
        }
    }
}

// Tables that are damaged, with no names; lists, some of them damaged, and questions to each; and a long list.
fn drive_lists(drive: &mut Drive) {
    drive.tally.want((0..8).map(|what| format!("check: {what}")));
    drive
        .tally
        .want(["part", "part of none", "no table or lists", "too long a question"].map(|kind| format!("find: {kind}")));
    for _ in 0..4000 {
        let random = &mut drive.random;
        let mut input = inputs::any_table(random);
        for _ in 0..1 + random.below(3) {
            damage::table(random, &mut input);
        }
        drive.lists(&input, &[]);
    }
    for _ in 0..6000 {
        let random = &mut drive.random;
        let mut input = inputs::any_lists(random);
        let asks: Vec<Vec<u8>> = (0..random.below(6)).map(|_| inputs::question(random, &input)).collect();
        damage::any(random, &mut input);
        drive.lists(&input, &asks);
    }
    let long = inputs::long_lists(&mut drive.random);
    let asks: Vec<Vec<u8>> = (0..20).map(|_| inputs::question(&mut drive.random, &long)).collect();
    drive.lists(&long, &asks);
}

fn main() -> ExitCode {
    // SIGILL, SIGABRT, SIGBUS, SIGFPE, SIGSEGV and SIGALRM
    for number in [4, 6, 7, 8, 11, 14] {
        unsafe { signal(number, stopped) };
    }
    unsafe { alarm(240) };
    let mut drive = Drive { random: Random::new(20_260_101), memory: Memory::new(), tally: Tally::default() };
    drive_keys(&mut drive);
    drive_lists(&mut drive);
    each::drive_each(&mut drive);
    drive.tally.print();
    println!("drive: {} cases, {} differences", CASE.load(Ordering::Relaxed) - 1, drive.tally.differences);
    let missing = drive.tally.kinds.values().any(|count| *count == 0);
    if missing {
        println!("drive: of some kind there was no case");
    }
    ExitCode::from((missing || drive.tally.differences > 0) as u8)
}
