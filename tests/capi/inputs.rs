// Inputs made from a seed, as they should be: tables, names, lists in order and questions; some are too long.
use crate::library::{Lists, Table};
use crate::plain;

// Numbers that look random (xorshift64*).
pub struct Random(u64);

impl Random {
    // The seed is not 0.
    pub fn new(seed: u64) -> Random {
        Random(seed)
    }

    pub fn next(&mut self) -> u64 {
        self.0 ^= self.0 >> 12;
        self.0 ^= self.0 << 25;
        self.0 ^= self.0 >> 27;
        self.0.wrapping_mul(0x2545_f491_4f6c_dd1d) >> 16
    }

    // A number below n.
    pub fn below(&mut self, n: usize) -> usize {
        (self.next() % n as u64) as usize
    }

    pub fn one_in(&mut self, n: usize) -> bool {
        self.below(n) == 0
    }

    pub fn of<T: Copy>(&mut self, choices: &[T]) -> T {
        choices[self.below(choices.len())]
    }
}

// Numbers for a call, owned. The alphabet is what names are made of.
#[derive(Clone)]
pub struct Input {
    pub alphabet: Vec<u8>,
    pub letters: Vec<u16>,
    pub pairs: Vec<u16>,
    pub how_many: u64,
    pub text: Vec<u8>,
    pub starts: Vec<u32>,
    pub places: Vec<u32>,
}

impl Input {
    pub fn table(&self) -> Table<'_> {
        Table { letters: &self.letters, pairs: &self.pairs, how_many: self.how_many }
    }

    pub fn lists(&self) -> Lists<'_> {
        Lists { text: &self.text, starts: &self.starts, places: &self.places }
    }
}

fn weight(random: &mut Random, flavour: usize) -> u16 {
    match flavour {
        0 => random.below(4) as u16,
        1 => random.of(&[0, 1, 255, 256, 257, 32767, 32768, 65534, 65535]),
        2 => random.below(65536) as u16,
        _ => 1 + random.below(65535) as u16,
    }
}

// A table that is one, for few letters or all.
pub fn any_table(random: &mut Random) -> Input {
    let size = random.of(&[2, 3, 5, 20, 256]);
    table(random, size)
}

// A table that is one, for an alphabet of so many letters: weights that are often equal or 0 or seldom, no pair up to 200.
pub fn table(random: &mut Random, size: usize) -> Input {
    let flavour = random.below(4);
    let mut all: Vec<u8> = (0..=255).collect();
    for at in 0..size {
        let with = at + random.below(256 - at);
        all.swap(at, with);
    }
    let alphabet = all[..size].to_vec();
    let letters = (0..768).map(|_| weight(random, flavour)).collect();
    let wanted = random.of(&[0, 1, 3, 10, 60, 199, 200]);
    // Pairs that begin alike, in some tables.
    let first = if random.one_in(4) { 1 } else { size };
    let mut there: Vec<(u8, u8)> = Vec::new();
    let mut pairs = Vec::new();
    for _ in 0..4 * wanted {
        let pair = (alphabet[random.below(first)], random.of(&alphabet));
        if there.len() < wanted && !there.contains(&pair) {
            there.push(pair);
            pairs.extend([pair.0 as u16, pair.1 as u16]);
            pairs.extend([0; 3].map(|_: u16| weight(random, flavour)));
        }
    }
    let how_many = there.len() as u64;
    Input { alphabet, letters, pairs, how_many, text: Vec::new(), starts: vec![0], places: Vec::new() }
}

// A text of so many letters.
pub fn text(random: &mut Random, alphabet: &[u8], length: usize) -> Vec<u8> {
    (0..length).map(|_| random.of(alphabet)).collect()
}

// A name that is not too long, as a rule short.
fn name(random: &mut Random, alphabet: &[u8]) -> Vec<u8> {
    let length = match random.below(40) {
        0 => 0,
        1 => random.of(&[998, 999, 1000]),
        2 => random.below(1001),
        3..=9 => random.below(60),
        _ => random.below(8),
    };
    text(random, alphabet, length)
}

// Any name, also one that is too long or has letters that are not in the alphabet.
pub fn any_name(random: &mut Random, alphabet: &[u8]) -> Vec<u8> {
    if random.one_in(12) {
        let length = random.of(&[1001, 1002, 1003, 4000]);
        return text(random, alphabet, length);
    }
    let mut any = name(random, alphabet);
    if random.one_in(6) {
        for letter in &mut any {
            *letter = random.below(256) as u8;
        }
    }
    any
}

// Names under a table, and a list of them in order: of all, of some, or of some twice; equal keys either way round; letters
// of no name in front of the first.
pub fn lists(random: &mut Random, mut input: Input, how_many: usize, long: bool) -> Input {
    let front = if random.one_in(4) { random.below(5) } else { 0 };
    input.text = text(random, &input.alphabet, front);
    input.starts = vec![input.text.len() as u32];
    let mut keys = Vec::new();
    for _ in 0..how_many {
        let short = 1 + random.below(14);
        let name = if long { name(random, &input.alphabet) } else { text(random, &input.alphabet, short) };
        keys.push(plain::key(input.table(), &name));
        input.text.extend(&name);
        input.starts.push(input.text.len() as u32);
    }
    let part = random.below(3);
    for number in 0..how_many as u32 {
        let times = if part == 0 { 1 } else { random.of(&[0, 1, 1, 2]) };
        input.places.extend(std::iter::repeat(number).take(times));
    }
    let turn = random.below(8) as u32;
    input.places.sort_by(|a, b| keys[*a as usize].cmp(&keys[*b as usize]).then((a ^ turn).cmp(&(b ^ turn))));
    input
}

// Such lists under any table, of no names up to some hundreds.
pub fn any_lists(random: &mut Random) -> Input {
    let how_many = match random.below(40) {
        0 => random.below(400),
        1..=4 => random.below(3),
        _ => random.below(20),
    };
    let long = random.one_in(3);
    let table = any_table(random);
    lists(random, table, how_many, long)
}

// Such lists of 20,000 names.
pub fn long_lists(random: &mut Random) -> Input {
    let table = table(random, 20);
    lists(random, table, 20_000, false)
}

// A question: how a name of the list begins, as it is or with more behind; or any letters; sometimes too many.
pub fn question(random: &mut Random, input: &Input) -> Vec<u8> {
    let whole: Vec<u8> = (0..=255).collect();
    let any = if random.one_in(8) { &whole } else { &input.alphabet };
    let count = input.starts.len() - 1;
    if count > 0 && random.below(4) > 0 {
        let number = random.below(count);
        let mut ask = plain::name(&input.text, &input.starts, number).to_vec();
        ask.truncate(random.below(ask.len() + 1).min(1 + random.below(12)));
        let behind = random.of(&[0, 0, 0, 1, 2]);
        ask.extend(text(random, any, behind));
        return ask;
    }
    let length = match random.below(20) {
        0 => 0,
        1 => random.of(&[999, 1000]),
        2 => random.of(&[1001, 1002, 5000]),
        _ => random.below(5),
    };
    text(random, any, length)
}
