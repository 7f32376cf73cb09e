// The same program in plain Rust: lines of a table, of names and of questions; names put in order by their sort keys.
// It takes lines as nullahbowl does where nothing is wrong with them and letters are written in ASCII; faults it does not tell.
use std::io::{Read, Write};

#[derive(Clone, Copy, Default)]
struct Weights([u16; 3]);

struct Table {
    letters: [Weights; 256],
    // For each letter the pairs that begin with it.
    pairs: Vec<Vec<(u8, Weights)>>,
}

impl Table {
    fn new() -> Table {
        Table { letters: [Weights::default(); 256], pairs: vec![Vec::new(); 256] }
    }

    fn valley() -> Table {
        let mut table = Table::new();
        for letter in 0..256 {
            table.letters[letter] = Weights([0, 0, 1]);
        }
        for letter in 0..26u16 {
            table.letters[97 + letter as usize] = Weights([10 * (letter + 1), 1, 1]);
            table.letters[65 + letter as usize] = Weights([10 * (letter + 1), 1, 2]);
        }
        table.letters[39] = Weights([0, 2, 1]);
        table.pairs[b'c' as usize].push((b'h', Weights([35, 1, 1])));
        table
    }

    fn row(&self, name: &[u8], level: usize, row: &mut Vec<u32>) {
        let mut at = 0;
        while at < name.len() {
            let first = name[at];
            let mut weights = self.letters[first as usize];
            let mut step = 1;
            if at + 1 < name.len() {
                if let Some(pair) = self.pairs[first as usize].iter().find(|pair| pair.0 == name[at + 1]) {
                    weights = pair.1;
                    step = 2;
                }
            }
            if weights.0[level] != 0 {
                row.push(weights.0[level] as u32);
            }
            at += step;
        }
    }

    fn key(&self, name: &[u8], key: &mut Vec<u32>) {
        self.row(name, 0, key);
        key.push(0);
        self.row(name, 1, key);
        key.push(0);
        self.row(name, 2, key);
    }
}

#[derive(Default)]
struct List {
    text: Vec<u8>,
    starts: Vec<usize>,
    keys: Vec<u32>,
    bounds: Vec<usize>,
    places: Vec<u32>,
    fresh: bool,
}

impl List {
    fn name(&self, number: u32) -> &[u8] {
        &self.text[self.starts[number as usize]..self.starts[number as usize + 1]]
    }

    fn key(&self, number: u32) -> &[u32] {
        &self.keys[self.bounds[number as usize]..self.bounds[number as usize + 1]]
    }

    fn arrange(&mut self, table: &Table) {
        if self.fresh {
            return;
        }
        let mut keys = Vec::with_capacity(3 * self.text.len());
        self.bounds = vec![0];
        for number in 0..self.starts.len() as u32 - 1 {
            table.key(self.name(number), &mut keys);
            self.bounds.push(keys.len());
        }
        self.keys = keys;
        let mut order: Vec<(&[u32], u32)> = (0..self.starts.len() as u32 - 1).map(|number| (self.key(number), number)).collect();
        order.sort_unstable();
        self.places = order.iter().map(|one| one.1).collect();
        self.fresh = true;
    }

    // The names whose first rows begin so, by the stored keys.
    fn find(&self, table: &Table, ask: &[u8]) -> &[u32] {
        let mut row = Vec::new();
        table.row(ask, 0, &mut row);
        let low = self.places.partition_point(|number| self.key(*number) < &row[..]);
        let part = &self.places[low..];
        &part[..part.partition_point(|number| self.key(*number).starts_with(&row))]
    }
}

fn letter(word: &str) -> Option<u8> {
    match word.as_bytes() {
        [letter] => Some(*letter),
        [b'U', b'+', digits @ ..] if digits.len() == 4 => u8::try_from(u16::from_str_radix(&word[2..], 16).ok()?).ok(),
        _ => None,
    }
}

fn weights(words: &mut std::str::Split<char>) -> Option<Weights> {
    let weights = Weights([words.next()?.parse().ok()?, words.next()?.parse().ok()?, words.next()?.parse().ok()?]);
    words.next().is_none().then_some(weights)
}

fn main() -> Result<(), Box<dyn std::error::Error>> {
    let mut count = false;
    let mut table = Table::valley();
    let mut own = false;
    let mut list = List { starts: vec![0], ..List::default() };
    let mut asked = false;
    let mut out = std::io::BufWriter::new(std::io::stdout().lock());
    for file in std::env::args().skip(1) {
        if file == "--count" {
            count = true;
            continue;
        }
        let mut text = Vec::new();
        std::fs::File::open(file)?.read_to_end(&mut text)?;
        for line in text.split(|byte| *byte == b'\n') {
            let line = line.strip_suffix(b"\r").unwrap_or(line);
            if line.is_empty() {
                continue;
            }
            let cut = line.iter().position(|byte| *byte == b' ');
            let (word, rest) = match cut {
                Some(at) => (&line[..at], &line[at + 1..]),
                None => (line, &line[..0]),
            };
            if matches!(word, b"letter" | b"pair") {
                if !own {
                    table = Table::new();
                    own = true;
                }
                list.fresh = false;
            }
            match word {
                b"letter" => {
                    let mut words = std::str::from_utf8(rest)?.split(' ');
                    let letter = words.next().and_then(letter).ok_or("letter")?;
                    table.letters[letter as usize] = weights(&mut words).ok_or("weights")?;
                }
                b"pair" => {
                    let mut words = std::str::from_utf8(rest)?.split(' ');
                    let first = words.next().and_then(letter).ok_or("letter")?;
                    let second = words.next().and_then(letter).ok_or("letter")?;
                    let weights = weights(&mut words).ok_or("weights")?;
                    table.pairs[first as usize].push((second, weights));
                }
                b"find" => {
                    asked = true;
                    list.arrange(&table);
                    write_part(&mut out, &list, list.find(&table, rest), count)?;
                }
                b"key" => {
                    asked = true;
                    let mut key = Vec::new();
                    table.key(rest, &mut key);
                    let key: Vec<String> = key.iter().map(u32::to_string).collect();
                    writeln!(out, "{}", key.join(" "))?;
                }
                word => {
                    let name = if word == b"name" { rest } else { line };
                    if name.len() > 1000 {
                        return Err("a name is too long".into());
                    }
                    list.text.extend_from_slice(name);
                    list.starts.push(list.text.len());
                    list.fresh = false;
                }
            }
        }
    }
    if !asked {
        list.arrange(&table);
        write_part(&mut out, &list, &list.places, count)?;
    }
    out.flush()?;
    Ok(())
}

fn write_part(out: &mut impl Write, list: &List, part: &[u32], count: bool) -> std::io::Result<()> {
    if count {
        return writeln!(out, "{}", part.len());
    }
    for number in part {
        out.write_all(list.name(*number))?;
        out.write_all(b"\n")?;
    }
    Ok(())
}
