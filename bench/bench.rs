// Times the library beside plain Rust, ICU and glibc, and prints one table. What ours and plain Rust answer is compared
// first.
use std::process::ExitCode;

mod input;
mod jobs;
mod lists;
mod names;
mod others;
mod ours;
mod plain;
mod race;
mod table;

use input::{Numbers, Texts};
use jobs::Bench;
use race::Races;

const USAGE: &str = "bench/run [--names FILE] [--times N] [COUNT ..]";
const SEED: u64 = 7;
const COUNTS: [usize; 4] = [1_000, 10_000, 90_000, 1_000_000];
// With many pairs names are timed up to so many.
const MANY_PAIRS_COUNT: usize = 90_000;
const MAX_NAME: usize = 1000;

struct Options {
    file: Option<String>,
    times: Option<usize>,
    counts: Vec<usize>,
}

impl Options {
    fn read(mut args: impl Iterator<Item = String>) -> Option<Options> {
        let mut options = Options { file: None, times: None, counts: Vec::new() };
        let number = |word: String| word.parse().ok().filter(|number| *number > 0);
        while let Some(word) = args.next() {
            match word.as_str() {
                "--names" => options.file = Some(args.next()?),
                "--times" => options.times = Some(number(args.next()?)?),
                _ => options.counts.push(number(word)?),
            }
        }
        Some(options)
    }
}

// The names of a file, one to a line, in an order left to chance.
fn read_names(file: &str) -> Result<Vec<Vec<u8>>, String> {
    let text = std::fs::read(file).map_err(|why| format!("{file}: {why}"))?;
    let lines = text.split(|byte| *byte == b'\n').map(|line| line.strip_suffix(b"\r").unwrap_or(line));
    let lines = lines.filter(|line| !line.is_empty()).map(<[u8]>::to_vec);
    let (mut names, left_out): (Vec<_>, Vec<_>) = lines.partition(|line| line.len() <= MAX_NAME && !line.contains(&0));
    if !left_out.is_empty() {
        println!("names left out, of more than {MAX_NAME} bytes or with a byte 0: {}", left_out.len());
    }
    let mut random = names::Random(SEED);
    for at in (1..names.len()).rev() {
        names.swap(at, random.below(at + 1));
    }
    Ok(names)
}

fn run() -> Result<(), String> {
    let mut options = Options::read(std::env::args().skip(1)).ok_or(USAGE)?;
    let of_file = options.file.as_deref().map(read_names).transpose()?;
    if options.counts.is_empty() {
        options.counts = of_file.as_ref().map_or(COUNTS.to_vec(), |names| vec![names.len()]);
    }
    let names = |count: usize| match &of_file {
        Some(names) => Texts::of(names.iter().take(count)),
        None => Texts::of(names::names(SEED).take(count)),
    };
    let others = [others::open_icu(), others::open_glibc()];
    let others = others.each_ref().map(Option::as_deref);

    let valley = Numbers::valley();
    let many_pairs = Numbers::many_pairs();
    let mut tasks: Vec<_> = options.counts.iter().map(|count| (&valley, *count)).collect();
    let many_pairs_count = options.counts.iter().copied().filter(|count| *count <= MANY_PAIRS_COUNT).max();
    tasks.extend(many_pairs_count.map(|count| (&many_pairs, count)));
    let mut races = Races::new();
    let mut rows = Vec::new();
    let mut notes = Vec::new();
    for (table, count) in tasks {
        // The others know nothing of many pairs.
        let others = if std::ptr::eq(table, &valley) { others } else { [None, None] };
        let bench = Bench::new(table, names(count), others, options.times)?;
        notes.push(bench.note()?);
        rows.extend(bench.rows(&mut races)?);
    }
    println!("Times of ours; of the others by which factor ours took longer, and less long where it is below 1.\n");
    table::print(&rows);
    println!();
    notes.iter().for_each(|note| println!("{note}"));
    others.iter().flatten().for_each(|other| println!("{}", other.version()));
    println!("{}", races.noise());
    Ok(())
}

fn main() -> ExitCode {
    match run() {
        Ok(()) => ExitCode::SUCCESS,
        Err(why) => {
            eprintln!("bench: {why}");
            ExitCode::FAILURE
        }
    }
}
