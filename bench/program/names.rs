// Writes made up names, one to a line.
// names COUNT [SEED]
use std::io::Write;

#[path = "../names.rs"]
mod names;

fn main() -> std::io::Result<()> {
    let mut args = std::env::args().skip(1);
    let count: usize = args.next().and_then(|n| n.parse().ok()).unwrap_or(90_000);
    let seed = args.next().and_then(|n| n.parse().ok()).unwrap_or(7);
    let mut out = std::io::BufWriter::new(std::io::stdout().lock());
    for name in names::names(seed).take(count) {
        writeln!(out, "{name}")?;
    }
    out.flush()
}
