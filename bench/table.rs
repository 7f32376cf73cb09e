// The table that is printed.

pub struct Row {
    pub job: &'static str,
    pub names: usize,
    pub pairs: u64,
    // In nanoseconds.
    pub ours: f64,
    // Of plain Rust, ICU and glibc.
    pub theirs: [Option<f64>; 3],
}

const HEAD: [&str; 7] = ["job", "names", "pairs", "ours", "plain Rust", "ICU", "glibc"];

// All rows, those of the same job together: our times, and by which factor they are those of the others.
pub fn print(rows: &[Row]) {
    let mut jobs: Vec<&str> = Vec::new();
    for row in rows {
        if !jobs.contains(&row.job) {
            jobs.push(row.job);
        }
    }
    let mut lines = vec![HEAD.map(str::to_string)];
    for job in jobs {
        lines.extend(rows.iter().filter(|row| row.job == job).map(cells));
    }
    let widths = std::array::from_fn(|at| lines.iter().map(|line| line[at].chars().count()).max().unwrap_or(0));
    let mut rule = widths.map(|width| "-".repeat(width - 1) + ":");
    rule[0] = "-".repeat(widths[0]);
    lines.insert(1, rule);
    for line in &lines {
        print_line(line, widths);
    }
}

fn cells(row: &Row) -> [String; 7] {
    let ratio = |theirs: Option<f64>| theirs.map_or("-".to_string(), |theirs| format!("{:.2}", row.ours / theirs));
    let [plain, icu, glibc] = row.theirs.map(ratio);
    [row.job.to_string(), grouped(row.names), row.pairs.to_string(), time(row.ours), plain, icu, glibc]
}

fn print_line(cells: &[String; 7], widths: [usize; 7]) {
    let [job, numbers @ ..] = cells;
    let [width, widths @ ..] = widths;
    print!("| {job:width$} |");
    for (number, width) in numbers.iter().zip(widths) {
        print!(" {number:>width$} |");
    }
    println!();
}

// Three digits of a time.
fn time(nanoseconds: f64) -> String {
    let units = [(1e9, "s"), (1e6, "ms"), (1e3, "µs"), (1.0, "ns")];
    let (scale, unit) = units.into_iter().find(|(scale, _)| nanoseconds >= *scale).unwrap_or((1.0, "ns"));
    let number = nanoseconds / scale;
    let digits = if number < 10.0 { 2 } else { usize::from(number < 100.0) };
    format!("{number:.digits$} {unit}")
}

// 1,000 and not 1000.
pub fn grouped(number: usize) -> String {
    match number {
        0..=999 => number.to_string(),
        _ => format!("{},{:03}", grouped(number / 1000), number % 1000),
    }
}
