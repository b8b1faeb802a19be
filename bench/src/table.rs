//! One table of the rows of several runs, which differ only in where the linker put each function.

/// A row of a run: the work, and two numbers: the times of library and peer, or the bytes of a sum and its time.
struct Row<'a> {
    work: &'a str,
    first: f64,
    second: f64,
}

fn row(line: &str) -> Row<'_> {
    let words: Vec<&str> = line.split('\t').collect();
    let number = |k: usize| words[k].parse().unwrap_or_else(|_| panic!("no number: {line}"));
    Row { work: words[0], first: number(1), second: number(2) }
}

/// The works, each once, as the first run has them.
fn works<'a>(rows: &[Row<'a>]) -> Vec<&'a str> {
    let mut works = Vec::new();
    for row in rows {
        if !works.contains(&row.work) {
            works.push(row.work);
        }
    }
    works
}

/// The least of what the rows of a work have.
fn least(rows: &[Row], work: &str, number: fn(&Row) -> f64) -> f64 {
    rows.iter().filter(|row| row.work == work).map(number).fold(f64::INFINITY, f64::min)
}

/// The least times of both sides.
fn times(rows: &[Row], work: &str) -> (f64, f64) {
    (least(rows, work, |row| row.first), least(rows, work, |row| row.second))
}

fn unit(nanoseconds: f64) -> String {
    if nanoseconds < 1_000.0 { format!("{nanoseconds:.1} ns") } else { format!("{:.2} µs", nanoseconds / 1_000.0) }
}

/// The table of both sides, each at its best places, and below it that of the long lookups beside a plain sum.
pub fn print(lines: &str) {
    let (sums, rows): (Vec<&str>, Vec<&str>) = lines.lines().partition(|line| line.ends_with("\tsum"));
    let (sums, rows): (Vec<Row>, Vec<Row>) = (sums.into_iter().map(row).collect(), rows.into_iter().map(row).collect());
    println!("| work | library | peer | library / peer |");
    println!("|---|---|---|---|");
    for work in works(&rows) {
        let (library, peer) = times(&rows, work);
        println!("| {work} | {} | {} | {:.2} |", unit(library), unit(peer), library / peer);
    }
    println!();
    println!("| work | library | peer | a plain sum | time of the library / of the sum |");
    println!("|---|---|---|---|---|");
    for work in works(&sums) {
        let ((library, peer), (bytes, sum)) = (times(&rows, work), times(&sums, work));
        let speed = |time: f64| format!("{:.1} GB/s", bytes / time);
        println!("| {work} | {} | {} | {} | {:.2} |", speed(library), speed(peer), speed(sum), library / sum);
    }
}
