//! The tables, as Markdown.

use crate::entries::{
    Times, ENTRIES, FLOORS, FOUR_CLASSES, LEVEL, MARGIN, ONE_CLASS, READER_2, TO_1, TO_2,
};
use crate::steps::Walk;

/// What was measured on one network.
pub struct Row {
    pub network: &'static str,
    pub arcs: usize,
    /// The sum over all arcs of the number of their users.
    pub users: usize,
    /// The number of bytes of the job.
    pub job: usize,
    /// The times of each entry.
    pub times: Vec<Times>,
}

impl Row {
    fn ratio(&self, entry: usize) -> f64 {
        self.times[entry].ratio()
    }
}

/// Thousands are set off by commas.
fn number(n: usize) -> String {
    match n {
        0..=999 => n.to_string(),
        _ => format!("{},{:03}", number(n / 1_000), n % 1_000),
    }
}

fn micros(time: f64) -> String {
    match time {
        ..1.0 => format!("{time:.3}"),
        ..10.0 => format!("{time:.2}"),
        ..1_000.0 => format!("{time:.1}"),
        _ => number(time.round() as usize),
    }
}

/// The name of the entry that takes no network.
const STEPS: &str = "steps";

/// The least, middle and greatest of an entry's ratios, each ratio with what it
/// was measured on.
fn print_ratios(name: &str, mut ratios: Vec<(f64, String)>) {
    ratios.sort_by(|(a, _), (b, _)| a.total_cmp(b));
    let last = ratios.len() - 1;
    let (least, median) = (ratios[0].0, ratios[ratios.len() / 2].0);
    let (greatest, on) = &ratios[last];
    println!("| {name} | {least:.2} | {median:.2} | {greatest:.2} | {on} |");
}

/// The least, middle and greatest ratio of each entry.
pub fn print_summary(rows: &[Row], walks: &[Walk]) {
    println!("## In short\n");
    println!("Time of the engine over time of the same algorithm in Rust, over all networks and sizes.\n");
    println!("| Entry | Least | Median | Greatest | Greatest on |");
    println!("|---|--:|--:|--:|---|");
    for (entry, name) in ENTRIES.iter().enumerate() {
        let on = |row: &Row| format!("{}, m = {}", row.network, number(row.arcs));
        let ratio = |row| (Row::ratio(row, entry), on(row));
        print_ratios(name, rows.iter().map(ratio).collect());
    }
    let ratio = |walk: &Walk| (walk.times.ratio(), format!("m = {}", walk.arcs));
    print_ratios(STEPS, walks.iter().map(ratio).collect());
}

/// What the entry is measured on, where the others are not.
fn print_note(entry: usize) {
    if entry == MARGIN {
        println!("The arc is the first from the source that has at least two users. For one to have them, all of the star is");
        println!("below its first arc, and the last two arcs of the chain are side by side.\n");
    }
    if entry == FLOORS {
        println!("A floor is below the by-arc share by at most a quarter; under `level` all floors are 0. On the star");
        println!("and the chain, where one list alone is in the core, no floor changes a share.\n");
    }
    if entry == READER_2 {
        println!("The job has the network's marks, and the floors of `level, floors`.\n");
    }
    if entry == TO_1 {
        println!("The job is the one that `job to version 2` writes.\n");
    }
    if entry == ONE_CLASS {
        println!("The lists are those of `by-arc`.\n");
    }
    if entry == FOUR_CLASSES {
        println!("Each cost of `by-arc` is in four parts, one a class, at random.\n");
    }
}

/// One entry on all networks.
pub fn print_entry(rows: &[Row], entry: usize) {
    println!("\n## {}\n", ENTRIES[entry]);
    print_note(entry);
    let (more, line) = match entry {
        LEVEL | FLOORS => (" Best µs | Engine over best |", "--:|--:|"),
        _ => ("", ""),
    };
    println!("| Network | m | Engine µs | Same algorithm µs | Ratio |{more}");
    println!("|---|--:|--:|--:|--:|{line}");
    for row in rows {
        let times = row.times[entry];
        print!("| {} | {} ", row.network, number(row.arcs));
        print!("| {} | {} ", micros(times.engine), micros(times.same));
        print!("| {:.2} |", row.ratio(entry));
        if let Some(best) = times.best {
            print!(" {} | {:.1} |", micros(best), times.engine / best);
        }
        println!();
    }
}

/// The steps through all parent lists.
pub fn print_steps(walks: &[Walk]) {
    println!("\n## {STEPS}\n");
    println!(
        "From m zeros through all parent lists of m arcs up to the end, a call for each list.\n"
    );
    println!("| m | Lists | Engine µs | Same algorithm µs | Ratio |");
    println!("|--:|--:|--:|--:|--:|");
    for walk in walks {
        let times = walk.times;
        print!("| {} | {} ", walk.arcs, walk.lists);
        print!("| {} | {} ", micros(times.engine), micros(times.same));
        println!("| {:.2} |", times.ratio());
    }
}

/// Times and sizes at the last number of arcs over those at the one before.
pub fn print_growth(rows: &[Row], from: usize, to: usize) {
    println!(
        "\n## Growth from m = {} to m = {}\n",
        number(from),
        number(to)
    );
    print!("| Network | Arcs | needs | total | group search | dead ends | cap sums ");
    print!("| Job bytes | job reader | job length | job writer ");
    print!("| job reader, version 2 | job to version 2 | job to version 1 ");
    print!("| Sum of users | by-arc | one class | four classes | make state | ask | commit ");
    println!("| level | level, best | level, floors | level, floors, best | margin |");
    println!("|---{}|", "|--:".repeat(25));
    let at = |arcs| rows.iter().filter(move |row| row.arcs == arcs);
    for (a, b) in at(from).zip(at(to)) {
        let engine = |entry: usize| b.times[entry].engine / a.times[entry].engine;
        let of = |row: &Row, entry: usize| row.times[entry].best.unwrap();
        let best = |entry| of(b, entry) / of(a, entry);
        let factor = |a: usize, b: usize| b as f64 / a as f64;
        print!("| {} | {:.1} ", a.network, factor(from, to));
        print!("| {:.1} | {:.1} | {:.1} ", engine(0), engine(1), engine(2));
        print!("| {:.1} | {:.1} ", engine(6), engine(7));
        print!("| {:.1} | {:.1} ", factor(a.job, b.job), engine(5));
        print!("| {:.1} | {:.1} ", engine(8), engine(9));
        print!("| {:.1} ", engine(READER_2));
        print!("| {:.1} | {:.1} ", engine(TO_2), engine(TO_1));
        print!("| {:.1} | {:.1} ", factor(a.users, b.users), engine(3));
        print!("| {:.1} | {:.1} ", engine(ONE_CLASS), engine(FOUR_CLASSES));
        print!("| {:.1} | {:.1} ", engine(10), engine(11));
        print!("| {:.1} ", engine(12));
        print!("| {:.1} | {:.1} ", engine(LEVEL), best(LEVEL));
        print!("| {:.1} | {:.1} ", engine(FLOORS), best(FLOORS));
        println!("| {:.1} |", engine(MARGIN));
    }
}
