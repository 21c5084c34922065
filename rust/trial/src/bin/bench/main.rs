//! Times the library through its boundary beside the independent program, and prints tables in Markdown.
//!
//! Where a process has its stack and its lists moves a figure of a few nanoseconds by more than the two sides
//! differ, so the benchmark runs itself several times and shows the spread beside the median.

mod others;
mod programmes;
mod sections;
mod shelf;
mod timing;

use std::process::Command;
use timing::median;

const SEED: u64 = 0x4B68_756D_7361_0002;

/// How many processes are run; the median of their figures counts.
const PROCESSES: usize = 15;

/// Two sides timed: nanoseconds of the library and of the other.
type Race = Box<dyn Fn() -> (f64, f64)>;

/// Figures under one title.
struct Table {
    title: &'static str,
    about: &'static str,
    /// What is timed beside the library.
    beside: &'static str,
    rows: Vec<(String, Race)>,
}

impl Table {
    fn new(title: &'static str, about: &'static str) -> Table {
        Table {
            title,
            about,
            beside: "independent Rust",
            rows: Vec::new(),
        }
    }

    /// Figures beside the keeper that owns its record.
    fn beside_the_keeper(title: &'static str, about: &'static str) -> Table {
        Table {
            beside: "ordinary keeper",
            ..Table::new(title, about)
        }
    }

    fn row(&mut self, name: &str, race: impl Fn() -> (f64, f64) + 'static) {
        self.rows.push((name.to_string(), Box::new(race)));
    }
}

fn tables() -> [Table; 8] {
    [
        sections::table(),
        others::table(),
        programmes::table(),
        shelf::table(),
        shelf::by_key(),
        shelf::by_length(),
        shelf::by_table(),
        shelf::files_by_table(),
    ]
}

/// The figures of one process, a line for each row of each table.
fn once() {
    for table in tables() {
        for (_, race) in table.rows {
            let (ours, theirs) = race();
            println!("{ours} {theirs}");
        }
    }
}

/// The figures of another process.
fn another() -> Vec<(f64, f64)> {
    let this = std::env::current_exe().expect("this program");
    let done = Command::new(this)
        .arg("once")
        .output()
        .expect("another process");
    assert!(done.status.success(), "another process: {}", done.status);
    let text = String::from_utf8(done.stdout).expect("figures");
    let figure = |word: Option<&str>| word.and_then(|w| w.parse().ok()).expect("a figure");
    text.lines()
        .map(|line| {
            let mut words = line.split(' ');
            (figure(words.next()), figure(words.next()))
        })
        .collect()
}

fn main() {
    if std::env::args().nth(1).as_deref() == Some("once") {
        return once();
    }
    let all: Vec<_> = (0..PROCESSES).map(|_| another()).collect();
    let mut i = 0;
    for table in tables() {
        println!("## {}\n\n{}\n", table.title, table.about);
        println!(
            "| nanoseconds for a call | library | {} | ratio | lowest to highest |",
            table.beside
        );
        println!("|---|---|---|---|---|");
        for (name, _) in table.rows {
            row(&all, i, &name);
            i += 1;
        }
        println!();
    }
}

/// Prints a row: the medians over all processes, and the spread of the ratio.
fn row(all: &[Vec<(f64, f64)>], i: usize, name: &str) {
    let mut ours: Vec<_> = all.iter().map(|one| one[i].0).collect();
    let mut theirs: Vec<_> = all.iter().map(|one| one[i].1).collect();
    let mut ratios: Vec<_> = all.iter().map(|one| one[i].0 / one[i].1).collect();
    let ratio = median(&mut ratios);
    println!(
        "| {name} | {:.2} | {:.2} | {ratio:.2} | {:.2} to {:.2} |",
        median(&mut ours),
        median(&mut theirs),
        ratios[0],
        ratios[PROCESSES - 1]
    );
}
