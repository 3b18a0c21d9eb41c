//! Comparisons of Fidrosha with the copy of the Rust, with the documents' table of refusals and with
//! the standard's formula. Built and run by compare/run.

mod call;
mod expected;
mod eyes;
mod job;
mod job_changes;
mod job_expected;
mod job_library;
mod job_lines;
mod job_records;
mod job_replay;
mod jobs;
mod library;
mod light;
mod light_table;
mod masks;
mod original;
mod plate;
mod plates;
mod random;
mod refine;
mod refusals;
mod replay;
mod tiles;
mod walk;

use std::fmt::{Debug, Display};
use std::process::ExitCode;

/// One comparison: what it counts, how many, and how many of them differ.
struct Section {
    name: &'static str,
    count: usize,
    differences: usize,
}

impl Section {
    fn new(name: &'static str) -> Self {
        Self { name, count: 0, differences: 0 }
    }

    fn compare<T: PartialEq + Debug>(&mut self, case: impl Display, found: T, expected: T) {
        self.check(case, (found != expected).then(|| format!("{found:?}, expected {expected:?}")));
    }

    /// Prints the first ten differences.
    fn check(&mut self, case: impl Display, difference: Option<String>) {
        self.count += 1;
        if let Some(difference) = difference {
            self.differences += 1;
            if self.differences <= 10 {
                println!("{}, {case}: {difference}", self.name);
            }
        }
    }
}

fn main() -> ExitCode {
    let words: Vec<String> = std::env::args().skip(1).collect();
    let word = |i: usize, default| words.get(i).map_or(default, String::as_str);
    match (word(0, "1"), word(0, "1").parse(), word(1, "1").parse(), words.len()) {
        ("--kernels", _, _, 1) => print!("{}", eyes::list()),
        ("--replay", _, _, 1) => print!("{}", replay::text()),
        (_, Ok(seed), Ok(scale), 0..=2) => return compare(seed, scale),
        _ => {
            eprintln!("usage: compare/run [SEED [SCALE]] | --kernels | --replay");
            return ExitCode::from(2);
        }
    }
    ExitCode::SUCCESS
}

fn compare(seed: u64, scale: f64) -> ExitCode {
    let groups = plates::groups(seed, scale);
    let mut sections = vec![
        light::compare(),
        plate::compare(),
        eyes::compare(),
        refine::refine(&groups),
        refine::measure(&groups),
        refine::find(&groups),
        refusals::compare(seed, scale),
        masks::compare(),
        replay::compare(),
    ];
    sections.extend(jobs::compare(seed, scale));
    sections.push(job_records::compare(seed, scale));
    let counts: Vec<_> = sections.iter().map(|s| format!("{} {}", s.count, s.name)).collect();
    let differences: usize = sections.iter().map(|s| s.differences).sum();
    println!("compare: {}, {differences} differences", counts.join(", "));
    ExitCode::from(u8::from(differences > 0))
}
