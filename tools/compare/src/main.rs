//! Compares a second reading of the rules with the station, case by case.
//!
//! `compare [--cases N] [--seed S] [--stats]`
//!
//! `compare --image FILE [--scans N] [--constant BYTE] [--block PERIOD]` judges
//! one image file instead and runs scans of it.
//!
//! Without the feature `station` the second reading is only checked against
//! itself. Case number i has the seed S + i, so that `--seed` with the seed
//! that is printed and `--cases 1` gives one case again.

mod checks;
#[cfg(feature = "station")]
mod comparing;
#[cfg(test)]
mod examples;
mod file;
mod making;
mod reading;
#[cfg(test)]
mod routes;
mod running;
#[cfg(feature = "station")]
mod station;
mod stats;

use checks::Outcome;
use file::Task;
use making::Case;
use stats::Stats;
use std::process::ExitCode;
use std::str::FromStr;

/// What the command line asks for.
struct Options {
    cases: u64,
    seed: u64,
    stats: bool,
    /// One image file instead of cases; no file where the path is empty.
    task: Task,
}

impl Options {
    fn from(mut arguments: impl Iterator<Item = String>) -> Result<Self, String> {
        let task = Task {
            path: String::new(),
            scans: 0,
            constant: None,
            period: 0,
        };
        let mut options = Options {
            cases: 100_000,
            seed: 1,
            stats: false,
            task,
        };
        while let Some(argument) = arguments.next() {
            match argument.as_str() {
                "--cases" => options.cases = number(&argument, arguments.next())?,
                "--seed" => options.seed = number(&argument, arguments.next())?,
                "--stats" => options.stats = true,
                "--image" => options.task.path = arguments.next().unwrap_or_default(),
                "--scans" => options.task.scans = number(&argument, arguments.next())?,
                "--constant" => {
                    options.task.constant = Some(number(&argument, arguments.next())?);
                }
                "--block" => options.task.period = number(&argument, arguments.next())?,
                _ => return Err(format!("unknown argument {argument}")),
            }
        }
        Ok(options)
    }
}

fn number<T: FromStr>(name: &str, value: Option<String>) -> Result<T, String> {
    value
        .and_then(|value| value.parse().ok())
        .ok_or(format!("{name} needs a number"))
}

fn main() -> ExitCode {
    let options = match Options::from(std::env::args().skip(1)) {
        Ok(options) => options,
        Err(problem) => {
            eprintln!("{problem}");
            eprintln!("usage: compare [--cases N] [--seed S] [--stats]");
            return ExitCode::from(2);
        }
    };
    let said = if options.task.path.is_empty() {
        run(&options).map(|stats| summary(&options, &stats))
    } else {
        file::perform(&options.task)
    };
    match said {
        Ok(said) => {
            println!("{said}");
            ExitCode::SUCCESS
        }
        Err(report) => {
            println!("{report}");
            ExitCode::FAILURE
        }
    }
}

/// What is said of a case that was compared with the station, or only checked by itself.
const VERDICT: &str = if cfg!(feature = "station") {
    "0 differ"
} else {
    "not compared, 0 break a check"
};

/// What is printed when no case fails.
fn summary(options: &Options, stats: &Stats) -> String {
    let covered = if options.stats {
        stats.to_string()
    } else {
        String::new()
    };
    format!("{covered}{} cases, {VERDICT}", options.cases)
}

/// Runs all cases up to the first that differs.
fn run(options: &Options) -> Result<Stats, String> {
    #[cfg(feature = "station")]
    comparing::check_boundary()?;
    let mut stats = Stats::default();
    for number in 0..options.cases {
        let case = Case::new(options.seed.wrapping_add(number));
        let outcome = settle(&case).map_err(|what| report(&case, &what))?;
        stats.note(&case, &outcome);
    }
    Ok(stats)
}

fn settle(case: &Case) -> Result<Outcome, String> {
    let outcome = checks::outcome(case)?;
    #[cfg(feature = "station")]
    comparing::compare(case, &outcome)?;
    Ok(outcome)
}

/// A differing case in full.
fn report(case: &Case, what: &str) -> String {
    let hex: String = case
        .image
        .iter()
        .map(|byte| format!("{byte:02x}"))
        .collect();
    let rows: Vec<String> = case
        .rows
        .iter()
        .map(|row| format!("({}, port {}, byte {})", row.scan, row.port, row.byte))
        .collect();
    let cabinet = if case.patch { "patch" } else { "stimulus" };
    format!(
        "case of seed {} ({:?}) differs\nimage: {hex}\ncalls: {:?}\ncabinet: {cabinet}\nrows: {}\n{what}",
        case.seed,
        case.kind,
        case.calls,
        rows.join(" ")
    )
}
