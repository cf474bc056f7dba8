//! Times the Rattle functions and the Rust.

use compare::bench::{Bench, Row};
use compare::options;
use compare::parts::{PARTS, Part};
use std::process::{Command, ExitCode};

const USAGE: &str = "\
usage: bench [--part NAME] [--row NAME] [--runs N] [--rounds N]
  --part NAME  only this part
  --row NAME   only this row, and the nanoseconds of a call on either side
  --runs N     so many runs (default 7)
  --rounds N   so many rounds in a run, in each of which the sides take turns (default 25)
A row is an entry point and the Rattle's time over the Rust's on the same inputs, each the least of all
runs. A run is a process of its own: where the loader puts the code decides by more than half how long
a short function takes.";

fn main() -> ExitCode {
    match run() {
        Ok(()) => ExitCode::SUCCESS,
        Err(message) => {
            eprintln!("bench: {message}");
            ExitCode::from(2)
        }
    }
}

fn run() -> Result<(), String> {
    let mut parts = PARTS.to_vec();
    let mut bench = Bench::default();
    let (mut runs, mut is_one) = (7, false);
    let mut args = std::env::args().skip(1);
    while let Some(arg) = args.next() {
        match arg.as_str() {
            "--part" => parts = vec![options::part(&options::value("--part", &mut args)?)?],
            "--row" => bench.only = Some(options::value("--row", &mut args)?),
            "--runs" => runs = options::number("--runs", &mut args)?.max(1),
            "--rounds" => bench.rounds = options::number("--rounds", &mut args)?.max(1),
            // One run, for the process that puts the runs together: names and times.
            "--one" => is_one = true,
            "--help" => {
                println!("{USAGE}");
                return Ok(());
            }
            _ => return Err(format!("unknown option '{arg}'; see --help")),
        }
    }
    if is_one {
        time(bench, &parts);
        return Ok(());
    }
    let rows = least_of(runs)?;
    if let (true, Some(name)) = (rows.is_empty(), &bench.only) {
        return Err(format!("there is no row '{name}'"));
    }
    for row in &rows {
        println!("{:<32}  {:.2}", row.name, row.ratio());
        if bench.only.is_some() {
            println!("{:<32}  {:.1} ns", "rattle", row.rattle);
            println!("{:<32}  {:.1} ns", "rust", row.rust);
        }
    }
    let worst = rows.iter().map(Row::ratio).fold(0.0, f64::max);
    println!("worst ratio {worst:.2}");
    Ok(())
}

fn time(mut bench: Bench, parts: &[&dyn Part]) {
    for part in parts {
        part.bench(&mut bench);
    }
    for row in &bench.rows {
        println!("{} {} {}", row.name, row.rattle, row.rust);
    }
}

/// The least times of so many runs with the arguments of this process.
fn least_of(runs: u64) -> Result<Vec<Row>, String> {
    let mut rows: Vec<Row> = Vec::new();
    for run in 1..=runs {
        eprintln!("run {run} of {runs}");
        for (place, row) in one_run()?.into_iter().enumerate() {
            match rows.get_mut(place) {
                Some(least) => least.least(&row),
                None => rows.push(row),
            }
        }
    }
    Ok(rows)
}

fn one_run() -> Result<Vec<Row>, String> {
    let program = std::env::current_exe().map_err(|error| error.to_string())?;
    let said = Command::new(program)
        .args(std::env::args().skip(1))
        .arg("--one")
        .output()
        .map_err(|error| error.to_string())?;
    if !said.status.success() {
        return Err(String::from_utf8_lossy(&said.stderr).into_owned());
    }
    let read = |line: &str| {
        let mut words = line.split(' ');
        Some(Row {
            name: words.next()?.to_string(),
            rattle: words.next()?.parse().ok()?,
            rust: words.next()?.parse().ok()?,
        })
    };
    let rows = String::from_utf8_lossy(&said.stdout)
        .lines()
        .map(read)
        .collect();
    Option::ok_or(rows, "a run wrote something else than rows".to_string())
}
