//! Compares the Rattle functions with the Rust.

use compare::check::{self, Count, Plan};
use compare::options;
use compare::parts::{PARTS, Part};
use compare::replay::Replay;
use std::path::Path;
use std::process::ExitCode;

const USAGE: &str = "\
usage: compare [--cases N] [--seed S] [--part NAME]
       compare --replay NAME FOLDER
  --cases N             size of the random part: the largest random job takes N inputs and the others
                        in proportion (default 10000000)
  --seed S              seed of the random inputs (default 1)
  --part NAME           only this part
  --replay NAME FOLDER  write the part's replay list, FOLDER/stdin and FOLDER/stdout";

fn main() -> ExitCode {
    match run() {
        Ok(true) => ExitCode::SUCCESS,
        Ok(false) => ExitCode::from(1),
        Err(message) => {
            eprintln!("compare: {message}");
            ExitCode::from(2)
        }
    }
}

/// Whether there was no difference.
fn run() -> Result<bool, String> {
    let mut plan = Plan {
        seed: Plan::DEFAULT_SEED,
        cases: Plan::DEFAULT_CASES,
    };
    let mut parts = PARTS.to_vec();
    let mut args = std::env::args().skip(1);
    while let Some(arg) = args.next() {
        match arg.as_str() {
            "--cases" => plan.cases = options::number("--cases", &mut args)?,
            "--seed" => plan.seed = options::number("--seed", &mut args)?,
            "--part" => parts = vec![options::part(&options::value("--part", &mut args)?)?],
            "--replay" => {
                let part = options::part(&options::value("--replay", &mut args)?)?;
                return replay(
                    part,
                    Path::new(&options::value("--replay NAME", &mut args)?),
                );
            }
            "--help" => {
                println!("{USAGE}");
                return Ok(true);
            }
            _ => return Err(format!("unknown option '{arg}'; see --help")),
        }
    }
    println!("seed {}, random cases {}", plan.seed, plan.cases);
    let mut total = Count::default();
    for part in parts {
        total += check::run(part.name(), part.jobs(&plan), plan.seed);
        for remark in part.remarks() {
            println!("{}: {remark}", part.name());
        }
    }
    println!("total: {total}");
    Ok(total.differences == 0)
}

fn replay(part: &dyn Part, folder: &Path) -> Result<bool, String> {
    let mut replay = Replay::new(part.name());
    part.replay(&mut replay);
    let lines = replay.write(folder);
    let lines = lines.map_err(|error| format!("{}: {error}", folder.display()))?;
    println!("{}: {lines} questions", part.name());
    Ok(true)
}
