//! The driver: makes cases, answers them with the sources under comparison, and compares two files of answers.

mod answer;
mod chunk_classes;
mod chunks;
mod classes;
mod columns;
mod compare;
mod edges;
mod generate;
mod line;
mod random;
mod rules;
mod speed;
mod values;

use std::io::{self, BufWriter, Write};
use std::process::ExitCode;

const USAGE: &str = "usage: harness generate values|chunks SEED COUNT
       harness answer|rules < CASES
       harness compare CASES OF-THE-RUST OURS
       harness list CASES OF-THE-RUST OURS FOLDER
       harness speed OUR-PROGRAM
       harness speed-write < INPUT";

pub fn main() -> ExitCode {
    let args: Vec<String> = std::env::args().skip(1).collect();
    let args: Vec<&str> = args.iter().map(String::as_str).collect();
    match run(&args) {
        Ok(true) => ExitCode::SUCCESS,
        Ok(false) => ExitCode::FAILURE,
        Err(said) => {
            eprintln!("harness: {said}");
            ExitCode::FAILURE
        }
    }
}

fn run(args: &[&str]) -> Result<bool, String> {
    match args {
        ["generate", what, seed, count] => {
            let number = |text: &str| text.parse::<u64>().map_err(|e| format!("{text}: {e}"));
            let mut out = BufWriter::new(io::stdout().lock());
            generate::write(what, number(seed)?, number(count)?, &mut out)?;
            out.flush().map_err(|e| e.to_string())?;
            Ok(true)
        }
        ["answer"] => answer::lines().map(|()| true),
        ["rules"] => rules::lines().map(|()| true),
        ["compare", cases, rust, ours] => compare::compare(cases, rust, ours),
        ["list", cases, rust, ours, folder] => compare::list(cases, rust, ours, folder),
        ["speed", ours] => speed::table(ours).map(|()| true),
        ["speed-write"] => speed::write().map(|()| true),
        _ => Err(USAGE.to_string()),
    }
}
