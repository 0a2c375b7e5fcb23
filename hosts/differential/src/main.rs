//! The differential run as a command: `--seed` and `--inputs` choose another one, `--case` draws one case of a seed again.

use differential::library::Archive;
use differential::{Run, INPUTS, SEED};
use std::process::ExitCode;

struct Choices {
    seed: u64,
    inputs: u64,
    case: Option<u64>,
}

fn choices(mut arguments: impl Iterator<Item = String>) -> Option<Choices> {
    let mut choices = Choices {
        seed: SEED,
        inputs: INPUTS,
        case: None,
    };
    while let Some(name) = arguments.next() {
        let value = arguments.next()?.parse().ok()?;
        match name.as_str() {
            "--seed" => choices.seed = value,
            "--inputs" => choices.inputs = value,
            "--case" => choices.case = Some(value),
            _ => return None,
        }
    }
    Some(choices)
}

fn main() -> ExitCode {
    let Some(choices) = choices(std::env::args().skip(1)) else {
        eprintln!("usage: differential [--seed NUMBER] [--inputs NUMBER] [--case NUMBER]");
        return ExitCode::from(2);
    };
    if let Some(case) = choices.case {
        let mut archive = Archive;
        let mut run = Run::new(&mut archive, choices.seed);
        run.draw(case);
        println!("case {case}: no difference");
        return ExitCode::SUCCESS;
    }
    let report = differential::run(choices.seed, choices.inputs);
    print!("{report}");
    let missing = report.coverage.missing(1);
    let unlisted = report.coverage.unlisted();
    for outcome in &missing {
        println!("not drawn: {outcome}");
    }
    for outcome in &unlisted {
        println!("not listed: {outcome}");
    }
    ExitCode::from(u8::from(!missing.is_empty() || !unlisted.is_empty()))
}
