//! Runs cases through a given program and through this one, and compares the
//! answers as they come. The cases are fresh ones, or those of `second make`.

use std::env;
use std::process::ExitCode;
use std::time::{Duration, Instant};

use second::compare::{run, Plan, FAULT};
use second::make::{known_ops, OPS};

/// A program that is silent for so long is given up.
const LIMIT: Duration = Duration::from_secs(60);

const USAGE: &str = "usage: compare [--fixed] [--ops=OPS] SEED COUNT PROGRAM [ARGUMENT...]";

fn main() -> ExitCode {
    let words: Vec<String> = env::args().skip(1).collect();
    if words == ["-h"] || words == ["--help"] {
        println!("{USAGE}");
        return ExitCode::SUCCESS;
    }
    let Some(plan) = plan(words) else {
        eprintln!("{USAGE}");
        return ExitCode::from(FAULT);
    };
    let begin = Instant::now();
    match run(&plan) {
        Ok(()) => {
            let rate = plan.count as f64 / begin.elapsed().as_secs_f64();
            println!("{} cases, no difference, {rate:.0} per second", plan.count);
            ExitCode::SUCCESS
        }
        Err((status, text)) => {
            println!("{text}");
            ExitCode::from(status)
        }
    }
}

fn plan(mut words: Vec<String>) -> Option<Plan> {
    let fixed = words.first()? == "--fixed";
    if fixed {
        words.remove(0);
    }
    let mut ops = OPS.to_string();
    if let Some(chosen) = words.first()?.strip_prefix("--ops=") {
        ops = chosen.to_string();
        words.remove(0);
    }
    let (first, arguments) = words.split_at_checked(3)?;
    let plan = Plan {
        seed: first[0].parse().ok()?,
        count: first[1].parse().ok()?,
        ops,
        fixed,
        program: first[2].clone(),
        arguments: arguments.to_vec(),
        limit: LIMIT,
    };
    (plan.count > 0 && known_ops(&plan.ops)).then_some(plan)
}
