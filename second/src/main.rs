//! The program: `second make SEED COUNT [OPS]` writes framed cases,
//! `second answer` answers the cases of its standard input.

use std::env;
use std::io::{self, BufReader, BufWriter, Write};
use std::process::ExitCode;

use second::answer::answer_all;
use second::make::{known_ops, Cases, OPS};

const USAGE: &str = "usage: second make SEED COUNT [OPS] | second answer";

fn main() -> ExitCode {
    let arguments: Vec<String> = env::args().skip(1).collect();
    let words: Vec<&str> = arguments.iter().map(String::as_str).collect();
    let done = match words[..] {
        ["make", seed, count, ref ops @ ..] if ops.len() <= 1 => {
            let ops = ops.first().copied().unwrap_or(OPS);
            match (seed.parse(), count.parse(), known_ops(ops)) {
                (Ok(seed), Ok(count), true) => make(seed, count, ops),
                _ => return usage(),
            }
        }
        ["answer"] => {
            let input = BufReader::with_capacity(1 << 16, io::stdin().lock());
            answer_all(input, BufWriter::new(io::stdout().lock()))
        }
        ["-h" | "--help"] => {
            println!("{USAGE}");
            return ExitCode::SUCCESS;
        }
        _ => return usage(),
    };
    match done {
        Ok(()) => ExitCode::SUCCESS,
        Err(error) => {
            eprintln!("second: {error}");
            ExitCode::from(1)
        }
    }
}

fn make(seed: u64, count: usize, ops: &str) -> io::Result<()> {
    let mut output = BufWriter::with_capacity(1 << 16, io::stdout().lock());
    for case in Cases::of(seed, ops).take(count) {
        output.write_all(&case.framed())?;
    }
    output.flush()
}

fn usage() -> ExitCode {
    eprintln!("{USAGE}");
    ExitCode::from(2)
}
