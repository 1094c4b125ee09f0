//! The comparison of another program's answers with this one's.

use std::io::{self, BufRead, BufReader, BufWriter, IsTerminal, Read, Write};
use std::iter::Take;
use std::process::{Child, ChildStdin, ChildStdout, Command, Stdio};
use std::sync::mpsc::{sync_channel, Receiver, RecvTimeoutError, SyncSender};
use std::thread;
use std::time::{Duration, Instant};

use crate::answer::answer;
use crate::hex::to_hex;
use crate::make::case::Case;
use crate::make::Cases;

/// A longer line of the program is cut, so that memory stays bounded.
const LONGEST_LINE: u64 = 1 << 20;

/// So many lines of the program are kept until they are compared.
const KEPT_LINES: usize = 64;

/// A difference, and a fault that kept the comparison from being made.
pub const DIFFERENT: u8 = 1;
pub const FAULT: u8 = 2;

/// An exit status and what is told.
pub type Outcome<T> = Result<T, (u8, String)>;

pub struct Plan {
    pub seed: u64,
    pub count: usize,
    pub ops: String,
    /// Whether the fixed list comes first.
    pub fixed: bool,
    pub program: String,
    pub arguments: Vec<String>,
    /// How long the program may be silent.
    pub limit: Duration,
}

/// What the program printed next.
enum Line {
    Whole(Vec<u8>),
    /// The output ended in the line.
    Unfinished(Vec<u8>),
    Cut(Vec<u8>),
    End,
}

/// One thread feeds the program, one reads its lines, this one compares.
/// Feeder and comparer make the cases each for itself, so neither waits for
/// the other, and no pipe stays full however much the program keeps back.
pub fn run(plan: &Plan) -> Outcome<()> {
    let mut child = Command::new(&plan.program)
        .args(&plan.arguments)
        .stdin(Stdio::piped())
        .stdout(Stdio::piped())
        .spawn()
        .map_err(|error| (FAULT, format!("cannot start {}: {error}", plan.program)))?;
    let input = child.stdin.take().expect("a pipe was asked for");
    let output = child.stdout.take().expect("a pipe was asked for");
    let fed = cases(plan);
    thread::spawn(move || feed(input, fed));
    let (sender, lines) = sync_channel(KEPT_LINES);
    thread::spawn(move || read_lines(output, sender));
    let compared = compare(plan, &mut child, &lines);
    if io::stderr().is_terminal() {
        eprintln!();
    }
    // Where the threads still wait, they end with this program.
    let _ = child.kill();
    let _ = child.wait();
    compared
}

fn cases(plan: &Plan) -> Take<Cases> {
    let cases = if plan.fixed { Cases::of } else { Cases::fresh };
    cases(plan.seed, &plan.ops).take(plan.count)
}

/// A program that reads no further shows in its answers.
fn feed(input: ChildStdin, cases: Take<Cases>) -> io::Result<()> {
    let mut input = BufWriter::with_capacity(1 << 16, input);
    for case in cases {
        input.write_all(&case.framed())?;
    }
    input.flush()
}

/// Sends the lines up to the end of the output or the first fault.
fn read_lines(output: ChildStdout, lines: SyncSender<io::Result<Line>>) {
    let mut output = BufReader::new(output);
    loop {
        let line = next_line(&mut output);
        let last = !matches!(line, Ok(Line::Whole(_)));
        if lines.send(line).is_err() || last {
            return;
        }
    }
}

fn next_line(output: &mut impl BufRead) -> io::Result<Line> {
    let mut line = Vec::new();
    output.take(LONGEST_LINE).read_until(b'\n', &mut line)?;
    Ok(match line.last() {
        None => Line::End,
        Some(b'\n') => {
            line.pop();
            Line::Whole(line)
        }
        Some(_) if line.len() as u64 == LONGEST_LINE => Line::Cut(line),
        Some(_) => Line::Unfinished(line),
    })
}

fn compare(plan: &Plan, child: &mut Child, lines: &Receiver<io::Result<Line>>) -> Outcome<()> {
    let terminal = io::stderr().is_terminal();
    for (number, case) in cases(plan).enumerate() {
        let ours = answer(case.op, &case.body)
            .map_err(|error| (FAULT, format!("case {number} is not answered here: {error}")))?;
        let told = |theirs: &str| difference(number, &case, theirs, &ours);
        match received(lines, plan.limit).map_err(|(status, why)| (status, told(&why)))? {
            Line::Whole(line) if line == ours.as_bytes() => {}
            Line::Whole(line) => return Err((DIFFERENT, told(&shown(&line)))),
            Line::Cut(line) => return Err((DIFFERENT, told(&format!("{} (cut)", shown(&line))))),
            Line::Unfinished(line) => {
                let (well, how) = ended(child, plan.limit);
                let text = format!("{} (no line end; the program {how})", shown(&line));
                return Err((if well { DIFFERENT } else { FAULT }, told(&text)));
            }
            Line::End => {
                let (_, how) = ended(child, plan.limit);
                return Err((FAULT, told(&format!("(no answer; the program {how})"))));
            }
        }
        if terminal && number % 1_000 == 999 {
            eprint!("\r{} cases", number + 1);
        }
    }
    compare_end(plan, child, lines)
}

/// Behind the last answer there is no line, and the program ends well.
fn compare_end(plan: &Plan, child: &mut Child, lines: &Receiver<io::Result<Line>>) -> Outcome<()> {
    match received(lines, plan.limit)? {
        Line::Whole(line) | Line::Unfinished(line) | Line::Cut(line) => {
            let text = format!("the program printed a line too many: {}", shown(&line));
            return Err((DIFFERENT, text));
        }
        Line::End => {}
    }
    match ended(child, plan.limit) {
        (true, _) => Ok(()),
        (false, how) => Err((FAULT, format!("all answers agree, but the program {how}"))),
    }
}

fn received(lines: &Receiver<io::Result<Line>>, limit: Duration) -> Outcome<Line> {
    match lines.recv_timeout(limit) {
        Ok(Ok(line)) => Ok(line),
        Ok(Err(error)) => Err((FAULT, format!("(its output cannot be read: {error})"))),
        Err(RecvTimeoutError::Timeout) => {
            Err((FAULT, format!("(nothing came in {} seconds)", limit.as_secs_f64())))
        }
        Err(RecvTimeoutError::Disconnected) => Ok(Line::End),
    }
}

/// Whether the program, whose output has ended, ends well, and how it ends.
fn ended(child: &mut Child, limit: Duration) -> (bool, String) {
    let begin = Instant::now();
    loop {
        match child.try_wait() {
            Ok(Some(status)) => return (status.success(), format!("ended with {status}")),
            Ok(None) if begin.elapsed() < limit => thread::sleep(Duration::from_millis(5)),
            Ok(None) => return (false, "closed its output and does not end".to_string()),
            Err(error) => return (false, format!("cannot be waited for: {error}")),
        }
    }
}

fn shown(line: &[u8]) -> String {
    line.escape_ascii().to_string()
}

fn difference(number: usize, case: &Case, theirs: &str, ours: &str) -> String {
    let op = char::from(case.op);
    let hex = to_hex(&case.framed());
    format!(
        "difference in case {number} (the first is 0)\n\
         op      {op}\ncase    {hex}\nprogram {theirs}\nsecond  {ours}"
    )
}
