//! The comparison: runs another builder's programs on every case and sets
//! their output against this library's, byte for byte.

use second::cases::{drawn, fixed, Case, Set, DRAWN};
use second::programs;
use std::collections::BTreeMap;
use std::fmt::Write as _;
use std::io::{Read, Write};
use std::process::{Command, ExitCode, Stdio};
use std::sync::atomic::{AtomicUsize, Ordering};
use std::sync::{mpsc, Mutex};
use std::thread;
use std::time::{Duration, Instant};

const USAGE: &str = "usage: compare [--ours COMMAND] [--set small|large] [--seed S] \
[--cases N] [--only FAMILY] [--jobs J] [--limit SECONDS]";

/// Where inputs and outputs of differing cases are kept.
const KEPT: &str = "target/compare";

fn main() -> ExitCode {
    let options = match Options::from_arguments() {
        Ok(options) => options,
        Err(fault) => {
            eprintln!("{fault}\n{USAGE}");
            return ExitCode::from(2);
        }
    };
    let begun = Instant::now();
    let tally = compare_all(&options);
    tally.print(&options, begun.elapsed());
    match (tally.cases, tally.differences) {
        (0, _) => ExitCode::from(2),
        (_, 0) => ExitCode::SUCCESS,
        _ => ExitCode::FAILURE,
    }
}

struct Options {
    ours: Vec<String>,
    set: Set,
    seed: u64,
    cases: usize,
    only: Option<String>,
    jobs: usize,
    limit: Duration,
}

impl Options {
    fn from_arguments() -> Result<Options, String> {
        let mut options = Options {
            ours: words(&std::env::var("OURS").unwrap_or_default()),
            set: Set::Small,
            seed: 1,
            cases: 1_050,
            only: None,
            jobs: thread::available_parallelism().map_or(1, usize::from),
            limit: Duration::from_secs(60),
        };
        let mut arguments = std::env::args().skip(1);
        while let Some(name) = arguments.next() {
            let value = arguments.next().ok_or(format!("{name} needs a value"))?;
            options.take(&name, &value)?;
        }
        match options.ours.is_empty() {
            true => Err("no command: give --ours or set OURS".into()),
            false => Ok(options),
        }
    }

    fn take(&mut self, name: &str, value: &str) -> Result<(), String> {
        match name {
            "--ours" => self.ours = words(value),
            "--set" => self.set = set(value)?,
            "--seed" => self.seed = number(name, value)?,
            "--cases" => self.cases = number(name, value)? as usize,
            "--only" => self.only = Some(value.into()),
            "--jobs" => self.jobs = number(name, value)?.max(1) as usize,
            "--limit" => self.limit = Duration::from_secs(number(name, value)?),
            _ => return Err(format!("unknown option {name}")),
        }
        Ok(())
    }

    fn wants(&self, family: &str) -> bool {
        self.only.as_deref().is_none_or(|only| only == family)
    }
}

fn words(command: &str) -> Vec<String> {
    command.split_whitespace().map(String::from).collect()
}

fn set(value: &str) -> Result<Set, String> {
    match value {
        "small" => Ok(Set::Small),
        "large" => Ok(Set::Large),
        _ => Err(format!("unknown set {value}")),
    }
}

fn number(name: &str, value: &str) -> Result<u64, String> {
    value
        .parse()
        .map_err(|_| format!("{name}: {value} is no number"))
}

/// What the run has found so far.
#[derive(Default)]
struct Tally {
    families: BTreeMap<&'static str, usize>,
    programs: BTreeMap<&'static str, usize>,
    refusals: BTreeMap<u64, usize>,
    cases: usize,
    differences: usize,
}

impl Tally {
    fn count(&mut self, case: &Case, expected: &[u8]) {
        self.cases += 1;
        *self.families.entry(case.family).or_default() += 1;
        *self.programs.entry(case.program).or_default() += 1;
        if let Some(number) = refusal_number(expected) {
            *self.refusals.entry(number).or_default() += 1;
        }
    }

    fn print(&self, options: &Options, time: Duration) {
        let set = format!("{:?}", options.set).to_lowercase();
        let families: String = listed(self.families.iter());
        let refusals: String = listed(self.refusals.iter());
        let programs: String = listed(self.programs.iter());
        println!("refusals by number:{refusals}");
        println!("cases by program:{programs}");
        println!(
            "compared: set {set}, seed {}:{families}; {} cases, {} differences, {:.1} s",
            options.seed,
            self.cases,
            self.differences,
            time.as_secs_f64()
        );
    }
}

fn listed<K: std::fmt::Display>(
    counts: impl Iterator<Item = (K, impl std::fmt::Display)>,
) -> String {
    counts
        .map(|(name, count)| format!(" {name} {count}"))
        .collect()
}

/// The number of the first refusal line of an output, if it has one.
fn refusal_number(output: &[u8]) -> Option<u64> {
    let text = std::str::from_utf8(output).ok()?;
    let line = text
        .lines()
        .find_map(|line| line.strip_prefix("refused "))?;
    line.split(' ').next()?.parse().ok()
}

/// Shares the cases among the jobs. Fixed cases come first, drawn ones after.
fn compare_all(options: &Options) -> Tally {
    let mut fixed = fixed(options.set);
    fixed.retain(|case| options.wants(case.family));
    let picked: Vec<usize> = drawn_indices(options);
    let next = AtomicUsize::new(0);
    let tally = Mutex::new(Tally::default());
    thread::scope(|scope| {
        for _ in 0..options.jobs {
            scope.spawn(|| loop {
                let i = next.fetch_add(1, Ordering::Relaxed);
                let case = match (fixed.get(i), picked.get(i.wrapping_sub(fixed.len()))) {
                    (Some(case), _) => case.clone(),
                    (None, Some(&index)) => drawn(options.set, options.seed, index),
                    (None, None) => break,
                };
                compare_one(options, i, &case, &tally);
            });
        }
    });
    tally.into_inner().expect("no job failed")
}

/// The indices of the drawn cases that are wanted.
fn drawn_indices(options: &Options) -> Vec<usize> {
    let wanted = |i: &usize| options.wants(DRAWN[i % DRAWN.len()].0);
    if DRAWN.iter().any(|(family, _)| options.wants(family)) {
        (0..).filter(wanted).take(options.cases).collect()
    } else {
        Vec::new()
    }
}

fn compare_one(options: &Options, index: usize, case: &Case, tally: &Mutex<Tally>) {
    let expected = programs::run(case.program, &case.input).expect("a known program");
    let given = run_ours(options, case);
    let mut tally = tally.lock().expect("no job failed");
    tally.count(case, &expected);
    let same = matches!(&given, Ok(output) if *output == expected);
    if !same {
        tally.differences += 1;
        report(index, case, &expected, &given);
    }
}

/// The other side's output; an error if it can't start, ends with another exit
/// code than 0 or takes too long.
fn run_ours(options: &Options, case: &Case) -> Result<Vec<u8>, String> {
    let mut child = Command::new(&options.ours[0])
        .args(&options.ours[1..])
        .arg(case.program)
        .stdin(Stdio::piped())
        .stdout(Stdio::piped())
        .stderr(Stdio::null())
        .spawn()
        .map_err(|fault| format!("does not start: {fault}"))?;
    let mut stdin = child.stdin.take().expect("a pipe");
    let mut stdout = child.stdout.take().expect("a pipe");
    let input = case.input.clone();
    thread::spawn(move || {
        // A program that stops reading early is no fault here.
        let _ = stdin.write_all(&input);
    });
    let (sender, receiver) = mpsc::channel();
    thread::spawn(move || {
        let mut output = Vec::new();
        let whole = stdout.read_to_end(&mut output);
        let _ = sender.send(whole.map(|_| output));
    });
    let Ok(output) = receiver.recv_timeout(options.limit) else {
        let _ = child.kill();
        let _ = child.wait();
        return Err(format!("no end after {:?}", options.limit));
    };
    let status = child.wait().map_err(|fault| fault.to_string())?;
    match status.code() {
        Some(0) => output.map_err(|fault| fault.to_string()),
        _ => Err(format!("ended with {status}")),
    }
}

/// Prints a difference, and keeps input and outputs in hex.
fn report(index: usize, case: &Case, expected: &[u8], given: &Result<Vec<u8>, String>) {
    let name = format!("{index:06}-{}-{}", case.family, case.program);
    let input = keep(&format!("{name}.input.hex"), &case.input);
    keep(&format!("{name}.second.hex"), expected);
    let ours = match given {
        Ok(output) => {
            keep(&format!("{name}.ours.hex"), output);
            readable(output)
        }
        Err(fault) => fault.clone(),
    };
    println!(
        "difference: case {index}, family {}, program {}, input of {} bytes in {input}",
        case.family,
        case.program,
        case.input.len()
    );
    println!("  second: {}", readable(expected));
    println!("  ours:   {ours}");
}

/// Writes bytes in hex, 32 a line; answers the file's name.
fn keep(name: &str, bytes: &[u8]) -> String {
    let path = format!("{KEPT}/{name}");
    let lines: String = bytes.chunks(32).map(|c| hex(c) + "\n").collect();
    let kept = std::fs::create_dir_all(KEPT).and_then(|()| std::fs::write(&path, lines));
    match kept {
        Ok(()) => path,
        Err(fault) => format!("{path} (not written: {fault})"),
    }
}

fn hex(bytes: &[u8]) -> String {
    let mut text = String::new();
    for byte in bytes {
        let _ = write!(text, "{byte:02x}");
    }
    text
}

/// Text as text, other bytes in hex; the front only if it is long.
fn readable(output: &[u8]) -> String {
    let text = match std::str::from_utf8(output) {
        Ok(text) if !text.contains('\0') => format!("{text:?}"),
        _ => hex(output),
    };
    let front: String = text.chars().take(400).collect();
    match front.len() == text.len() {
        true => format!("{} bytes {front}", output.len()),
        false => format!("{} bytes {front}..", output.len()),
    }
}
