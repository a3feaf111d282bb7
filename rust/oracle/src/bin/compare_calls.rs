//! `compare_calls RUNNER PROGRAM SEED CALLS`: changed frames and random lines
//! through the proved program `calls`, which RUNNER runs, and through the
//! independent implementation; what both print must be the same.

#![forbid(unsafe_code)]

use std::collections::BTreeMap;
use std::io::Write;
use std::process::{Command, ExitCode, Stdio};

use oracle::generate::{changed_frames, Generator};

/// A batch ends before it has so many octets.
const BATCH: usize = oracle::CALLS_INPUT_LIMIT;

/// What the program writes for an input.
fn output(runner: &str, program: &str, input: Vec<u8>) -> std::io::Result<Vec<u8>> {
    let mut child = Command::new(runner)
        .arg(program)
        .stdin(Stdio::piped())
        .stdout(Stdio::piped())
        .stderr(Stdio::piped())
        .spawn()?;
    let mut stdin = child.stdin.take().expect("standard input is piped");
    let writer = std::thread::spawn(move || stdin.write_all(&input));
    let output = child.wait_with_output()?;
    writer.join().expect("the writer ends")?;
    if !output.status.success() || !output.stderr.is_empty() {
        let said = String::from_utf8_lossy(&output.stderr);
        return Err(std::io::Error::other(format!("{}: {said}", output.status)));
    }
    Ok(output.stdout)
}

/// The first line that differs, with the input's lines around it.
fn difference(input: &[u8], expected: &[u8], got: &[u8]) -> String {
    let lines = |octets: &[u8]| -> Vec<String> {
        let text = String::from_utf8_lossy(octets);
        text.lines().map(String::from).collect()
    };
    let (expected, got) = (lines(expected), lines(got));
    let place = expected
        .iter()
        .zip(&got)
        .take_while(|(a, b)| a == b)
        .count();
    let at = |lines: &[String]| lines.get(place).cloned().unwrap_or_default();
    format!(
        "line {} of the output\n-- expected\n{}\n-- got\n{}\n-- input\n{}",
        place + 1,
        at(&expected),
        at(&got),
        String::from_utf8_lossy(input)
    )
}

/// Counts the lines of an output by what they begin with.
fn count(output: &[u8], counts: &mut BTreeMap<String, u64>) {
    for line in String::from_utf8_lossy(output).lines() {
        let end = line.find([',', '[', '\'']).unwrap_or(line.len());
        let kind: String = line[..end].trim_end().into();
        let kind = match kind.split_once(' ') {
            Some((kind @ ("due" | "sent" | "recounted"), _)) => kind.into(),
            // Of a reading, what it says last: a string, an error or a problem.
            Some(("first", _)) => match line.rsplit_once(", ") {
                Some((_, last)) if last.ends_with("octets") => "read".into(),
                Some((_, last)) => format!("read, {}", last.split(' ').next().unwrap_or_default()),
                None => kind,
            },
            _ if kind.starts_with(|first: char| first.is_ascii_digit()) => "written".into(),
            _ => kind,
        };
        *counts.entry(kind).or_default() += 1;
    }
}

/// Runs a batch through both and counts what it prints.
fn compare_batch(
    runner: &str,
    program: &str,
    input: Vec<u8>,
    counts: &mut BTreeMap<String, u64>,
) -> Result<(), String> {
    let expected = oracle::run_calls(&input);
    let got = output(runner, program, input.clone()).map_err(|e| e.to_string())?;
    if got != expected {
        return Err(difference(&input, &expected, &got));
    }
    count(&got, counts);
    Ok(())
}

fn compare(runner: &str, program: &str, seed: u64, calls: u64) -> Result<(), String> {
    let mut generator = Generator::new(seed);
    let mut left = calls;
    let random = std::iter::from_fn(|| {
        let mut lines = Vec::new();
        let made = (left > 0).then(|| generator.call_lines(&mut lines))?;
        left = left.saturating_sub(made);
        Some((lines, made))
    });
    let mut counts = BTreeMap::new();
    let (mut input, mut made, mut batches) = (Vec::new(), 0, 0);
    let mut run = |input| {
        batches += 1;
        compare_batch(runner, program, input, &mut counts)
            .map_err(|difference| format!("seed {seed}, batch {batches}: {difference}"))
    };
    for (mut lines, calls) in changed_frames().into_iter().chain(random) {
        if lines.len() >= BATCH {
            // More memory than an input can set.
            continue;
        }
        if input.len() + lines.len() >= BATCH {
            run(std::mem::take(&mut input))?;
        }
        input.append(&mut lines);
        made += calls;
    }
    run(input)?;
    for (kind, count) in counts {
        println!("{count:8}  {kind}");
    }
    println!("seed {seed}: {made} calls in {batches} batches, no difference");
    Ok(())
}

fn main() -> ExitCode {
    let words: Vec<String> = std::env::args().skip(1).collect();
    let [runner, program, seed, calls] = words.as_slice() else {
        eprintln!("usage: compare_calls RUNNER PROGRAM SEED CALLS");
        return ExitCode::from(2);
    };
    let (Ok(seed), Ok(calls)) = (seed.parse(), calls.parse()) else {
        eprintln!("SEED and CALLS are numbers");
        return ExitCode::from(2);
    };
    match compare(runner, program, seed, calls) {
        Ok(()) => ExitCode::SUCCESS,
        Err(difference) => {
            eprintln!("{difference}");
            ExitCode::FAILURE
        }
    }
}
