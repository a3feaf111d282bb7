//! `programs RUNNER PROGRAM SEED INPUTS`: random inputs through the proved
//! program, which RUNNER runs, and through the independent implementation;
//! their whole outputs must be the same.

#![forbid(unsafe_code)]

use std::io::Write;
use std::process::{Command, ExitCode, Stdio};

/// What the program writes for an input.
fn output(runner: &str, program: &str, input: &[u8]) -> std::io::Result<Vec<u8>> {
    let mut child = Command::new(runner)
        .arg(program)
        .stdin(Stdio::piped())
        .stdout(Stdio::piped())
        .spawn()?;
    let mut stdin = child.stdin.take().expect("standard input is piped");
    let input = input.to_vec();
    // It may stop reading at its limit, so a broken pipe is no fault.
    let writer = std::thread::spawn(move || {
        let _ = stdin.write_all(&input);
    });
    let output = child.wait_with_output()?;
    writer.join().expect("the writer ends");
    Ok(output.stdout)
}

fn main() -> ExitCode {
    let words: Vec<String> = std::env::args().skip(1).collect();
    let [runner, program, seed, inputs] = words.as_slice() else {
        eprintln!("usage: programs RUNNER PROGRAM SEED INPUTS");
        return ExitCode::from(2);
    };
    let (Ok(seed), Ok(inputs)) = (seed.parse(), inputs.parse::<u32>()) else {
        eprintln!("SEED and INPUTS are numbers");
        return ExitCode::from(2);
    };
    let mut generator = oracle::generate::Generator::new(seed);
    let mut octets = 0;
    for i in 0..inputs {
        let input = generator.program();
        let expected = oracle::run(&input);
        let got = output(runner, program, &input).expect("the program runs");
        if got != expected {
            eprintln!(
                "seed {seed}, input {i} differs:\n{}\n-- expected\n{}\n-- got\n{}",
                String::from_utf8_lossy(&input),
                String::from_utf8_lossy(&expected),
                String::from_utf8_lossy(&got)
            );
            return ExitCode::FAILURE;
        }
        octets += got.len();
    }
    println!("seed {seed}: {inputs} inputs, {octets} octets of output, no difference");
    ExitCode::SUCCESS
}
