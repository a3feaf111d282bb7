//! `differential [SEED] [CALLS]`: random calls through the proved libraries and
//! the independent implementation. Without a seed the clock gives one.

#![forbid(unsafe_code)]

use std::process::ExitCode;
use std::time::{SystemTime, UNIX_EPOCH};

const CALLS: u64 = 200_000;

fn main() -> ExitCode {
    let mut arguments = std::env::args().skip(1).map(|word| word.parse());
    let (seed, calls) = (arguments.next(), arguments.next());
    let (Ok(seed), Ok(calls), None) = (
        seed.unwrap_or_else(|| Ok(clock())),
        calls.unwrap_or(Ok(CALLS)),
        arguments.next(),
    ) else {
        eprintln!("usage: differential [SEED] [CALLS]");
        return ExitCode::from(2);
    };
    println!(
        "seed {seed}, {calls} calls to the node, as many along shared tables, twice as many to radios"
    );
    let compared = differential::compare(seed, calls).and_then(|mut counts| {
        counts.extend(differential::account::compare(seed, calls)?);
        counts.extend(differential::radio::compare(seed, calls)?);
        Ok(counts)
    });
    match compared {
        Ok(counts) => {
            for (kind, count) in counts {
                println!("{count:8}  {kind}");
            }
            println!("no difference");
            ExitCode::SUCCESS
        }
        Err(difference) => {
            eprintln!("{difference}");
            ExitCode::FAILURE
        }
    }
}

fn clock() -> u64 {
    SystemTime::now()
        .duration_since(UNIX_EPOCH)
        .map_or(0, |since| since.as_nanos() as u64)
}
