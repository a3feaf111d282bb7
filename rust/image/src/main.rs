//! `ffn-image show|check|make IMAGE`: a node's image, for a person at it.

#![forbid(unsafe_code)]

use std::ffi::OsString;
use std::io::{self, Write};
use std::process::ExitCode;

use ffn::{read_image, write_image, Figures, ReadImage, Refusal};
use ffn_image::{run, Failure, Images};

/// The proved functions.
struct Library;

impl Images for Library {
    fn write(
        &self,
        table: &[u64],
        figures: &Figures,
        list: &[u64],
        out: &mut [u8],
    ) -> Result<usize, Refusal> {
        write_image(table, figures, list, out)
    }

    fn read(
        &self,
        image: &[u8],
        table: &mut [u64],
        list: &mut [u64],
    ) -> Result<ReadImage, Refusal> {
        read_image(image, table, list)
    }
}

fn main() -> ExitCode {
    let words: Vec<OsString> = std::env::args_os().skip(1).collect();
    match run(&Library, &words, io::stdin().lock(), io::stdout().lock()) {
        Ok(()) => ExitCode::SUCCESS,
        Err(failure) => {
            let name = match failure {
                Failure::Usage => "",
                _ => "ffn-image: ",
            };
            // Where standard error is lost too, the status says it.
            let _ = writeln!(io::stderr(), "{name}{failure}");
            ExitCode::FAILURE
        }
    }
}
