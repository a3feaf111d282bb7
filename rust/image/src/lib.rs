//! A node's image, for a person at it: what the command `ffn-image` does.
//!
//! An image is table and list in one file, to move a node to new hardware
//! (document 02, M-109). `show` prints what it holds, `check` says whether it
//! reads, and `make` makes one from the program's lines `N` and `S`.
//!
//! Images are written and read by the library, through [`Images`]; without the
//! feature `archive` another implementation can stand there.

#![forbid(unsafe_code)]

mod contents;
mod failure;
mod files;
mod lines;

use std::ffi::OsString;
use std::io::{Read, Write};
use std::path::Path;

use ffn::{image_size, Figures, ReadImage, Refusal, MOST_NUMBERS, MOST_SUBSCRIBERS};
use ffn::{NUMBER_WORDS, SUBSCRIBER_WORDS};

use contents::Contents;
pub use failure::{Failure, Fault};

/// More than any image has, and than lines without leading zeros that make one.
const MOST_OCTETS: usize = 1 << 20;

/// The two functions on images, as the crate `ffn` has them.
pub trait Images {
    fn write(
        &self,
        table: &[u64],
        figures: &Figures,
        list: &[u64],
        out: &mut [u8],
    ) -> Result<usize, Refusal>;

    fn read(&self, image: &[u8], table: &mut [u64], list: &mut [u64])
        -> Result<ReadImage, Refusal>;
}

/// Does what the words behind the command ask for: a subcommand and its image.
///
/// # Errors
/// In one line what is wrong. Up to its renaming `make` leaves an image that was
/// there; a folder that cannot be synced and a lost output come after it.
pub fn run(
    images: &impl Images,
    words: &[OsString],
    input: impl Read,
    mut output: impl Write,
) -> Result<(), Failure> {
    let [subcommand, path] = words else {
        return Err(Failure::Usage);
    };
    let path = Path::new(path);
    let text = match subcommand.to_str() {
        Some("show") => load(images, path)?.to_string(),
        Some("check") => load(images, path)?.counts(),
        Some("make") => make(images, path, input)?.counts(),
        _ => return Err(Failure::Subcommand(subcommand.clone())),
    };
    output
        .write_all(text.as_bytes())
        .and_then(|()| output.flush())
        .map_err(|error| Failure::lost("standard output", error))
}

/// The contents of the image in a file.
fn load(images: &impl Images, path: &Path) -> Result<Contents, Failure> {
    let name = path.display();
    let image = files::read(path).map_err(|error| Failure::lost(&name, error))?;
    let mut table = vec![0; NUMBER_WORDS * MOST_NUMBERS];
    let mut list = vec![0; SUBSCRIBER_WORDS * MOST_SUBSCRIBERS];
    let read = images
        .read(&image, &mut table, &mut list)
        .map_err(|refusal| Failure::refused(&name, refusal))?;
    table.truncate(NUMBER_WORDS * read.numbers);
    list.truncate(SUBSCRIBER_WORDS * read.subscribers);
    Ok(Contents {
        table,
        list,
        figures: read.figures,
    })
}

/// Makes the image of what the lines say.
fn make(images: &impl Images, path: &Path, input: impl Read) -> Result<Contents, Failure> {
    let name = path.display();
    let lines = files::read_all(input).map_err(|error| Failure::lost("standard input", error))?;
    let contents = lines::contents(&lines)?;
    let mut image = vec![0; image_size(contents.numbers(), contents.subscribers())];
    let Contents {
        table,
        list,
        figures,
    } = &contents;
    let size = images
        .write(table, figures, list, &mut image)
        .map_err(|refusal| Failure::refused(&name, refusal))?;
    files::replace(path, &image[..size]).map_err(|error| Failure::lost(&name, error))?;
    Ok(contents)
}
