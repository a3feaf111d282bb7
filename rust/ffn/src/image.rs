//! Table and list as one image, to move a node to new hardware.

use crate::Figures;
#[cfg(feature = "archive")]
use crate::{c, calls::refusal, calls::written, Refusal};

/// The words of a table's row, and the most rows.
pub const NUMBER_WORDS: usize = 7;
pub const MOST_NUMBERS: usize = 1024;

/// The words of a list's row, and the most rows.
pub const SUBSCRIBER_WORDS: usize = 2;
pub const MOST_SUBSCRIBERS: usize = 4096;

/// The octets of a word, and of the trailer.
const WORD: usize = size_of::<u64>();
const TRAILER: usize = 24;

/// The octets of an image of so many numbers and subscribers.
pub const fn image_size(numbers: usize, subscribers: usize) -> usize {
    WORD * (NUMBER_WORDS * numbers + SUBSCRIBER_WORDS * subscribers) + TRAILER
}

/// An image that was read: its rows stand at the front of table and list.
#[derive(Clone, Copy, Debug, PartialEq, Eq)]
pub struct ReadImage {
    /// The rows of the table.
    pub numbers: usize,
    /// The rows of the list.
    pub subscribers: usize,
    /// The figures of the table, recounted.
    pub figures: Figures,
}

/// Writes table and list as one image and returns its size, which is that of
/// [`image_size`]. Rows stand first, table then list, words low byte first; a
/// trailer of three words ends it: the number of table rows, of list rows, and
/// the distance in octets from the trailer's start back to the first row.
///
/// # Errors
/// [`Refusal::ListUnsound`], [`Refusal::TableUnsound`], [`Refusal::Figures`],
/// [`Refusal::ImageRoom`], in this order. Nothing is written then.
///
/// # Examples
/// ```
/// use ffn::{image_size, read_image, write_image, Figures, NUMBER_WORDS};
///
/// let table = [10_492_123_401, 14_915_100_001, 0, 0, 0, 0, 0];
/// let list = [14_915_100_001, 1];
/// let figures = Figures::recount(&table)?;
/// let mut image = [0; image_size(1, 1)];
/// let size = write_image(&table, &figures, &list, &mut image)?;
///
/// // On the new hardware.
/// let (mut rows, mut people) = ([0; NUMBER_WORDS], [0; 2]);
/// let read = read_image(&image[..size], &mut rows, &mut people)?;
/// assert_eq!((read.numbers, read.subscribers, read.figures), (1, 1, figures));
/// assert_eq!((rows, people), (table, list));
/// # Ok::<(), ffn::Refusal>(())
/// ```
#[cfg(feature = "archive")]
pub fn write_image(
    table: &[u64],
    figures: &Figures,
    list: &[u64],
    out: &mut [u8],
) -> Result<usize, Refusal> {
    written(c::write_image(table, &figures.words(), list, out))
}

/// Reads an image: its rows are written to the front of table and list, and its
/// figures are recounted. [`MOST_NUMBERS`] and [`MOST_SUBSCRIBERS`] rows are room
/// for any image. One from before rows had their seventh word is refused as one
/// that does not fill the distance, unless it has no numbers.
///
/// # Errors
/// [`Refusal::NoTrailer`], [`Refusal::Distance`], [`Refusal::Limit`],
/// [`Refusal::Unfilled`], [`Refusal::ImageRoom`], [`Refusal::TableUnsound`],
/// [`Refusal::ListUnsound`], in this order. Nothing is written then.
#[cfg(feature = "archive")]
pub fn read_image(image: &[u8], table: &mut [u64], list: &mut [u64]) -> Result<ReadImage, Refusal> {
    let mut figures = Figures::default();
    let read = figures.lend(|figures| c::read_image(image, table, list, figures));
    match read.class {
        c::READ => Ok(ReadImage {
            numbers: read.numbers,
            subscribers: read.subscribers,
            figures,
        }),
        c::REFUSAL => Err(refusal(read.number)),
        _ => unreachable!("{read:?}"),
    }
}
