//! The functions of `include/ffn.h` and `include/ffn_radio.h`, called with
//! slices. Their structs hold numbers; the enums of this crate say what the
//! numbers mean.
//!
//! A slice passes as a pointer and a length. That a `&mut` slice overlaps no
//! other is Rust's own rule, and it is all that the library asks.

/// The classes of an answer.
pub const WRITTEN: u32 = 0;
pub const REFUSAL: u32 = 1;
pub const ERROR: u32 = 2;
pub const OUTCOME: u32 = 3;
pub const SENT: u32 = 4;
pub const RESULT: u32 = 5;
pub const FOUND: u32 = 6;
pub const NONE_DUE: u32 = 7;
/// Of [`read_request`], [`read_register`], [`read_release`] and [`read_image`].
pub const READ: u32 = 8;
/// Of frames.
pub const RETURN_ERROR: u32 = 9;
pub const REJECT: u32 = 10;
/// Of [`recount`].
pub const COUNTED: u32 = 11;
/// Of [`close`], and of [`compact`] and [`add`].
pub const CLOSED: u32 = 12;
pub const ROWS: u32 = 13;
/// Of [`routing`].
pub const ASK_NETWORK: u32 = 14;
pub const ROUTED: u32 = 15;

/// `struct ffn_answer`. A field that its class does not name is 0.
#[repr(C)]
#[derive(Clone, Copy, Debug, PartialEq, Eq)]
pub struct Answer {
    pub class: u32,
    /// Of a refusal, an error, an outcome, a result or a Reject.
    pub number: u32,
    /// Of octets, characters or rows.
    pub count: usize,
    /// The holder's MSISDN, the notice's addressee, the number found or how many
    /// rows went.
    pub value: u64,
}

/// `struct ffn_request_read`.
#[repr(C)]
#[derive(Clone, Copy, Debug, PartialEq, Eq)]
pub struct RequestRead {
    pub class: u32,
    /// Of an error.
    pub number: u32,
    pub operation: u32,
    /// 1 of a crew, otherwise 0.
    pub crew: u32,
    pub functional_number: u64,
    /// Of a forced erasure, otherwise 0.
    pub msisdn: u64,
    /// Of the additional field in the unpacked string.
    pub start: usize,
    pub length: usize,
    /// Of a crew, otherwise 0.
    pub codes: usize,
}

/// `struct ffn_frame_read`. A field that its class does not name is 0.
#[repr(C)]
#[derive(Clone, Copy, Debug, PartialEq, Eq)]
pub struct FrameRead {
    pub class: u32,
    /// Of a refusal, an error or a Reject.
    pub number: u32,
    /// The message's first octet.
    pub first: u32,
    pub invoke: u32,
    pub scheme: u32,
    /// Of the string in the message.
    pub start: usize,
    pub length: usize,
}

/// `struct ffn_figures`. With a refusal all but its number is 0.
#[repr(C)]
#[derive(Clone, Copy, Debug, PartialEq, Eq)]
pub struct Figures {
    pub class: u32,
    /// Of a refusal.
    pub number: u32,
    pub held: u64,
    pub waiting: u64,
    pub in_flight: u64,
}

/// `struct ffn_image_read`. With a refusal all but its number is 0.
#[repr(C)]
#[derive(Clone, Copy, Debug, PartialEq, Eq)]
pub struct ImageRead {
    pub class: u32,
    /// Of a refusal.
    pub number: u32,
    /// The rows of the table.
    pub numbers: usize,
    /// The rows of the list.
    pub subscribers: usize,
}

/// `struct ffn_route`. A field that its class does not name is 0.
#[repr(C)]
#[derive(Clone, Copy, Debug, Default, PartialEq, Eq)]
pub struct Route {
    pub class: u32,
    /// Of a refusal, an error or an outcome.
    pub number: u32,
    /// The holder's, in stored form.
    pub msisdn: u64,
    /// Of the network to ask, as characters.
    pub code: [u8; 3],
    /// With an MSISDN, where the number's type has one.
    pub subaddress: [u8; 3],
    /// 3, or 0 where there is none.
    pub subaddress_octets: u8,
}

/// `struct ffn_radio_entry`.
#[repr(C)]
#[derive(Clone, Copy, Debug, Default, PartialEq, Eq)]
pub struct RadioEntry {
    /// The functional number, in stored form.
    pub number: u64,
    /// 1 where it is marked unsure, otherwise 0.
    pub unsure: u8,
    /// 1 where it is still to be asked in this round, otherwise 0.
    pub to_ask: u8,
}

/// `struct ffn_radio`. A fresh one is 0 but for `own` and `hand_held`.
#[repr(C)]
#[derive(Clone, Copy, Debug, Default, PartialEq, Eq)]
pub struct Radio {
    /// Its own MSISDN, in stored form.
    pub own: u64,
    /// How many numbers are stored; the entries behind them are 0.
    pub count: usize,
    pub entries: [RadioEntry; 16],
    /// 1 of a hand-held, 0 of a cab radio.
    pub hand_held: u8,
    /// The invoke number of the last question.
    pub invoke: u8,
}

/// `struct ffn_radio_doing`. With a refusal all but its number is 0.
#[repr(C)]
#[derive(Clone, Copy, Debug, PartialEq, Eq)]
pub struct RadioDoing {
    /// The number of a refusal, otherwise 0.
    pub refusal: u8,
    /// 1 where the empty response is to be returned.
    pub respond: u8,
    /// Of the question.
    pub invoke: u8,
    /// Of the question; 0 where none is to be asked.
    pub octets: usize,
}

mod linked {
    use super::{Answer, Figures, FrameRead, ImageRead, Radio, RadioDoing, RequestRead, Route};

    extern "C" {
        pub fn ffn_pack(
            chars: *const u8,
            chars_length: usize,
            out: *mut u8,
            out_length: usize,
        ) -> Answer;
        pub fn ffn_unpack(
            octets: *const u8,
            octets_length: usize,
            out: *mut u8,
            out_length: usize,
        ) -> Answer;
        pub fn ffn_write_request(
            operation: u32,
            functional_number: u64,
            msisdn: u64,
            additional: *const u8,
            additional_length: usize,
            out: *mut u8,
            out_length: usize,
        ) -> Answer;
        pub fn ffn_read_request(
            octets: *const u8,
            octets_length: usize,
            text: *mut u8,
            text_length: usize,
        ) -> RequestRead;
        pub fn ffn_request(
            table: *mut u64,
            table_words: usize,
            figures: *mut u64,
            figure_words: usize,
            list: *const u64,
            list_words: usize,
            reply: *mut u8,
            reply_length: usize,
            requester: u64,
            scheme: u8,
            string: *const u8,
            string_length: usize,
        ) -> Answer;
        pub fn ffn_terminal_erasure(
            table: *mut u64,
            table_words: usize,
            figures: *mut u64,
            figure_words: usize,
            reply: *mut u8,
            reply_length: usize,
            functional_number: u64,
            holder: u64,
        ) -> Answer;
        pub fn ffn_routing(
            table: *const u64,
            table_words: usize,
            home: *const u8,
            home_length: usize,
            digits: *const u8,
            digit_count: usize,
            coded: u8,
        ) -> Route;
        pub fn ffn_sending(
            table: *mut u64,
            table_words: usize,
            figures: *mut u64,
            figure_words: usize,
            buffer: *mut u8,
            buffer_length: usize,
            functional_number: u64,
            delay: u32,
            now: u32,
        ) -> Answer;
        pub fn ffn_result(
            table: *mut u64,
            table_words: usize,
            figures: *mut u64,
            figure_words: usize,
            functional_number: u64,
            kind: u32,
            now: u32,
        ) -> Answer;
        pub fn ffn_finding(table: *const u64, table_words: usize, delay: u32, now: u32) -> Answer;
        pub fn ffn_recount(table: *const u64, table_words: usize) -> Figures;
        pub fn ffn_framed_request(
            table: *mut u64,
            table_words: usize,
            figures: *mut u64,
            figure_words: usize,
            list: *const u64,
            list_words: usize,
            frame: *mut u8,
            frame_length: usize,
            requester: u64,
            message: *const u8,
            message_length: usize,
        ) -> Answer;
        pub fn ffn_write_register(
            transaction: u8,
            invoke: u8,
            operation: u32,
            functional_number: u64,
            msisdn: u64,
            additional: *const u8,
            additional_length: usize,
            frame: *mut u8,
            frame_length: usize,
        ) -> Answer;
        pub fn ffn_read_register(message: *const u8, message_length: usize) -> FrameRead;
        pub fn ffn_read_release(message: *const u8, message_length: usize) -> FrameRead;
        pub fn ffn_write_image(
            table: *const u64,
            table_words: usize,
            figures: *const u64,
            figure_words: usize,
            list: *const u64,
            list_words: usize,
            image: *mut u8,
            image_length: usize,
        ) -> Answer;
        pub fn ffn_read_image(
            image: *const u8,
            image_length: usize,
            table: *mut u64,
            table_words: usize,
            list: *mut u64,
            list_words: usize,
            figures: *mut u64,
            figure_words: usize,
        ) -> ImageRead;
        pub fn ffn_close(
            table: *mut u64,
            table_words: usize,
            figures: *const u64,
            figure_words: usize,
            functional_number: u64,
        ) -> Answer;
        pub fn ffn_compact(
            words: *mut u64,
            word_count: usize,
            rows: usize,
            figures: *const u64,
            figure_words: usize,
        ) -> Answer;
        pub fn ffn_add(
            words: *mut u64,
            word_count: usize,
            rows: usize,
            figures: *const u64,
            figure_words: usize,
            functional_number: u64,
        ) -> Answer;
        pub fn ffn_radio_store(radio: *mut Radio, number: u64) -> RadioDoing;
        pub fn ffn_radio_notice(
            radio: *mut Radio,
            string: *const u8,
            string_length: usize,
            question: *mut u8,
            question_length: usize,
        ) -> RadioDoing;
        pub fn ffn_radio_reply(
            radio: *mut Radio,
            invoke: u8,
            string: *const u8,
            string_length: usize,
            question: *mut u8,
            question_length: usize,
        ) -> RadioDoing;
    }
}

// SAFETY, of every call below: each pointer and length are those of one slice,
// or the pointer is that of one radio, which is borrowed for the call; the
// library reads and writes nothing else, for every value of its arguments.

pub fn pack(chars: &[u8], out: &mut [u8]) -> Answer {
    unsafe { linked::ffn_pack(chars.as_ptr(), chars.len(), out.as_mut_ptr(), out.len()) }
}

pub fn unpack(octets: &[u8], out: &mut [u8]) -> Answer {
    unsafe { linked::ffn_unpack(octets.as_ptr(), octets.len(), out.as_mut_ptr(), out.len()) }
}

pub fn write_request(
    operation: u32,
    functional_number: u64,
    msisdn: u64,
    additional: &[u8],
    out: &mut [u8],
) -> Answer {
    unsafe {
        linked::ffn_write_request(
            operation,
            functional_number,
            msisdn,
            additional.as_ptr(),
            additional.len(),
            out.as_mut_ptr(),
            out.len(),
        )
    }
}

pub fn read_request(octets: &[u8], text: &mut [u8]) -> RequestRead {
    unsafe {
        linked::ffn_read_request(octets.as_ptr(), octets.len(), text.as_mut_ptr(), text.len())
    }
}

pub fn request(
    table: &mut [u64],
    figures: &mut [u64],
    list: &[u64],
    reply: &mut [u8],
    requester: u64,
    scheme: u8,
    string: &[u8],
) -> Answer {
    unsafe {
        linked::ffn_request(
            table.as_mut_ptr(),
            table.len(),
            figures.as_mut_ptr(),
            figures.len(),
            list.as_ptr(),
            list.len(),
            reply.as_mut_ptr(),
            reply.len(),
            requester,
            scheme,
            string.as_ptr(),
            string.len(),
        )
    }
}

pub fn terminal_erasure(
    table: &mut [u64],
    figures: &mut [u64],
    reply: &mut [u8],
    functional_number: u64,
    holder: u64,
) -> Answer {
    unsafe {
        linked::ffn_terminal_erasure(
            table.as_mut_ptr(),
            table.len(),
            figures.as_mut_ptr(),
            figures.len(),
            reply.as_mut_ptr(),
            reply.len(),
            functional_number,
            holder,
        )
    }
}

pub fn routing(table: &[u64], home: &[u8], digits: &[u8], coded: u8) -> Route {
    unsafe {
        linked::ffn_routing(
            table.as_ptr(),
            table.len(),
            home.as_ptr(),
            home.len(),
            digits.as_ptr(),
            digits.len(),
            coded,
        )
    }
}

pub fn sending(
    table: &mut [u64],
    figures: &mut [u64],
    buffer: &mut [u8],
    functional_number: u64,
    delay: u32,
    now: u32,
) -> Answer {
    unsafe {
        linked::ffn_sending(
            table.as_mut_ptr(),
            table.len(),
            figures.as_mut_ptr(),
            figures.len(),
            buffer.as_mut_ptr(),
            buffer.len(),
            functional_number,
            delay,
            now,
        )
    }
}

pub fn result(
    table: &mut [u64],
    figures: &mut [u64],
    functional_number: u64,
    kind: u32,
    now: u32,
) -> Answer {
    unsafe {
        linked::ffn_result(
            table.as_mut_ptr(),
            table.len(),
            figures.as_mut_ptr(),
            figures.len(),
            functional_number,
            kind,
            now,
        )
    }
}

pub fn finding(table: &[u64], delay: u32, now: u32) -> Answer {
    unsafe { linked::ffn_finding(table.as_ptr(), table.len(), delay, now) }
}

pub fn recount(table: &[u64]) -> Figures {
    unsafe { linked::ffn_recount(table.as_ptr(), table.len()) }
}

pub fn framed_request(
    table: &mut [u64],
    figures: &mut [u64],
    list: &[u64],
    frame: &mut [u8],
    requester: u64,
    message: &[u8],
) -> Answer {
    unsafe {
        linked::ffn_framed_request(
            table.as_mut_ptr(),
            table.len(),
            figures.as_mut_ptr(),
            figures.len(),
            list.as_ptr(),
            list.len(),
            frame.as_mut_ptr(),
            frame.len(),
            requester,
            message.as_ptr(),
            message.len(),
        )
    }
}

pub fn write_register(
    transaction: u8,
    invoke: u8,
    operation: u32,
    functional_number: u64,
    msisdn: u64,
    additional: &[u8],
    frame: &mut [u8],
) -> Answer {
    unsafe {
        linked::ffn_write_register(
            transaction,
            invoke,
            operation,
            functional_number,
            msisdn,
            additional.as_ptr(),
            additional.len(),
            frame.as_mut_ptr(),
            frame.len(),
        )
    }
}

pub fn read_register(message: &[u8]) -> FrameRead {
    unsafe { linked::ffn_read_register(message.as_ptr(), message.len()) }
}

pub fn read_release(message: &[u8]) -> FrameRead {
    unsafe { linked::ffn_read_release(message.as_ptr(), message.len()) }
}

pub fn write_image(table: &[u64], figures: &[u64], list: &[u64], image: &mut [u8]) -> Answer {
    unsafe {
        linked::ffn_write_image(
            table.as_ptr(),
            table.len(),
            figures.as_ptr(),
            figures.len(),
            list.as_ptr(),
            list.len(),
            image.as_mut_ptr(),
            image.len(),
        )
    }
}

pub fn read_image(
    image: &[u8],
    table: &mut [u64],
    list: &mut [u64],
    figures: &mut [u64],
) -> ImageRead {
    unsafe {
        linked::ffn_read_image(
            image.as_ptr(),
            image.len(),
            table.as_mut_ptr(),
            table.len(),
            list.as_mut_ptr(),
            list.len(),
            figures.as_mut_ptr(),
            figures.len(),
        )
    }
}

pub fn close(table: &mut [u64], figures: &[u64], functional_number: u64) -> Answer {
    unsafe {
        linked::ffn_close(
            table.as_mut_ptr(),
            table.len(),
            figures.as_ptr(),
            figures.len(),
            functional_number,
        )
    }
}

pub fn compact(words: &mut [u64], rows: usize, figures: &[u64]) -> Answer {
    unsafe {
        linked::ffn_compact(
            words.as_mut_ptr(),
            words.len(),
            rows,
            figures.as_ptr(),
            figures.len(),
        )
    }
}

pub fn add(words: &mut [u64], rows: usize, figures: &[u64], functional_number: u64) -> Answer {
    unsafe {
        linked::ffn_add(
            words.as_mut_ptr(),
            words.len(),
            rows,
            figures.as_ptr(),
            figures.len(),
            functional_number,
        )
    }
}

pub fn radio_store(radio: &mut Radio, number: u64) -> RadioDoing {
    unsafe { linked::ffn_radio_store(radio, number) }
}

pub fn radio_notice(radio: &mut Radio, string: &[u8], question: &mut [u8]) -> RadioDoing {
    unsafe {
        linked::ffn_radio_notice(
            radio,
            string.as_ptr(),
            string.len(),
            question.as_mut_ptr(),
            question.len(),
        )
    }
}

pub fn radio_reply(
    radio: &mut Radio,
    invoke: u8,
    string: &[u8],
    question: &mut [u8],
) -> RadioDoing {
    unsafe {
        linked::ffn_radio_reply(
            radio,
            invoke,
            string.as_ptr(),
            string.len(),
            question.as_mut_ptr(),
            question.len(),
        )
    }
}
