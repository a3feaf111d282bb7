//! Side by side in one run: the proved library, the independent implementation,
//! libosmocore where it is installed, and a bare pass that only adds up the
//! words that a call has to test. Buffers are touched first; each figure is the
//! best of many rounds, the rounds taken in turn.

use ffn::{c, MOST_NUMBERS, NUMBER_WORDS};
use std::hint::black_box;
use std::time::Instant;

const ROUNDS: usize = 300;

/// Words of a row: the holder, those of the notice, and whether it is closed.
const HOLDER: usize = 1;
const NOTICE: std::ops::Range<usize> = 2..6;
const CLOSED: usize = 6;

/// Nanoseconds a call, the best of the rounds, of several rivals taken in turn.
fn best<const N: usize>(calls: usize, rivals: &mut [&mut dyn FnMut(); N]) -> [f64; N] {
    let mut best = [f64::MAX; N];
    for _ in 0..ROUNDS {
        for (slot, rival) in best.iter_mut().zip(rivals.iter_mut()) {
            let start = Instant::now();
            for _ in 0..calls {
                rival();
            }
            *slot = slot.min(start.elapsed().as_nanos() as f64 / calls as f64);
        }
    }
    best
}

#[cfg(osmocore)]
mod osmocore {
    use std::ffi::{c_char, c_int};

    extern "C" {
        fn gsm_7bit_encode_n_ussd(
            out: *mut u8,
            n: usize,
            text: *const c_char,
            octets: *mut c_int,
        ) -> c_int;
        fn gsm_7bit_decode_n_ussd(
            out: *mut c_char,
            n: usize,
            octets: *const u8,
            length: u8,
        ) -> c_int;
        fn gsm0480_decode_ss_request(
            message: *const u8,
            length: u16,
            request: *mut SsRequest,
        ) -> c_int;
    }

    /// `struct ss_request`: octets alone, the operation first, then service,
    /// text and data of 160 each, and four more.
    pub type SsRequest = [u8; 326];

    /// Reads a Register, and unpacks its string.
    pub fn read(message: &[u8], request: &mut SsRequest) -> bool {
        // SAFETY: the message's length is given, and the request is a whole one.
        unsafe { gsm0480_decode_ss_request(message.as_ptr(), message.len() as u16, request) == 1 }
    }

    /// `text` ends with a zero.
    pub fn pack(text: &[u8], out: &mut [u8]) -> usize {
        let mut octets = 0;
        // SAFETY: the text ends with a zero, and the output's length is given.
        unsafe {
            gsm_7bit_encode_n_ussd(
                out.as_mut_ptr(),
                out.len(),
                text.as_ptr().cast(),
                &mut octets,
            )
        };
        octets as usize
    }

    pub fn unpack(octets: &[u8], out: &mut [u8]) -> usize {
        let septets = (octets.len() * 8 / 7) as u8;
        // SAFETY: the octets hold so many septets, and the output's length is given.
        unsafe {
            gsm_7bit_decode_n_ussd(out.as_mut_ptr().cast(), out.len(), octets.as_ptr(), septets)
                as usize
        }
    }
}

fn packing() {
    println!(
        "characters   pack: ours, Rust, libosmocore (ns)   unpack: ours, Rust, libosmocore (ns)"
    );
    for n in [8, 23, 72, 160] {
        let mut text: Vec<u8> = (0..n)
            .map(|i| b"**214*0492123401*88*4915100001*#ABC"[i % 35])
            .collect();
        let (mut a, mut b) = ([1u8; 512], [1u8; 512]);
        let count = oracle::pack(&text, &mut a).unwrap();
        let octets = a[..count].to_vec();
        text.push(0);
        let chars = &text[..n];
        #[cfg(osmocore)]
        let mut third = [1u8; 512];
        let mut osmo_pack = || {
            #[cfg(osmocore)]
            black_box(osmocore::pack(black_box(&text), &mut third));
        };
        let p = best(
            1000,
            &mut [
                &mut || {
                    black_box(c::pack(black_box(chars), &mut a));
                },
                &mut || {
                    black_box(oracle::pack(black_box(chars), &mut b).ok());
                },
                &mut osmo_pack,
            ],
        );
        #[cfg(osmocore)]
        let mut third = [1u8; 512];
        let mut osmo_unpack = || {
            #[cfg(osmocore)]
            black_box(osmocore::unpack(black_box(&octets), &mut third));
        };
        let u = best(
            1000,
            &mut [
                &mut || {
                    black_box(c::unpack(black_box(&octets), &mut a));
                },
                &mut || {
                    black_box(oracle::unpack(black_box(&octets), &mut b).ok());
                },
                &mut osmo_unpack,
            ],
        );
        println!(
            "{n:10}   {:7.1} {:7.1} {:8.1}  x{:.1}               {:7.1} {:7.1} {:8.1}  x{:.1}",
            p[0],
            p[1],
            p[2],
            p[2] / p[0],
            u[0],
            u[1],
            u[2],
            u[2] / u[0]
        );
    }
    if !cfg!(osmocore) {
        println!("(libosmocore-dev is not installed: its columns say nothing)");
    }
}

const NUMBERS: u64 = 10_492_000_000;
const SUBSCRIBERS: u64 = 14_915_100_000;

/// The digits of a number's international code, its first.
const CODE_DIGITS: usize = 3;

/// Numbers held by subscribers, none with a notice.
fn table(rows: usize) -> Vec<u64> {
    (0..rows as u64)
        .flat_map(|i| [NUMBERS + 7 * i, SUBSCRIBERS + 3 * i, 0, 0, 0, 0, 0])
        .collect()
}

fn list(rows: usize) -> Vec<u64> {
    (0..rows as u64)
        .flat_map(|i| [SUBSCRIBERS + 3 * i, 1 + 2 * (i % 2)])
        .collect()
}

/// The figures of a table that is sound.
fn figures(table: &[u64]) -> [u64; 3] {
    oracle::recount(table).unwrap()
}

/// The digits of a number in stored form, as characters.
fn digits(number: u64) -> Vec<u8> {
    number.to_string().split_off(1).into_bytes()
}

fn sum(words: &[u64]) -> u64 {
    words.iter().fold(0, |a, &w| a.wrapping_add(w))
}

/// What one line measured: the call, its sizes, and ours, Rust's and the bare pass's nanoseconds.
type Line = (&'static str, usize, usize, [f64; 3]);

fn line(
    lines: &mut Vec<Line>,
    call: &'static str,
    numbers: usize,
    subscribers: usize,
    t: [f64; 3],
) {
    lines.push((call, numbers, subscribers, t));
    println!(
        "{call:10} {numbers:7} {subscribers:11}   {:9.1} {:9.1} {:9.1}   {:5.2}  {:5.2}",
        t[0],
        t[1],
        t[2],
        t[0] / t[1],
        t[0] / t[2]
    );
}

/// One request by ours and Rust's, each on its own table, and the bare pass.
fn request(
    turns: usize,
    ours: &mut [u64],
    theirs: &mut [u64],
    people: &[u64],
    requester: u64,
    string: &[u8],
) -> [f64; 3] {
    let (mut a, mut b) = ([1u8; 80], [1u8; 80]);
    let (mut left, mut right) = (figures(ours), figures(theirs));
    let words = ours.to_vec();
    best(
        turns,
        &mut [
            &mut || {
                black_box(c::request(
                    ours,
                    &mut left,
                    black_box(people),
                    &mut a,
                    requester,
                    15,
                    string,
                ));
            },
            &mut || {
                black_box(oracle::request(
                    theirs,
                    &mut right,
                    black_box(people),
                    &mut b,
                    requester,
                    15,
                    string,
                ));
            },
            &mut || {
                black_box(sum(black_box(&words)).wrapping_add(sum(black_box(people))));
            },
        ],
    )
}

fn calls(lines: &mut Vec<Line>, numbers: usize, subscribers: usize) {
    let (mut ours, mut theirs, people) = (table(numbers), table(numbers), list(subscribers));
    let middle = numbers / 2;
    let number = NUMBERS + 7 * middle as u64;
    let requester = SUBSCRIBERS + 3 * (subscribers / 2) as u64;
    let (mut a, mut b, mut string) = ([1u8; 80], [1u8; 80], [1u8; 160]);
    let count = c::write_request(2, number, 0, &[], &mut string).count;
    let (words, string) = (ours.clone(), &string[..count]);
    let turns = if numbers + subscribers > 64 { 50 } else { 1000 };

    let t = request(turns, &mut ours, &mut theirs, &people, requester, string);
    line(lines, "request", numbers, subscribers, t);
    if subscribers > 0 {
        return;
    }
    // A number that is held, or has a notice to send or one in flight, set anew
    // before each call.
    let row = |phase: u64| match phase {
        0 => [number, SUBSCRIBERS, 0, 0, 0, 0, 0],
        _ => [number, 0, phase, SUBSCRIBERS, SUBSCRIBERS + 3, 0, 0],
    };
    let set = |t: &mut [u64], phase: u64| {
        if numbers > 0 {
            t[NUMBER_WORDS * middle..][..NUMBER_WORDS].copy_from_slice(&row(phase));
        }
    };
    // The figures of a table set so.
    let counted = |t: &[u64], phase: u64| {
        let mut t = t.to_vec();
        set(&mut t, phase);
        figures(&t)
    };
    let (held, waiting, flying) = (counted(&ours, 0), counted(&ours, 1), counted(&ours, 2));
    line(
        lines,
        "terminal",
        numbers,
        0,
        best(
            turns,
            &mut [
                &mut || {
                    set(&mut ours, 0);
                    let (t, mut lent) = (&mut ours, held);
                    let said = c::terminal_erasure(t, &mut lent, &mut a, number, SUBSCRIBERS);
                    black_box(said);
                },
                &mut || {
                    set(&mut theirs, 0);
                    let (t, mut lent) = (&mut theirs, held);
                    let said = oracle::terminal_erasure(t, &mut lent, &mut b, number, SUBSCRIBERS);
                    black_box(said);
                },
                &mut || {
                    black_box(sum(black_box(&words)));
                },
            ],
        ),
    );
    set(&mut ours, 0);
    set(&mut theirs, 0);
    let digits = digits(number);
    let (code, _) = digits.split_at(CODE_DIGITS);
    line(
        lines,
        "routing",
        numbers,
        0,
        best(
            turns,
            &mut [
                &mut || {
                    black_box(c::routing(black_box(&ours), code, &digits, 1));
                },
                &mut || {
                    black_box(oracle::routing(black_box(&theirs), code, &digits, true));
                },
                &mut || {
                    black_box(sum(black_box(&words)));
                },
            ],
        ),
    );
    line(
        lines,
        "sending",
        numbers,
        0,
        best(
            turns,
            &mut [
                &mut || {
                    set(&mut ours, 1);
                    let mut lent = waiting;
                    black_box(c::sending(&mut ours, &mut lent, &mut a, number, 0, 7));
                },
                &mut || {
                    set(&mut theirs, 1);
                    let (t, mut lent) = (&mut theirs, waiting);
                    black_box(oracle::sending(t, &mut lent, &mut b, number, 0, 7));
                },
                &mut || {
                    black_box(sum(black_box(&words)));
                },
            ],
        ),
    );
    line(
        lines,
        "result",
        numbers,
        0,
        best(
            turns,
            &mut [
                &mut || {
                    set(&mut ours, 2);
                    let mut lent = flying;
                    black_box(c::result(&mut ours, &mut lent, number, 5, 7));
                },
                &mut || {
                    set(&mut theirs, 2);
                    let mut lent = flying;
                    black_box(oracle::result(&mut theirs, &mut lent, number, 5, 7));
                },
                &mut || {
                    black_box(sum(black_box(&words)));
                },
            ],
        ),
    );
    set(&mut ours, 2);
    set(&mut theirs, 2);
    line(
        lines,
        "finding",
        numbers,
        0,
        best(
            turns,
            &mut [
                &mut || {
                    black_box(c::finding(black_box(&ours), 0, 7));
                },
                &mut || {
                    black_box(oracle::finding(black_box(&theirs), 0, 7));
                },
                &mut || {
                    black_box(sum(black_box(&words)));
                },
            ],
        ),
    );
}

/// A recount of a full table, as a caller makes it once at the start.
fn recount() {
    let words = table(1024);
    let t = best(
        50,
        &mut [
            &mut || {
                black_box(c::recount(black_box(&words)));
            },
            &mut || {
                black_box(oracle::recount(black_box(&words)));
            },
            &mut || {
                black_box(sum(black_box(&words)));
            },
        ],
    );
    println!("\nrecount, full table:");
    line(&mut Vec::new(), "recount", 1024, 0, t);
}

/// A crew of one and of ten functions, on full table and list. The requester
/// holds the numbers that she registers, so each call finds the same table.
fn crews() {
    let people = list(4096);
    let requester = SUBSCRIBERS + 3 * 2048;
    let rows: Vec<u64> = (0..1024)
        .flat_map(|i| [NUMBERS + i, requester, 0, 0, 0, 0, 0])
        .collect();
    let lead = NUMBERS + 501;
    let of = |call: &'static str, field: &[u8], reply: &[u8]| {
        let (mut ours, mut theirs, mut string) = (rows.clone(), rows.clone(), [1u8; 160]);
        let count = c::write_request(0, lead, 0, field, &mut string).count;
        let string = &string[..count];
        let (mut said, mut packed) = ([0; 80], [0; 80]);
        let mut lent = figures(&ours);
        let answer = c::request(
            &mut ours, &mut lent, &people, &mut said, requester, 15, string,
        );
        let octets = c::pack(reply, &mut packed).count;
        assert_eq!((answer.number, answer.count), (11, octets));
        assert_eq!(said, packed, "every function succeeds");
        let t = request(50, &mut ours, &mut theirs, &people, requester, string);
        line(&mut Vec::new(), call, 1024, 4096, t);
        t
    };
    println!("\ncrews, full table and list:");
    let one = of("crew of 1", b"BULK0", b"11 1 01 0");
    let ten = of(
        "crew of 10",
        b"BULK9 020304050607080910",
        b"11 10 01020304050607080910 0",
    );
    println!(
        "ten / one: {:.2}, Rust {:.2}",
        ten[0] / one[0],
        ten[1] / one[1]
    );
}

/// One framed request by ours and Rust's, each on its own table, and the bare
/// pass.
fn framed_request(
    turns: usize,
    ours: &mut [u64],
    theirs: &mut [u64],
    people: &[u64],
    requester: u64,
    message: &[u8],
) -> [f64; 3] {
    let (mut a, mut b) = ([1u8; 120], [1u8; 120]);
    let (mut left, mut right) = (figures(ours), figures(theirs));
    let words = ours.to_vec();
    let times = best(
        turns,
        &mut [
            &mut || {
                let (people, frame) = (black_box(people), &mut a);
                black_box(c::framed_request(
                    ours, &mut left, people, frame, requester, message,
                ));
            },
            &mut || {
                let (people, frame) = (black_box(people), &mut b);
                black_box(oracle::framed_request(
                    theirs, &mut right, people, frame, requester, message,
                ));
            },
            &mut || {
                black_box(sum(black_box(&words)).wrapping_add(sum(black_box(people))));
            },
        ],
    );
    assert_eq!(a, b, "the same frame");
    times
}

/// A framed request beside the bare one of the same string.
fn framed() {
    println!("\nframed requests beside bare ones:");
    for (numbers, subscribers) in [(1, 1), (64, 64), (1024, 4096)] {
        let (mut ours, mut theirs, people) = (table(numbers), table(numbers), list(subscribers));
        let number = NUMBERS + 7 * (numbers / 2) as u64;
        let requester = SUBSCRIBERS + 3 * (subscribers / 2) as u64;
        let (mut string, mut message) = ([1u8; 160], [1u8; 120]);
        let count = c::write_request(2, number, 0, &[], &mut string).count;
        let string = &string[..count];
        let count = c::write_register(0, 1, 2, number, 0, &[], &mut message).count;
        let message = &message[..count];
        let turns = if numbers > 64 { 50 } else { 1000 };
        let (left, right) = (&mut ours, &mut theirs);
        let bare = request(turns, left, right, &people, requester, string);
        line(&mut Vec::new(), "request", numbers, subscribers, bare);
        let t = framed_request(turns, left, right, &people, requester, message);
        line(&mut Vec::new(), "framed", numbers, subscribers, t);
        let more = [0, 1].map(|i| t[i] - bare[i]);
        println!("the frame: {:.1}, Rust {:.1}", more[0], more[1]);
    }
}

/// A Register read by ours and Rust's, then read and its string unpacked by
/// ours, Rust's and libosmocore, whose decoder does both.
fn read_times(message: &[u8]) -> [f64; 5] {
    let (mut a, mut b) = ([1u8; 160], [1u8; 160]);
    #[cfg(osmocore)]
    let mut theirs: osmocore::SsRequest = [0; 326];
    let mut osmo_read = || {
        #[cfg(osmocore)]
        black_box(osmocore::read(black_box(message), &mut theirs));
    };
    let times = best(
        1000,
        &mut [
            &mut || {
                black_box(c::read_register(black_box(message)));
            },
            &mut || {
                black_box(oracle::read_register(black_box(message)).ok());
            },
            &mut || {
                let read = c::read_register(black_box(message));
                let string = &message[read.start..][..read.length];
                black_box(c::unpack(string, &mut a));
            },
            &mut || {
                let read = oracle::read_register(black_box(message)).map(|read| read.content);
                if let Ok(oracle::Invoked::Request { string, .. }) = read {
                    black_box(oracle::unpack(string.of(message), &mut b).ok());
                }
            },
            &mut osmo_read,
        ],
    );
    #[cfg(osmocore)]
    assert_eq!(theirs[0], 0x3B, "libosmocore reads the operation");
    assert_eq!(a, b, "the same characters");
    times
}

/// The Register of a registration, and the longest one.
fn registers() {
    println!(
        "\nRegister   read: ours, Rust (ns)   read and unpacked: ours, Rust, libosmocore (ns)"
    );
    let (highest, lowest) = (1_999_999_999_999_999, 1_000_000_000_000_000);
    let longest = &b"ABCDEFGHIJKLMNOPQRSTUVWXYZ0123"[..];
    for (operation, number, msisdn, additional) in
        [(0, NUMBERS, 0, &b""[..]), (1, highest, lowest, longest)]
    {
        let mut frame = [1u8; 120];
        let made = c::write_register(0, 1, operation, number, msisdn, additional, &mut frame);
        let t = read_times(&frame[..made.count]);
        println!(
            "{:8}   {:7.1} {:7.1}                 {:7.1} {:7.1} {:8.1}  x{:.1}",
            made.count,
            t[0],
            t[1],
            t[2],
            t[3],
            t[4],
            t[4] / t[2]
        );
    }
    if !cfg!(osmocore) {
        println!("(libosmocore-dev is not installed: its column says nothing)");
    }
}

/// Full table and list written as one image, and read back from it, beside a bare
/// copy of its octets.
fn images() {
    let (words, people) = (table(1024), list(4096));
    let counts = figures(&words);
    let size = ffn::image_size(1024, 4096);
    let (mut a, mut b, mut copied) = (vec![1u8; size], vec![1u8; size], vec![1u8; size]);
    oracle::write_image(&words, &counts, &people, &mut b).unwrap();
    let image = b.clone();
    println!("\nimages, full table and list, the bare pass a copy of the octets:");
    let t = best(
        50,
        &mut [
            &mut || {
                let (words, people) = (black_box(&words), black_box(&people));
                black_box(c::write_image(words, &counts, people, &mut a));
            },
            &mut || {
                let (words, people) = (black_box(&words), black_box(&people));
                black_box(oracle::write_image(words, &counts, people, &mut b).ok());
            },
            &mut || {
                copied.copy_from_slice(black_box(&image));
                black_box(&copied);
            },
        ],
    );
    assert!(a == image && b == image, "the same image");
    line(&mut Vec::new(), "writing", 1024, 4096, t);

    let mut left = (vec![1; words.len()], vec![1; people.len()], [1; 3]);
    let mut right = left.clone();
    let t = best(
        50,
        &mut [
            &mut || {
                let (table, list, figures) = &mut left;
                black_box(c::read_image(black_box(&image), table, list, figures));
            },
            &mut || {
                let (table, list, figures) = &mut right;
                black_box(oracle::read_image(black_box(&image), table, list, figures).ok());
            },
            &mut || {
                copied.copy_from_slice(black_box(&image));
                black_box(&copied);
            },
        ],
    );
    assert!(
        left == right && left == (words, people, counts),
        "the same contents"
    );
    line(&mut Vec::new(), "reading", 1024, 4096, t);
}

/// What compacting and adding are measured on: rows in a buffer of 1,024, and how
/// many of them are in use.
struct Rows {
    words: Vec<u64>,
    rows: usize,
    figures: [u64; 3],
}

/// A change of such rows by ours and Rust's, each on its own words, which are set
/// anew before each call, and the bare pass: a copy of the words, which both of
/// them make too and which is taken off.
fn changed<Ours, Rust>(
    call: &'static str,
    before: &Rows,
    mut ours: impl FnMut(&mut [u64]) -> Ours,
    mut theirs: impl FnMut(&mut [u64]) -> Rust,
) {
    let (mut a, mut b, mut copied) = (
        before.words.clone(),
        before.words.clone(),
        vec![1; before.words.len()],
    );
    let t = best(
        50,
        &mut [
            &mut || {
                a.copy_from_slice(black_box(&before.words));
                black_box(ours(&mut a));
            },
            &mut || {
                b.copy_from_slice(black_box(&before.words));
                black_box(theirs(&mut b));
            },
            &mut || {
                copied.copy_from_slice(black_box(&before.words));
                black_box(&copied);
            },
        ],
    );
    assert!(a == b && a != before.words, "the same rows, changed");
    let t = [t[0] - t[2], t[1] - t[2], t[2]];
    line(&mut Vec::new(), call, before.rows, 0, t);
}

/// Whether the row at a place goes.
type Goes = fn(usize) -> bool;

/// Adding to a table that is full then, in front, in the middle and behind, and
/// compacting full ones.
fn withdrawals() {
    println!("\nadding and compacting at full size, the bare pass a copy of the words:");
    let whole = table(MOST_NUMBERS);
    for (call, place) in [
        ("add first", 0),
        ("add middle", MOST_NUMBERS / 2),
        ("add last", MOST_NUMBERS - 1),
    ] {
        let (front, behind) = whole.split_at(NUMBER_WORDS * place);
        let mut words = [front, &behind[NUMBER_WORDS..]].concat();
        let (rows, number) = (MOST_NUMBERS - 1, behind[0]);
        let figures = figures(&words);
        words.resize(whole.len(), 1);
        let before = Rows {
            words,
            rows,
            figures,
        };
        changed(
            call,
            &before,
            |words| c::add(words, rows, &before.figures, black_box(number)),
            |words| oracle::add(words, rows, &before.figures, black_box(number)),
        );
    }
    let goes: [(_, Goes); 3] = [
        ("one goes", |i| i == 0),
        ("half go", |i| draw(i).is_multiple_of(2)),
        ("all go", |_| true),
    ];
    for (call, goes) in goes {
        let mut words = whole.clone();
        for (i, row) in words.chunks_mut(NUMBER_WORDS).enumerate() {
            if goes(i) {
                (row[HOLDER], row[CLOSED]) = (0, 1);
            }
        }
        let (rows, figures) = (MOST_NUMBERS, figures(&words));
        let before = Rows {
            words,
            rows,
            figures,
        };
        changed(
            call,
            &before,
            |words| c::compact(words, rows, &before.figures),
            |words| oracle::compact(words, rows, &before.figures),
        );
    }
}

/// Nanoseconds that one row more costs, between two sizes.
fn growth(lines: &[Line]) {
    let at = |call, numbers, subscribers| {
        lines
            .iter()
            .find(|l| (l.0, l.1, l.2) == (call, numbers, subscribers))
            .unwrap()
            .3
    };
    let show = |what: &str, rows: f64, few: [f64; 3], many: [f64; 3]| {
        let more = [0, 1, 2].map(|i| (many[i] - few[i]) / rows);
        println!("{what:32} {:6.2} {:6.2} {:6.2}", more[0], more[1], more[2]);
    };
    println!("\na row more (ns)                     ours   Rust   bare");
    for call in [
        "request", "terminal", "routing", "sending", "result", "finding",
    ] {
        let what = format!("{call}, a number");
        show(&what, 960.0, at(call, 64, 0), at(call, 1024, 0));
    }
    let (few, many) = (at("request", 0, 64), at("request", 0, 4096));
    show("request, a subscriber", 4032.0, few, many);
}

/// The test of 1,024 rows that are harder than usual, through a finding that is refused right after it.
fn harder(what: &str, change: impl Fn(usize, &mut [u64])) {
    let mut words = table(1024);
    for (i, row) in words.chunks_mut(NUMBER_WORDS).enumerate() {
        change(i, row);
    }
    let t = best(
        50,
        &mut [
            &mut || {
                black_box(c::finding(black_box(&words), 1, 7));
            },
            &mut || {
                black_box(oracle::finding(black_box(&words), 1, 7));
            },
            &mut || {
                black_box(sum(black_box(&words)));
            },
        ],
    );
    println!("\n1,024 rows, {what}:");
    line(&mut Vec::new(), "finding", 1024, 0, t);
}

/// A draw without pattern, the same in each run.
fn draw(i: usize) -> u64 {
    (i as u64 + 1).wrapping_mul(0x9E37_79B9_7F4A_7C15) >> 40
}

fn main() {
    packing();
    println!("\ncall       numbers subscribers        ours      Rust      bare   ours/Rust  ours/bare (ns)");
    let mut lines = Vec::new();
    for numbers in [0, 1, 64, 1024] {
        for subscribers in [0, 64, 4096] {
            calls(&mut lines, numbers, subscribers);
        }
    }
    growth(&lines);
    recount();
    images();
    withdrawals();
    crews();
    framed();
    registers();
    harder("a notice in each", |i, row| {
        let addressee = SUBSCRIBERS + 5 * i as u64;
        row[NOTICE].copy_from_slice(&[3, addressee, addressee + 1, 77]);
    });
    harder("half of them free, without pattern", |i, row| {
        if draw(i).is_multiple_of(2) {
            row[HOLDER] = 0;
        }
    });
    harder("holders of two lengths, without pattern", |i, row| {
        if draw(i).is_multiple_of(2) {
            row[HOLDER] += 9 * SUBSCRIBERS;
        }
    });
}
