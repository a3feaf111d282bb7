//! Framed messages: around generated strings, whole or broken in one place, and
//! every change of an octet in some that are whole.

use super::{Call, Generator};
use crate::number::number_from_digits;
use crate::packing::pack;

/// The tags of parts, and some that are none.
const TAGS: [u8; 14] = [
    0xA1, 0xA2, 0xA3, 0xA4, 0x02, 0x04, 0x30, 0x80, 0x81, 0x00, 0x05, 0x06, 0x31, 0xFF,
];

/// Strings whose parts or whose element have a length around a change of form.
const LENGTHS: [usize; 19] = [
    0, 1, 63, 80, 81, 111, 112, 113, 114, 115, 116, 122, 123, 127, 128, 160, 161, 236, 237,
];

/// The most octets of a string in a Register.
const MAX_STRING: usize = 237;

/// A part: a tag, its length in the shortest form, and its content.
fn part(tag: u8, content: &[u8]) -> Vec<u8> {
    with_head(&head(tag, content.len() as u8), content)
}

fn head(tag: u8, length: u8) -> Vec<u8> {
    if length < 0x80 {
        vec![tag, length]
    } else {
        vec![tag, 0x81, length]
    }
}

fn with_head(head: &[u8], content: &[u8]) -> Vec<u8> {
    [head, content].concat()
}

impl Generator {
    /// A framed request.
    pub fn framed(&mut self) -> Call {
        let Call::Request {
            table,
            figures,
            list,
            requester,
            scheme,
            string,
            ..
        } = self.request()
        else {
            unreachable!("a request is one");
        };
        Call::FramedRequest {
            table,
            figures,
            list,
            frame: self.buffer_around(120),
            requester,
            message: self.register(scheme, string),
        }
    }

    /// A Register to be written, of fields a third of which are against the
    /// rules.
    pub fn writing_register(&mut self) -> Call {
        let Call::WriteRequest { fields, .. } = self.writing() else {
            unreachable!("a writing is one");
        };
        let transaction = match self.random.below(8) {
            0 => self.random.pick(&[16, 17, 128, 255]),
            _ => self.random.below(16) as u8,
        };
        Call::WriteRegister {
            transaction,
            invoke: self.random.octet(),
            fields,
            frame: self.buffer_around(120),
        }
    }

    pub fn reading_register(&mut self) -> Call {
        let string = self.framed_string();
        let scheme = self.random.pick(&[0x0F, 0x0F, 0x00, 0xFF]);
        Call::ReadRegister {
            message: self.register(scheme, string),
        }
    }

    pub fn reading_release(&mut self) -> Call {
        Call::ReadRelease {
            message: self.release(),
        }
    }

    /// The string of a request, or octets of a length around a change of form.
    fn framed_string(&mut self) -> Vec<u8> {
        if self.random.once_in(2) {
            let fields = self.fields();
            return self.string(&fields);
        }
        let length = self.random.pick(&LENGTHS);
        self.buffer(length)
    }

    /// A Register, broken once in three.
    pub(super) fn register(&mut self, scheme: u8, mut string: Vec<u8>) -> Vec<u8> {
        string.truncate(MAX_STRING);
        // The step that is broken, if it is one of those below.
        let broken = self.random.index(27);
        let string = self.piece(0x04, &string, broken == 0);
        let scheme = self.piece(0x04, &[scheme], broken == 1);
        let sequence = self.piece(0x30, &[scheme, string].concat(), broken == 2);
        let operation = self.operation(broken == 3);
        let number = self.random.octet();
        let invoke = self.piece(0x02, &[number], broken == 4);
        let parts = [invoke, operation, sequence].concat();
        let component = self.piece(0xA1, &parts, broken == 5);
        let mut message = self.message(0x7B, &component, broken == 6);
        message.extend(match broken {
            7 => self
                .random
                .pick(&["", "\x7F", "\x7F\x01\x01", "\x7F\x02\0\0", "\x1C\x01\0"])
                .as_bytes(),
            _ => b"\x7F\x01\0",
        });
        if broken == 8 {
            self.break_message(&mut message);
        }
        message
    }

    /// A Release Complete, broken once in two.
    fn release(&mut self) -> Vec<u8> {
        let broken = self.random.index(16);
        let number = self.random.octet();
        let invoke = self.piece(0x02, &[number], broken == 0);
        let number = self.random.octet();
        let (tag, content) = match self.random.below(3) {
            0 => (0xA2, self.result_content(broken)),
            1 => (0xA3, self.piece(0x02, &[number], broken <= 3)),
            _ => (0xA4, self.piece(0x81, &[number], broken <= 3)),
        };
        let component = self.piece(tag, &[invoke, content].concat(), broken == 6);
        let mut message = self.message(0x2A, &component, broken == 7);
        if broken == 8 {
            self.break_message(&mut message);
        }
        message
    }

    /// What a result has behind its invoke number.
    fn result_content(&mut self, broken: usize) -> Vec<u8> {
        let length = self.random.pick(&[0, 1, 2, 2, 2, 12, 12, 25, 79, 80, 81]);
        let string = self.buffer(length);
        let string = self.piece(0x04, &string, broken == 1);
        let scheme = match broken {
            2 => part(0x04, &[self.random.octet()]),
            _ => self.piece(0x04, &[0x0F], broken == 3),
        };
        let inner = self.piece(0x30, &[scheme, string].concat(), broken == 4);
        let operation = self.operation(broken == 5);
        self.piece(0x30, &[operation, inner].concat(), broken == 9)
    }

    /// The operation; broken, it is another, there is none, or a linked number
    /// stands before it.
    fn operation(&mut self, broken: bool) -> Vec<u8> {
        let whole = vec![0x02, 0x01, 0x3B];
        if !broken {
            return whole;
        }
        match self.random.below(5) {
            0 => Vec::new(),
            1 => part(0x02, &[self.random.octet()]),
            2 => part(0x02, &[0, 0x3B]),
            3 => with_head(&[0x80, 0x01, self.random.octet()], &whole),
            _ => self.piece(0x02, &[0x3B], true),
        }
    }

    /// A part; broken, it has another tag, a length in another form or of
    /// another value, an octet more or less in it or an octet behind it, or is
    /// not there.
    fn piece(&mut self, tag: u8, content: &[u8], broken: bool) -> Vec<u8> {
        if !broken {
            return part(tag, content);
        }
        let length = content.len() as u8;
        match self.random.below(10) {
            0 => part(self.random.pick(&TAGS), content),
            1 => with_head(&[tag, 0x81, length], content),
            2 => with_head(&[tag, 0x82, 0, length], content),
            3 => with_head(&[tag, length], content),
            4 => [&[tag, 0x80], content, &[0, 0]].concat(),
            5 => {
                let off = self.random.pick(&[1, 2, 254, 255]);
                with_head(&head(tag, length.wrapping_add(off)), content)
            }
            6 => part(tag, &[content, &[self.random.octet()]].concat()),
            7 => part(tag, &content[..content.len().saturating_sub(1)]),
            8 => [part(tag, content), vec![self.random.octet()]].concat(),
            _ => Vec::new(),
        }
    }

    /// Header and facility element of a message; broken, one of its four octets
    /// is another.
    fn message(&mut self, message_type: u8, component: &[u8], broken: bool) -> Vec<u8> {
        let first = (self.random.below(16) as u8) << 4 | 0x0B;
        let mut head = [first, message_type, 0x1C, component.len() as u8];
        if broken {
            let place = self.random.index(4);
            head[place] = match self.random.below(3) {
                0 => head[place] ^ 0x40,
                1 => head[place].wrapping_add(self.random.pick(&[1, 2, 254, 255])),
                _ => self.random.octet(),
            };
        }
        with_head(&head, component)
    }

    /// Changes an octet, cuts the message, or puts octets behind it.
    fn break_message(&mut self, message: &mut Vec<u8>) {
        let place = self.random.index(message.len());
        match self.random.below(4) {
            0 => message[place] = self.random.octet(),
            1 => message[place] ^= 1 << self.random.below(8),
            2 => message.truncate(place),
            _ => {
                let length = message.len() + self.random.pick(&[1, 1, 3, 60, 250]);
                message.resize(length, self.random.pick(&[0, 0x7F, 0xFF]));
            }
        }
    }
}

/// Octets that stand in the place of each other octet of a message.
const OTHERS: [u8; 6] = [0x00, 0x02, 0x7F, 0x80, 0x81, 0xFF];

/// A message with the octet at `place` changed: each bit of it, and others.
fn changes(message: &[u8], place: usize) -> Vec<Vec<u8>> {
    let octet = message[place];
    let bits = (0..8).map(|bit| octet ^ 1 << bit);
    let mut others: Vec<u8> = bits.chain(OTHERS).collect();
    others.sort_unstable();
    others.dedup();
    let changed = |other| {
        let mut message = message.to_vec();
        message[place] = other;
        message
    };
    others
        .into_iter()
        .filter(|&other| other != octet)
        .map(changed)
        .collect()
}

/// A message as it is and with each octet of `places` changed, every cut of it,
/// and an octet more, by groups that belong together.
fn variants(message: &[u8], places: impl Iterator<Item = usize>) -> Vec<Vec<Vec<u8>>> {
    let cuts = (0..message.len()).map(|cut| message[..cut].to_vec());
    let longer = OTHERS.map(|octet| [message, &[octet]].concat());
    let cuts: Vec<_> = cuts.collect();
    places
        .map(|place| changes(message, place))
        .chain(cuts.chunks(16).map(<[_]>::to_vec))
        .chain([longer.to_vec(), vec![message.to_vec()]])
        .collect()
}

/// A Register of transaction 0 and invoke number 1.
fn whole_register(string: &[u8]) -> Vec<u8> {
    let sequence = part(0x30, &with_head(&[4, 1, 0x0F], &part(0x04, string)));
    let component = part(0xA1, &with_head(&[2, 1, 1, 2, 1, 0x3B], &sequence));
    let head = [0x0B, 0x7B, 0x1C, component.len() as u8];
    [&head, component.as_slice(), &[0x7F, 1, 0]].concat()
}

/// One Release Complete of each kind: result 01, error 36, reject 1.
const RELEASES: [&[u8]; 3] = [
    b"\x8B\x2A\x1C\x13\xA2\x11\x02\x01\x01\x30\x0C\x02\x01\x3B\x30\x07\x04\x01\x0F\x04\x02\xB0\x18",
    b"\x8B\x2A\x1C\x08\xA3\x06\x02\x01\x01\x02\x01\x24",
    b"\x8B\x2A\x1C\x08\xA4\x06\x02\x01\x01\x81\x01\x01",
];

/// Lines of the program `calls` by groups, each with how many calls it makes:
/// for a registration, for a Register whose lengths are in the long form, and
/// for a Release Complete of each kind, every octet changed, every cut, and an
/// octet more.
pub fn changed_frames() -> Vec<(Vec<u8>, u64)> {
    let mut string = [0; 18];
    pack(b"**214*0492123401***#", &mut string).expect("these characters pack");
    let registration = whole_register(&string);
    let long = whole_register(&[0x55; 128]);
    // The 128 octets of its string are all alike.
    let heads = (0..24).chain(long.len() - 4..long.len());
    let registers = [
        variants(&registration, 0..registration.len()),
        variants(&long, heads),
    ];
    let releases = RELEASES.map(|release| variants(release, 0..release.len()));
    let registers = registers.concat();
    let releases = releases.concat();
    let framed = registers.iter().map(|messages| framed_lines(messages));
    let registered = registers.iter().map(|of| reading_lines("registered", of));
    let released = releases.iter().map(|of| reading_lines("released", of));
    framed.chain(registered).chain(released).collect()
}

fn hexadecimal(octets: &[u8]) -> String {
    octets.iter().map(|octet| format!("{octet:02x}")).collect()
}

/// A asks what each message says, F being free each time.
fn framed_lines(messages: &[Vec<u8>]) -> (Vec<u8>, u64) {
    let stored = |digits: &str| number_from_digits(digits.as_bytes()).expect("digits");
    let (number, requester) = (stored("0492123401"), stored("4915100001"));
    let mut lines = format!("list {requester} 1\nbuffer 120 238\n");
    for message in messages {
        let message = hexadecimal(message);
        lines += &format!("table {number} 0 0 0 0 0 0\nframed {requester} x{message}\n");
    }
    (lines.into_bytes(), messages.len() as u64)
}

fn reading_lines(name: &str, messages: &[Vec<u8>]) -> (Vec<u8>, u64) {
    let lines: String = messages
        .iter()
        .map(|message| format!("{name} x{}\n", hexadecimal(message)))
        .collect();
    (lines.into_bytes(), messages.len() as u64)
}
