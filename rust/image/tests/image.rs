//! Show, check and make, with images written and read by the independent
//! implementation.

mod common;

use std::ffi::OsString;
use std::fs;
use std::io;
use std::path::Path;

use common::{Folder, IMAGE, LINES};
use ffn::{Figures, ReadImage, Refusal};
use ffn_image::{run, Failure, Images};

/// The independent implementation.
struct Independent;

fn refusal(number: u8) -> Refusal {
    Refusal::from_number(number.into()).unwrap()
}

impl Images for Independent {
    fn write(
        &self,
        table: &[u64],
        figures: &Figures,
        list: &[u64],
        out: &mut [u8],
    ) -> Result<usize, Refusal> {
        oracle::write_image(table, &figures.words(), list, out).map_err(refusal)
    }

    fn read(
        &self,
        image: &[u8],
        table: &mut [u64],
        list: &mut [u64],
    ) -> Result<ReadImage, Refusal> {
        let mut words = [0; 3];
        let (numbers, subscribers) =
            oracle::read_image(image, table, list, &mut words).map_err(refusal)?;
        Ok(ReadImage {
            numbers,
            subscribers,
            figures: Figures::from_words(words),
        })
    }
}

/// One that writes nothing.
struct Refusing;

impl Images for Refusing {
    fn write(&self, _: &[u64], _: &Figures, _: &[u64], _: &mut [u8]) -> Result<usize, Refusal> {
        Err(Refusal::TableUnsound)
    }

    fn read(&self, _: &[u8], _: &mut [u64], _: &mut [u64]) -> Result<ReadImage, Refusal> {
        Err(Refusal::TableUnsound)
    }
}

/// What a subcommand prints, or what it says is wrong.
fn ask(subcommand: &str, path: &Path, input: &[u8]) -> Result<String, String> {
    let words = [OsString::from(subcommand), path.into()];
    let mut output = Vec::new();
    match run(&Independent, &words, input, &mut output) {
        Ok(()) => Ok(String::from_utf8(output).unwrap()),
        Err(failure) => {
            assert!(output.is_empty());
            let line = failure.to_string();
            assert!(!line.contains('\n'), "{line}");
            Err(line)
        }
    }
}

/// What a subcommand says is wrong, without the file's name.
fn fault(subcommand: &str, path: &Path, input: &[u8]) -> String {
    let line = ask(subcommand, path, input).unwrap_err();
    let name = format!("{}: ", path.display());
    line.strip_prefix(&name).unwrap_or(&line).into()
}

/// An image of these contents, in a file.
fn store(path: &Path, table: &[u64], list: &[u64]) {
    let figures = oracle::recount(table).unwrap();
    let mut image = vec![0; 8 * (table.len() + list.len()) + 24];
    oracle::write_image(table, &figures, list, &mut image).unwrap();
    fs::write(path, image).unwrap();
}

#[test]
fn made_checked_and_shown() {
    let folder = Folder::new("made");
    let path = folder.join("node.image");
    let ok = "ok: numbers 1, subscribers 1\n";
    assert_eq!(ask("make", &path, LINES), Ok(ok.into()));
    assert_eq!(fs::read(&path).unwrap(), IMAGE);
    assert_eq!(ask("check", &path, b""), Ok(ok.into()));
    let shown = "number 0492123401: no holder, no notice\n\
        subscriber 4915100001: flags 1, Follow Me\n\
        figures: held 0, waiting 0, in flight 0\n";
    assert_eq!(ask("show", &path, b""), Ok(shown.into()));
    assert_eq!(folder.names(), ["node.image"]);
}

#[test]
fn nothing() {
    let folder = Folder::new("nothing");
    let path = folder.join("node.image");
    let ok = "ok: numbers 0, subscribers 0\n";
    assert_eq!(ask("make", &path, b""), Ok(ok.into()));
    assert_eq!(fs::read(&path).unwrap(), [0; 24]);
    let shown = "figures: held 0, waiting 0, in flight 0\n";
    assert_eq!(ask("show", &path, b""), Ok(shown.into()));
}

#[test]
fn every_phase_is_shown_in_words() {
    let folder = Folder::new("phases");
    let path = folder.join("node.image");
    let (first, second) = (14_915_100_001, 14_915_100_002);
    let table = [
        [100_000, first, 0, 0, 0, 0, 0],
        [100_001, 0, 1, first, second, 0, 0],
        [100_002, second, 2, first, second, 0, 0],
        [100_003, 0, 3, first, second, 0, 0],
        [100_004, 0, 11, second, 100_000, 4_294_967_295, 0],
        [100_005, 0, 12, first, second, 0, 0],
    ];
    let list = [[first, 1], [second, 3], [second + 1, 0], [second + 2, 2]];
    store(&path, table.as_flattened(), list.as_flattened());
    let shown = "\
        number 00000: holder 4915100001, no notice\n\
        number 00001: no holder, notice waiting, sendings done 0, \
        addressee 4915100001, supervisor 4915100002\n\
        number 00002: holder 4915100002, notice in flight, sendings done 1, \
        addressee 4915100001, supervisor 4915100002\n\
        number 00003: no holder, notice waiting, sendings done 1, \
        addressee 4915100001, supervisor 4915100002, last failure at second 0\n\
        number 00004: no holder, notice waiting, sendings done 5, \
        addressee 4915100002, supervisor 00000, last failure at second 4294967295\n\
        number 00005: no holder, notice in flight, sendings done 6, \
        addressee 4915100001, supervisor 4915100002\n\
        subscriber 4915100001: flags 1, Follow Me\n\
        subscriber 4915100002: flags 3, Follow Me, supervisor\n\
        subscriber 4915100003: flags 0, none\n\
        subscriber 4915100004: flags 2, supervisor\n\
        figures: held 2, waiting 3, in flight 2\n";
    assert_eq!(ask("show", &path, b""), Ok(shown.into()));
    let ok = "ok: numbers 6, subscribers 4\n";
    assert_eq!(ask("check", &path, b""), Ok(ok.into()));
}

#[test]
fn closed_numbers_are_shown_as_such() {
    let folder = Folder::new("closed");
    let path = folder.join("node.image");
    let (first, second) = (14_915_100_001, 14_915_100_002);
    let table = [
        [100_000, 0, 0, 0, 0, 0, 1],
        [100_001, first, 0, 0, 0, 0, 1],
        [100_002, 0, 2, first, second, 0, 1],
        [100_003, 0, 0, 0, 0, 0, 0],
    ];
    store(&path, table.as_flattened(), &[]);
    let shown = "\
        number 00000: closed, no holder, no notice\n\
        number 00001: closed, holder 4915100001, no notice\n\
        number 00002: closed, no holder, notice in flight, sendings done 1, \
        addressee 4915100001, supervisor 4915100002\n\
        number 00003: no holder, no notice\n\
        figures: held 1, waiting 0, in flight 1\n";
    assert_eq!(ask("show", &path, b""), Ok(shown.into()));
}

/// A notice names no supervisor where the terminal forced the holder off.
#[test]
fn notices_from_the_terminal_are_shown_as_such() {
    let folder = Folder::new("terminal");
    let path = folder.join("node.image");
    let (first, second) = (14_915_100_001, 14_915_100_002);
    let table = [
        [100_000, 0, 1, first, 0, 0, 0],
        [100_001, second, 2, first, 0, 0, 1],
        [100_002, 0, 3, first, 0, 7, 0],
        [100_003, 0, 3, first, second, 7, 0],
    ];
    store(&path, table.as_flattened(), &[]);
    let shown = "\
        number 00000: no holder, notice waiting, sendings done 0, \
        addressee 4915100001, from the terminal\n\
        number 00001: closed, holder 4915100002, notice in flight, sendings done 1, \
        addressee 4915100001, from the terminal\n\
        number 00002: no holder, notice waiting, sendings done 1, \
        addressee 4915100001, from the terminal, last failure at second 7\n\
        number 00003: no holder, notice waiting, sendings done 1, \
        addressee 4915100001, supervisor 4915100002, last failure at second 7\n\
        figures: held 1, waiting 3, in flight 1\n";
    assert_eq!(ask("show", &path, b""), Ok(shown.into()));
    let ok = "ok: numbers 4, subscribers 0\n";
    assert_eq!(ask("check", &path, b""), Ok(ok.into()));
    // To nobody it is none.
    let mut image = fs::read(&path).unwrap();
    image[8 * 3..][..8].fill(0);
    fs::write(&path, image).unwrap();
    let said = "refusal 2: the table is unsound";
    assert_eq!(fault("check", &path, b""), said);
}

/// An image from before rows had their seventh word.
#[test]
fn an_old_image() {
    let folder = Folder::new("old");
    let path = folder.join("node.image");
    let mut old = [&IMAGE[..48], &IMAGE[56..]].concat();
    old[80] = 64;
    fs::write(&path, old).unwrap();
    for subcommand in ["show", "check"] {
        let said = "refusal 34: the rows do not fill the distance";
        assert_eq!(fault(subcommand, &path, b""), said);
    }
}

#[test]
fn as_many_as_there_may_be() {
    let folder = Folder::new("many");
    let path = folder.join("node.image");
    let number = |n: u32| format!("N {:05}\n", n);
    let subscriber = |n: u32| format!("S {:015} {}\n", n, n % 4);
    let numbers: String = (0..1024).map(number).collect();
    let subscribers: String = (0..4096).map(subscriber).collect();
    let lines = format!("{numbers}{subscribers}");
    let ok = "ok: numbers 1024, subscribers 4096\n";
    assert_eq!(ask("make", &path, lines.as_bytes()), Ok(ok.into()));
    assert_eq!(ask("check", &path, b""), Ok(ok.into()));
    assert_eq!(ask("show", &path, b"").unwrap().lines().count(), 5121);
    let image = fs::read(&path).unwrap();
    for (more, line) in [
        (number(1024), "line 5121: over 1024 numbers"),
        (subscriber(4096), "line 5121: over 4096 subscribers"),
    ] {
        let lines = format!("{lines}{more}");
        assert_eq!(fault("make", &path, lines.as_bytes()), line);
        assert_eq!(fs::read(&path).unwrap(), image);
    }
}

#[test]
fn lines_are_those_of_the_program() {
    let folder = Folder::new("lines");
    let path = folder.join("node.image");
    // Numbers and subscribers in any turn, flags by value, no last line feed.
    let lines = b"S 4915100001 1\nN 99999\nS 4915100002 003\nN 000000";
    let ok = "ok: numbers 2, subscribers 2\n";
    assert_eq!(ask("make", &path, lines), Ok(ok.into()));
    let shown = "number 99999: no holder, no notice\n\
        number 000000: no holder, no notice\n\
        subscriber 4915100001: flags 1, Follow Me\n\
        subscriber 4915100002: flags 3, Follow Me, supervisor\n\
        figures: held 0, waiting 0, in flight 0\n";
    assert_eq!(ask("show", &path, b""), Ok(shown.into()));
}

#[test]
fn bad_lines() {
    let folder = Folder::new("bad");
    let path = folder.join("node.image");
    fs::write(&path, IMAGE).unwrap();
    const FORM: &str = "neither N NUMBER nor S MSISDN FLAGS";
    const ORDER: &str = "not above the one before, as stored";
    const FLAGS: &str = "flags are 0 to 3";
    for (line, why) in [
        ("", FORM),
        ("N", FORM),
        ("S", FORM),
        ("X 12345", FORM),
        ("n 12345", FORM),
        (" N 12345", FORM),
        ("R 4915100001 **214*0492123401***#", FORM),
        ("W 60", FORM),
        ("S 4915100009", FORM),
        ("N ", "a number has 5 to 15 digits, not 0"),
        ("N 1234", "a number has 5 to 15 digits, not 4"),
        ("N 1234567890123456", "a number has 5 to 15 digits, not 16"),
        ("N  12345", "' ' is no decimal digit"),
        ("N 12345 ", "' ' is no decimal digit"),
        ("N 12345\r", "'\\r' is no decimal digit"),
        ("N +12345", "'+' is no decimal digit"),
        ("S 1234 1", "a number has 5 to 15 digits, not 4"),
        ("S 4915100009 ", FLAGS),
        ("S 4915100009 4", FLAGS),
        ("S 4915100009 +1", FLAGS),
        ("S 4915100009 1 ", FLAGS),
        ("S 4915100009 18446744073709551616", FLAGS),
        ("N 0492123401", ORDER),
        ("N 0492123400", ORDER),
        ("N 492123402", ORDER),
        ("S 4915100001 1", ORDER),
        ("S 4915100000 3", ORDER),
    ] {
        for behind in ["", "\n", "\nN 999999999999999\n"] {
            let lines = [LINES, line.as_bytes(), behind.as_bytes()].concat();
            if line.is_empty() && behind.is_empty() {
                continue;
            }
            assert_eq!(fault("make", &path, &lines), format!("line 3: {why}"));
        }
    }
    assert_eq!(fault("make", &path, b"\xFF"), format!("line 1: {FORM}"));
    assert_eq!(fault("make", &path, b"\n"), format!("line 1: {FORM}"));
    assert_eq!(fs::read(&path).unwrap(), IMAGE);
    assert_eq!(folder.names(), ["node.image"]);
}

#[test]
fn refused_images() {
    let folder = Folder::new("refused");
    let path = folder.join("node.image");
    let changed = |place: usize, octet: u8| {
        let mut image = IMAGE.to_vec();
        image[place] = octet;
        image
    };
    for (image, line) in [
        (vec![], "refusal 30: the image has under 24 octets"),
        (vec![0; 23], "refusal 30: the image has under 24 octets"),
        (
            IMAGE[1..].to_vec(),
            "refusal 31: the distance is not the image's length less 24",
        ),
        (
            changed(79, 0x20),
            "refusal 32: a count of rows is over its limit",
        ),
        (
            changed(72, 2),
            "refusal 34: the rows do not fill the distance",
        ),
        (changed(8, 7), "refusal 2: the table is unsound"),
        (changed(64, 4), "refusal 8: the list is unsound"),
        (
            vec![0; 1 << 20],
            "refusal 31: the distance is not the image's length less 24",
        ),
        (vec![0; (1 << 20) + 1], "over 1048576 octets"),
    ] {
        fs::write(&path, image).unwrap();
        assert_eq!(fault("check", &path, b""), line);
        assert_eq!(fault("show", &path, b""), line);
    }
}

#[test]
fn files_that_cannot_be_read_or_written() {
    let folder = Folder::new("files");
    let absent = folder.join("absent.image");
    let missing = "No such file or directory (os error 2)";
    assert_eq!(fault("show", &absent, b""), missing);
    assert_eq!(fault("check", &absent, b""), missing);
    let name = absent.display();
    let line = ask("check", &absent, b"").unwrap_err();
    assert_eq!(line, format!("{name}: {missing}"));

    assert_eq!(
        fault("show", folder.path(), b""),
        "Is a directory (os error 21)"
    );
    let nowhere = folder.join("nowhere/node.image");
    assert_eq!(fault("make", &nowhere, LINES), missing);
    // A folder stands where the image should: nothing new stays beside it.
    let inner = folder.join("inner");
    fs::create_dir(&inner).unwrap();
    assert!(ask("make", &inner, LINES).is_err());
    assert!(ask("make", Path::new("/"), LINES).is_err());
    assert!(ask("make", Path::new(""), LINES).is_err());
    assert_eq!(folder.names(), ["inner"]);
}

#[test]
fn an_image_is_replaced() {
    let folder = Folder::new("replaced");
    let path = folder.join("node.image");
    fs::write(&path, b"what was there").unwrap();
    // What an earlier cut of power may have left is neither read nor touched.
    fs::write(folder.join("node.image.new0"), b"half").unwrap();
    assert!(ask("make", &path, LINES).is_ok());
    assert_eq!(fs::read(&path).unwrap(), IMAGE);
    assert_eq!(fs::read(folder.join("node.image.new0")).unwrap(), b"half");
    assert_eq!(folder.names(), ["node.image", "node.image.new0"]);
}

#[test]
fn what_the_writer_refuses_leaves_the_old_image() {
    let folder = Folder::new("refusing");
    let path = folder.join("node.image");
    fs::write(&path, IMAGE).unwrap();
    let words = [OsString::from("make"), path.clone().into()];
    let failure = run(&Refusing, &words, LINES, io::sink()).unwrap_err();
    let name = path.display();
    assert_eq!(
        failure.to_string(),
        format!("{name}: refusal 2: the table is unsound")
    );
    assert_eq!(fs::read(&path).unwrap(), IMAGE);
    assert_eq!(folder.names(), ["node.image"]);
}

/// An input or an output that breaks.
struct Broken;

impl io::Read for Broken {
    fn read(&mut self, _: &mut [u8]) -> io::Result<usize> {
        Err(io::Error::other("broken"))
    }
}

impl io::Write for Broken {
    fn write(&mut self, _: &[u8]) -> io::Result<usize> {
        Err(io::Error::other("broken"))
    }

    fn flush(&mut self) -> io::Result<()> {
        Err(io::Error::other("broken"))
    }
}

#[test]
fn a_lost_input_or_output_is_said() {
    let folder = Folder::new("lost");
    let path = folder.join("node.image");
    fs::write(&path, IMAGE).unwrap();
    let words = |subcommand: &str| [OsString::from(subcommand), path.clone().into()];
    let failure = run(&Independent, &words("make"), Broken, io::sink()).unwrap_err();
    assert_eq!(failure.to_string(), "standard input: broken");
    let failure = run(&Independent, &words("make"), io::repeat(b'N'), io::sink()).unwrap_err();
    assert_eq!(failure.to_string(), "standard input: over 1048576 octets");
    assert_eq!(fs::read(&path).unwrap(), IMAGE);
    for subcommand in ["show", "check"] {
        let failure = run(&Independent, &words(subcommand), io::empty(), Broken).unwrap_err();
        assert_eq!(failure.to_string(), "standard output: broken");
    }
    // There the new image stands.
    let failure = run(&Independent, &words("make"), io::empty(), Broken).unwrap_err();
    assert_eq!(failure.to_string(), "standard output: broken");
    assert_eq!(fs::read(&path).unwrap(), [0; 24]);
}

#[test]
fn words_that_are_no_subcommand() {
    let usage = "usage: ffn-image show|check|make IMAGE";
    for words in [
        &[][..],
        &["show"],
        &["check"],
        &["make"],
        &["--help"],
        &["show", "a", "b"],
    ] {
        let words: Vec<OsString> = words.iter().map(OsString::from).collect();
        let failure = run(&Independent, &words, io::empty(), io::sink()).unwrap_err();
        assert!(matches!(failure, Failure::Usage));
        assert_eq!(failure.to_string(), usage);
    }
    let line = ask("Show", Path::new("a"), b"").unwrap_err();
    assert_eq!(line, "\"Show\" is none of show, check and make");
    let line = ask("a\nb", Path::new("a"), b"").unwrap_err();
    assert_eq!(line, "\"a\\nb\" is none of show, check and make");
}
