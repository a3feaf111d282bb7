//! The program: document 01's listing, and the lines it tells apart.

use std::io::Write;
use std::process::{Command, Stdio};

use oracle::run;

const INPUT: &str = "\
N 0492123401
S 4915100001 1
S 4915100002 3
R 4915100001 **214*0492123401***#
R 4915100002 ##214*0492123401*88*4915100001*#
T 100 0492123401
D 101 0492123401 5
T 130 0492123401
T 161 0492123401
D 162 0492123401 0
";

const OUTPUT: &str = "\
R 01
R 02
T 4915100001 ##214*0492123401*88*4915100002*#
D again
T refused 5
T 4915100001 ##214*0492123401*88*4915100002*#
D delivered
";

/// M-107's second listing: the delay 0, by which the notice is due at 401.
const LATER_INPUT: &str = "\
W 0
N 0492123401
S 4915100001 1
S 4915100002 3
R 4915100001 **214*0492123401***#
R 4915100002 ##214*0492123401*88*4915100001*#
T 100 0492123401
D 101 0492123401 5
T 130 0492123401
T 161 0492123401
T 401 0492123401
D 402 0492123401 0
";

const LATER_OUTPUT: &str = "\
R 01
R 02
T 4915100001 ##214*0492123401*88*4915100002*#
D again
T refused 5
T refused 5
T 4915100001 ##214*0492123401*88*4915100002*#
D delivered
";

/// What fills the node in the tests below.
const FILLING: &str = "\
N 0492123401
S 4915100001 1
S 4915100002 3
";

fn output(input: impl AsRef<[u8]>) -> String {
    String::from_utf8(run(input.as_ref())).unwrap()
}

/// What one line prints after the filling.
fn after_filling(line: impl AsRef<[u8]>) -> String {
    output([FILLING.as_bytes(), line.as_ref()].concat())
}

#[test]
fn the_listing() {
    assert_eq!(output(INPUT), OUTPUT);
    // The line feed of the last line may be missing.
    assert_eq!(output(INPUT.trim_end()), OUTPUT);
}

#[test]
fn the_second_listing() {
    assert_eq!(output(LATER_INPUT), LATER_OUTPUT);
}

/// What the second listing's calls print behind another first line.
fn behind(first: &str) -> String {
    output(LATER_INPUT.replacen("W 0", first, 1))
}

#[test]
fn a_first_line_sets_the_delay() {
    for first in ["W 0", "W 00", "W 300", "W 0300"] {
        assert_eq!(behind(first), LATER_OUTPUT, "{first:?}");
    }
    // By 60 seconds the notice is sent at 161, and is in flight at 401.
    let sooner = OUTPUT.replace("D delivered", "T refused 4\nD delivered");
    for first in ["W 60", "W 060"] {
        assert_eq!(behind(first), sooner, "{first:?}");
    }
    // By 301 and more it is not due at 401, so there is no result to take.
    for first in ["W 301", "W 600"] {
        let later = behind(first);
        assert_eq!(later.matches("T refused 5\n").count(), 3, "{first:?}");
        assert!(later.ends_with("D refused 4\n"), "{first:?}");
    }
    // Any other prints `?`, and 60 stays.
    for first in [
        "W",
        "W ",
        "W 59",
        "W 601",
        "W +300",
        "W -300",
        "W 300\r",
        "W 300 ",
        "W  300",
        "W 300 300",
        "W 0x12C",
        "W 4294967596",
        "W 18446744073709551916",
        "w 300",
        "WW 300",
    ] {
        assert_eq!(behind(first), format!("?\n{sooner}"), "{first:?}");
    }
    // So does one on a later line, whatever the first was.
    for first in ["", "x", "W 59", "W 60", "N 0492123400", "T 0 12345"] {
        let (one, two) = (behind(first), behind(&format!("{first}\nW 300")));
        assert_eq!(two.replacen("?\n", "", 1), one, "{first:?}");
        assert_eq!(two.matches("?\n").count(), one.matches("?\n").count() + 1);
    }
}

#[test]
fn the_binary_reads_and_writes() {
    // A listing, and more than the program reads, whose rest must not matter.
    for input in [INPUT.into(), "D 0 1 0\n".repeat(10_000)] {
        let mut child = Command::new(env!("CARGO_BIN_EXE_oracle"))
            .stdin(Stdio::piped())
            .stdout(Stdio::piped())
            .spawn()
            .unwrap();
        let mut stdin = child.stdin.take().unwrap();
        let octets = input.clone().into_bytes();
        // The program may stop reading before everything is written.
        let writer = std::thread::spawn(move || drop(stdin.write_all(&octets)));
        let child = child.wait_with_output().unwrap();
        writer.join().unwrap();
        assert!(child.status.success());
        assert_eq!(child.stdout, run(input.as_bytes()));
    }
}

#[test]
fn lines_and_their_ends() {
    assert_eq!(output(""), "");
    assert_eq!(output("\n"), "?\n");
    assert_eq!(output("\n\n"), "?\n?\n");
    assert_eq!(output("x"), "?\n");
    assert_eq!(output("x\n"), "?\n");
    assert_eq!(output("x\ny"), "?\n?\n");
    // A carriage return is an ordinary octet.
    assert_eq!(output("N 0492123401\r\n"), "?\n");
    assert_eq!(after_filling("T 1 0492123401\r\n"), "?\n");
    assert_eq!(
        after_filling("R 4915100001 **214*0492123401***#\r\n"),
        "R refused 9\n"
    );
}

#[test]
fn filling_prints_nothing() {
    assert_eq!(output(FILLING), "");
    assert_eq!(output("S 4915100001 1\nN 0492123401\nS 4915100002 3\n"), "");
    // By stored word: 99999 stands before 000000.
    assert_eq!(output("N 99999\nN 000000\n"), "");
    assert_eq!(output("N 000000\nN 99999\n"), "?\n");
    assert_eq!(output("S 4915100001 000003\n"), "");
}

#[test]
fn lines_that_do_not_fill() {
    for line in [
        "N",
        "N ",
        "N  0492123402",
        " N 0492123402",
        "N 0492123402 ",
        "N 0492123402 1",
        "N 1234",
        "N 1234567890123456",
        "N 04921A3402",
        "N +492123402",
        "n 0492123402",
        "NN 0492123402",
        "N0492123402",
        "N\t0492123402",
        // Not ascending.
        "N 0492123401",
        "N 0492123400",
        "N 99999",
        "S",
        "S ",
        "S 4915100003",
        "S 4915100003 ",
        "S 4915100003 4",
        "S 4915100003 4294967297",
        "S 4915100003 18446744073709551617",
        "S 4915100003 -1",
        "S 4915100003 x",
        "S 4915100003  1",
        "S 4915100003 1 ",
        "S 4915100003 1 1",
        "S  4915100003 1",
        "S 1234 1",
        "S 1234567890123456 1",
        "S 491510000x 1",
        "S 4915100002 1",
        "S 4915100001 1",
    ] {
        assert_eq!(after_filling(line), "?\n", "{line:?}");
        // Nothing has changed, and the filling goes on.
        assert_eq!(
            after_filling(format!("{line}\nN 0492123402\nS 4915100003 0\n")),
            "?\n"
        );
        let rest = INPUT.strip_prefix(FILLING).unwrap();
        assert_eq!(
            after_filling(format!("{line}\n{rest}")),
            format!("?\n{OUTPUT}")
        );
    }
}

#[test]
fn limits_of_table_and_list() {
    let numbers: String = (0..1026).map(|n| format!("N 1{n:05}\n")).collect();
    assert_eq!(output(&numbers), "?\n?\n");
    let tail = "T 0 101023\nT 0 101024\n";
    assert_eq!(output(numbers + tail), "?\n?\nT refused 4\nT refused 7\n");
    let msisdns: String = (0..4098).map(|n| format!("S 1{n:05} 1\n")).collect();
    assert_eq!(output(&msisdns), "?\n?\n");
    let tail = "R 104095 **214*00000***#\nR 104096 **214*00000***#\n";
    assert_eq!(output(msisdns + tail), "?\n?\nR 41\nR 42\n");
}

#[test]
fn an_answered_line_ends_the_filling() {
    let after = |line: &str| output(format!("{line}\nN 12345\nS 12345 1\n"));
    for (line, printed) in [
        ("R 1 x", "R error 35\n"),
        ("R 12345 x", "R error 36\n"),
        ("R 12345 \r", "R refused 9\n"),
        ("T 0 1", "T refused 7\n"),
        ("D 0 1 0", "D refused 7\n"),
    ] {
        assert_eq!(after(line), format!("{printed}?\n?\n"));
    }
    // A line that prints `?` does not.
    for line in [
        "",
        "R 12345",
        "R x x",
        "T 0 ",
        "T x 12345",
        "D 0 12345",
        "x",
    ] {
        assert_eq!(after(line), "?\n");
    }
}

#[test]
fn requests() {
    for (line, printed) in [
        ("R 4915100001 **214*0492123401***#", "R 01"),
        ("R 4915100001 *#214*0492123401***#", "R 62"),
        ("R 4915100001 **214*492123401***#", "R 41"),
        ("R 4915100003 **214*0492123401***#", "R 42"),
        ("R 4915100001 ##214*0492123401*88*4915100001*#", "R 22"),
        // Not 5 to 15 digits: malformed.
        ("R 1 **214*0492123401***#", "R error 35"),
        ("R 1234 **214*0492123401***#", "R error 35"),
        ("R 1234567890123456 **214*0492123401***#", "R error 35"),
        // Anything else is not a number at all.
        ("R x **214*0492123401***#", "?"),
        ("R  4915100001 **214*0492123401***#", "?"),
        ("R 491510000a **214*0492123401***#", "?"),
        ("R", "?"),
        ("R ", "?"),
        ("R  ", "?"),
        ("R 4915100001", "?"),
        ("R 1", "?"),
        // The string is the rest of the line, and may have no octets.
        ("R 4915100001 ", "R error 35"),
        ("R 4915100001  **214*0492123401***#", "R error 36"),
        ("R 4915100001 **214*0492123401***# ", "R error 36"),
        ("R 4915100001 **214*0492123401***A B 7#", "R 01"),
        ("R 4915100001 x", "R error 36"),
        // What cannot be packed is refused before the node is asked.
        ("R 4915100001 \r", "R refused 9"),
        ("R 1 \r", "R refused 9"),
        ("R 4915100001 **214*0492123401***\u{e9}#", "R refused 9"),
        ("R x \r", "?"),
    ] {
        assert_eq!(after_filling(line), format!("{printed}\n"), "{line:?}");
    }
    let long = "R 123456789012345678901234567890 **214*0492123401***#";
    assert_eq!(after_filling(long), "R error 35\n");
    // Too long for any request.
    let tail = "1".repeat(60_000);
    assert_eq!(
        after_filling(format!("R 4915100001 {tail}")),
        "R error 36\n"
    );
    assert_eq!(after_filling(format!("R 1 {tail}")), "R error 35\n");
    assert_eq!(after_filling(format!("R 1 {tail}\r")), "R refused 9\n");
    // Octet 0 packs; it breaks the string's rules.
    assert_eq!(after_filling(b"R 4915100001 \0"), "R error 36\n");
    assert_eq!(after_filling(b"R 4915100001 \xFF"), "R refused 9\n");
}

#[test]
fn an_interrogation_prints_the_holder() {
    let register = "R 4915100001 **214*0492123401***#\n";
    let interrogate = "R 4915100002 *#214*0492123401***#\n";
    assert_eq!(
        after_filling(format!("{register}{interrogate}")),
        "R 01\nR 03 4915100001\n"
    );
}

#[test]
fn sendings_and_results() {
    for (line, printed) in [
        ("T 0 0492123401", "T refused 4"),
        ("T 4294967295 0492123401", "T refused 4"),
        ("T 00000000000000000000 0492123401", "T refused 4"),
        ("T 4294967296 0492123401", "?"),
        ("T 18446744073709551616 0492123401", "?"),
        ("T -1 0492123401", "?"),
        ("T x 0492123401", "?"),
        ("T 0 492123401", "T refused 7"),
        ("T 0 1", "T refused 7"),
        ("T 0 1234567890123456", "T refused 7"),
        ("T 0 x", "?"),
        ("T 0 049212340x", "?"),
        ("T 0", "?"),
        ("T 0 ", "?"),
        ("T  0492123401", "?"),
        ("T 0  0492123401", "?"),
        ("T 0 0492123401 ", "?"),
        ("T 0 0492123401 0", "?"),
        ("D 0 0492123401 0", "D refused 4"),
        ("D 0 0492123401 005", "D refused 4"),
        ("D 0 0492123401 6", "D refused 3"),
        ("D 0 0492123401 4294967295", "D refused 3"),
        ("D 0 0492123401 4294967296", "?"),
        ("D 4294967295 0492123401 0", "D refused 4"),
        ("D 4294967296 0492123401 0", "?"),
        ("D 0 1 6", "D refused 7"),
        ("D 0 492123401 0", "D refused 7"),
        ("D 0 x 0", "?"),
        ("D 0 0492123401 x", "?"),
        ("D 0 0492123401", "?"),
        ("D 0 0492123401 ", "?"),
        ("D 0 0492123401  0", "?"),
        ("D 0 0492123401 0 ", "?"),
        ("D 0 0492123401 0 0", "?"),
        ("D  0492123401 0", "?"),
        ("D 0  0", "?"),
    ] {
        assert_eq!(after_filling(line), format!("{printed}\n"), "{line:?}");
    }
}

#[test]
fn a_notice_dropped_after_six_failures() {
    let mut input = FILLING.to_string();
    input += "R 4915100001 **214*0492123401***#\n";
    input += "R 4915100002 ##214*0492123401*88*4915100001*#\n";
    let mut printed = "R 01\nR 02\n".to_string();
    for count in 1..=6 {
        let now = 60 * count;
        input += &format!("T {now} 0492123401\nD {now} 0492123401 5\n");
        printed += "T 4915100001 ##214*0492123401*88*4915100002*#\n";
        printed += if count < 6 {
            "D again\n"
        } else {
            "D dropped\n"
        };
    }
    assert_eq!(output(input), printed);
}

#[test]
fn sixty_four_kibibytes() {
    // A line cut at the limit is treated as it stands: here, `D 0 1`.
    let line = "D 0 1 0\n";
    let mut input = line.repeat(8192);
    assert_eq!(input.len(), 65_536);
    let whole = "D refused 7\n".repeat(8192);
    assert_eq!(output(&input), whole);
    input += line;
    assert_eq!(output(&input), whole);
    let cut = format!("xx\n{}", line.repeat(8192));
    let printed = format!("?\n{}?\n", "D refused 7\n".repeat(8191));
    assert_eq!(output(cut), printed);
    // Cut behind the last field, it is still answered.
    let cut = format!("\n{}", line.repeat(8192));
    assert_eq!(output(cut), format!("?\n{whole}"));
    // Every line prints, however many there are.
    assert_eq!(output("\n".repeat(70_000)), "?\n".repeat(65_536));
    let most = format!("{}\n\nR 1 ", "R 1 \n".repeat(13_106));
    assert_eq!(most.len(), 65_536);
    assert_eq!(output(most).len(), 144_181);
}
