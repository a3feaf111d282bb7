//! The command itself, over the library: what it prints where, and its status.

mod common;

use std::fs;
use std::io::Write;
use std::path::Path;
use std::process::{Command, Stdio};

use common::{Folder, IMAGE, LINES};

/// Standard output, standard error and status of the command, run in a folder.
fn run(folder: &Path, words: &[&str], input: &[u8]) -> (String, String, Option<i32>) {
    let program = env!("CARGO_BIN_EXE_ffn-image");
    // The command is x86-64 code: another processor has something to run it by.
    let mut command = match std::env::var_os("FFN_EMULATOR") {
        Some(emulator) => {
            let mut command = Command::new(emulator);
            command.arg(program);
            command
        }
        None => Command::new(program),
    };
    let mut child = command
        .args(words)
        .current_dir(folder)
        .stdin(Stdio::piped())
        .stdout(Stdio::piped())
        .stderr(Stdio::piped())
        .spawn()
        .unwrap();
    // It may end without reading.
    let _ = child.stdin.take().unwrap().write_all(input);
    let done = child.wait_with_output().unwrap();
    let text = |octets| String::from_utf8(octets).unwrap();
    (text(done.stdout), text(done.stderr), done.status.code())
}

#[test]
fn made_checked_and_shown() {
    let folder = Folder::new("command");
    let run = |words: &[&str], input: &[u8]| run(folder.path(), words, input);
    let ok = ("ok: numbers 1, subscribers 1\n".into(), "".into(), Some(0));
    assert_eq!(run(&["make", "node.image"], LINES), ok);
    assert_eq!(fs::read(folder.join("node.image")).unwrap(), IMAGE);
    assert_eq!(run(&["check", "node.image"], b""), ok);
    let shown = "number 0492123401: no holder, no notice\n\
        subscriber 4915100001: flags 1, Follow Me\n\
        figures: held 0, waiting 0, in flight 0\n";
    let shown = (shown.into(), "".into(), Some(0));
    assert_eq!(run(&["show", "node.image"], b""), shown);
    assert_eq!(folder.names(), ["node.image"]);
}

#[test]
fn bad_input_is_one_line_and_status_1() {
    let folder = Folder::new("wrong");
    let mut image = IMAGE;
    image[88] = 71;
    fs::write(folder.join("node.image"), image).unwrap();
    for (words, input, line) in [
        (&[][..], &b""[..], "usage: ffn-image show|check|make IMAGE"),
        (&["show"], b"", "usage: ffn-image show|check|make IMAGE"),
        (
            &["move", "node.image"],
            b"",
            "ffn-image: \"move\" is none of show, check and make",
        ),
        (
            &["check", "absent"],
            b"",
            "ffn-image: absent: No such file or directory (os error 2)",
        ),
        (
            &["check", "node.image"],
            b"",
            "ffn-image: node.image: refusal 31: the distance is not the image's length less 24",
        ),
        (
            &["make", "node.image"],
            b"N 12345\nN 12345\n",
            "ffn-image: line 2: not above the one before, as stored",
        ),
    ] {
        let (output, error, status) = run(folder.path(), words, input);
        assert_eq!(error, format!("{line}\n"));
        assert_eq!((output.as_str(), status), ("", Some(1)));
        assert_eq!(fs::read(folder.join("node.image")).unwrap(), image);
        assert_eq!(folder.names(), ["node.image"]);
    }
}
