//! The fields of crews, and what a reply says of them. Nothing here needs the
//! archive.

use ffn::{Crew, CrewField, Outcome};

fn field(codes: &[u8]) -> Option<String> {
    let field = CrewField::new(codes)?;
    Some(String::from_utf8(field.as_slice().to_vec()).unwrap())
}

#[test]
fn fields_name_their_codes() {
    for (codes, text) in [
        (&[][..], "BULK0"),
        (&[2], "BULK1 02"),
        (&[0], "BULK1 00"),
        (&[2, 3, 7, 8], "BULK4 02030708"),
        (&[99, 10, 2], "BULK3 991002"),
        (&[2, 3, 4, 5, 6, 7, 8, 9, 10], "BULK9 020304050607080910"),
    ] {
        assert_eq!(field(codes).as_deref(), Some(text));
    }
    // What the library judges can be said.
    assert_eq!(field(&[1]).as_deref(), Some("BULK1 01"));
    assert_eq!(field(&[2, 2]).as_deref(), Some("BULK2 0202"));
}

#[test]
fn fields_that_cannot_be_said() {
    assert_eq!(field(&[2; 10]), None);
    assert_eq!(field(&[2; 300]), None);
    for code in [100, 255] {
        assert_eq!(field(&[2, code]), None);
    }
}

#[test]
fn replies_are_read_and_written_again() {
    let ten = [1, 2, 3, 4, 5, 6, 7, 8, 9, 10];
    for (text, succeeded, failed) in [
        ("2 0102 0", &[1, 2][..], &[][..]),
        ("0 2 0102", &[], &[1, 2]),
        ("1 01 2 0203", &[1], &[2, 3]),
        ("1 01 0", &[1], &[]),
        ("2 0200 3 019903", &[2, 0], &[1, 99, 3]),
        ("10 01020304050607080910 0", &ten, &[]),
        ("0 10 01020304050607080910", &[], &ten),
        ("9 010203040506070809 1 10", &ten[..9], &[10]),
    ] {
        let crew = Crew::from_text(text.as_bytes()).unwrap();
        assert_eq!(crew.succeeded.as_slice(), succeeded);
        assert_eq!(crew.failed.as_slice(), failed);
        assert_eq!(crew.to_string(), text);
    }
}

#[test]
fn texts_that_are_no_reply() {
    for text in [
        "",
        " ",
        "0",
        "0 ",
        "0 0 ",
        " 0 0",
        "2 0102",
        "2 0102 ",
        "2 010 0",
        "2 01020 0",
        "2 01 02 0",
        "1 A1 0",
        "1 0A 0",
        "1 01  0",
        "1  01 0",
        "11 0102030405060708091011 0",
        "100 0",
        "A 0",
    ] {
        assert_eq!(Crew::from_text(text.as_bytes()), None, "{text:?}");
    }
}

#[test]
fn outcomes_of_crews_have_their_numbers() {
    let crew = Crew::from_text(b"2 0102 0").unwrap();
    assert_eq!(Outcome::CrewRegistered(crew).number(), 11);
    assert_eq!(Outcome::CrewErased(crew).number(), 12);
}
