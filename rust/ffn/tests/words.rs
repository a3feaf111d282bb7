//! Numbers as texts, and the words of refusals, errors and failures. Nothing
//! here needs the archive.

use std::error::Error;

use ffn::radio::{self, Doing, Question};
use ffn::{
    image_size, Failure, Figures, FunctionalNumber, Msisdn, NumberError, Problem, Refusal,
    RequestError, MOST_NUMBERS, MOST_SUBSCRIBERS, NUMBER_WORDS, SUBSCRIBER_WORDS,
};

#[test]
fn numbers_are_read_with_their_zeros() {
    for (digits, word) in [
        ("0492123401", 10_492_123_401),
        ("492123401", 1_492_123_401),
        ("00000", 100_000),
        ("999999999999999", 1_999_999_999_999_999),
    ] {
        assert_eq!(digits.parse().map(FunctionalNumber::word), Ok(word));
        assert_eq!(digits.parse().map(Msisdn::word), Ok(word));
    }
}

#[test]
fn what_is_no_number_says_why() {
    for (text, error, words) in [
        (
            "",
            NumberError::Length(0),
            "a number has 5 to 15 digits, not 0",
        ),
        (
            "1234",
            NumberError::Length(4),
            "a number has 5 to 15 digits, not 4",
        ),
        (
            "1234567890123456",
            NumberError::Length(16),
            "a number has 5 to 15 digits, not 16",
        ),
        (
            "123456789012345678901",
            NumberError::Length(21),
            "a number has 5 to 15 digits, not 21",
        ),
        (
            "12345 ",
            NumberError::NoDigit(' '),
            "' ' is no decimal digit",
        ),
        (
            "+12345",
            NumberError::NoDigit('+'),
            "'+' is no decimal digit",
        ),
        (
            "1234٥",
            NumberError::NoDigit('٥'),
            "'٥' is no decimal digit",
        ),
    ] {
        assert_eq!(text.parse::<FunctionalNumber>(), Err(error));
        assert_eq!(text.parse::<Msisdn>(), Err(error));
        assert_eq!(error.to_string(), words);
    }
}

#[test]
fn numbers_are_written_with_their_zeros() {
    for digits in ["0492123401", "492123401", "00000", "999999999999999"] {
        let number: FunctionalNumber = digits.parse().unwrap();
        let msisdn: Msisdn = digits.parse().unwrap();
        assert_eq!(number.to_string(), digits);
        assert_eq!(msisdn.to_string(), digits);
    }
    let number: Msisdn = "00123".parse().unwrap();
    assert_eq!(format!("{number:>7}|"), "  00123|");
}

#[test]
fn words_that_are_no_numbers_are_malformed() {
    assert_eq!(Msisdn::from_word(0), None);
    assert_eq!(FunctionalNumber::from_word(0), None);
    for word in [1, 25, 19_999, 200_000, 10_000_000_000_000_000, u64::MAX] {
        let malformed = format!("malformed {word}");
        assert_eq!(Msisdn::from_word(word).unwrap().to_string(), malformed);
        let number = FunctionalNumber::from_word(word).unwrap();
        assert_eq!(number.to_string(), malformed);
    }
}

#[test]
fn every_refusal_has_its_number_and_words() {
    let said: Vec<String> = (0..=60)
        .filter_map(Refusal::from_number)
        .map(|refusal| refusal.to_string())
        .collect();
    assert_eq!(
        said,
        [
            "refusal 1: a buffer is too short",
            "refusal 2: the table is unsound",
            "refusal 3: the kind is above 5",
            "refusal 4: the notice is not in the phase that the call needs",
            "refusal 5: the notice is not due",
            "refusal 6: the delay is neither 0 nor 60 to 600 seconds",
            "refusal 7: the functional number is malformed or not in the table, or the \
             holder named is malformed",
            "refusal 8: the list is unsound",
            "refusal 9: the fields break the string's rules, a value is not one that \
             the packer takes, unused bits are not 0, or the transaction identifier is above 15",
            "refusal 10: the figures differ from a recount of the table",
            "refusal 11: the message is wrong anywhere up to its invoke number, or is no \
             Release Complete of the node",
            "refusal 30: the image has under 24 octets",
            "refusal 31: the distance is not the image's length less 24",
            "refusal 32: a count of rows is over its limit",
            "refusal 33: a buffer is too small for the image, or for what it holds",
            "refusal 34: the rows do not fill the distance",
            "refusal 50: the table has 1,024 rows, or the buffer has no room for one more",
            "refusal 51: the functional number is already in the table",
            "refusal 52: the functional number is not in the table",
        ]
    );
}

#[test]
fn every_refusal_of_a_radio_has_its_number_and_words() {
    let said: Vec<String> = (0..=30)
        .filter_map(radio::Refusal::from_number)
        .map(|refusal| refusal.to_string())
        .collect();
    assert_eq!(
        said,
        [
            "refusal 1: the question buffer has under 160 octets",
            "refusal 20: the number is new and the store is full",
            "refusal 21: the string is no notice",
            "refusal 22: no question is open, or the reply answers another one",
            "refusal 23: the functional number is malformed",
            "refusal 24: the radio is unsound",
        ]
    );
}

#[test]
fn what_a_radio_is_to_ask() {
    let question = Question {
        invoke: 0,
        octets: 18,
    };
    assert_eq!(Doing::Respond(Some(question)).question(), Some(question));
    assert_eq!(Doing::Ask(question).question(), Some(question));
    assert_eq!(Doing::Respond(None).question(), None);
    assert_eq!(Doing::Done.question(), None);
}

#[test]
fn every_error_has_its_number_and_words() {
    let said: Vec<String> = (0..=100)
        .filter_map(RequestError::from_number)
        .map(|error| error.to_string())
        .collect();
    assert_eq!(
        said,
        [
            "error 35: the requester's MSISDN is not 5 to 15 digits, or the string has 0 octets",
            "error 36: the string has over 160 octets or unreadable bits, or breaks its \
             rules; or a routing's code or digits are malformed",
            "error 71: the data coding scheme is not 0x0F",
        ]
    );
}

#[test]
fn every_problem_has_its_number_and_words() {
    let said: Vec<String> = (0..=255)
        .filter_map(Problem::from_number)
        .map(|problem| problem.to_string())
        .collect();
    assert_eq!(
        said,
        [
            "problem 1: the operation is missing, unreadable or unknown",
            "problem 2: something behind the operation is wrong",
        ]
    );
}

#[test]
fn figures_are_three_words() {
    let figures = Figures {
        held: 3,
        waiting: 2,
        in_flight: 1,
    };
    assert_eq!(figures.words(), [3, 2, 1]);
    assert_eq!(Figures::from_words([3, 2, 1]), figures);
    assert_eq!(Figures::default().words(), [0, 0, 0]);
}

#[test]
fn an_image_has_a_trailer_and_its_rows() {
    assert_eq!(image_size(0, 0), 24);
    assert_eq!(image_size(1, 0), 24 + 8 * NUMBER_WORDS);
    assert_eq!(image_size(0, 1), 24 + 8 * SUBSCRIBER_WORDS);
    let full = 8 * (1024 * NUMBER_WORDS + 4096 * SUBSCRIBER_WORDS) + 24;
    assert_eq!(image_size(MOST_NUMBERS, MOST_SUBSCRIBERS), full);
}

#[test]
fn a_failure_speaks_as_its_reason_does() {
    for refusal in (1..=52).filter_map(Refusal::from_number) {
        assert_eq!(Failure::Refused(refusal).to_string(), refusal.to_string());
    }
    for error in [35, 36, 71].map(|n| RequestError::from_number(n).unwrap()) {
        assert_eq!(Failure::Error(error).to_string(), error.to_string());
    }
}

#[test]
fn each_passes_as_an_error() {
    fn all() -> [Result<(), Box<dyn Error>>; 5] {
        [
            Err(radio::Refusal::Full.into()),
            Err(Refusal::NotDue.into()),
            Err(RequestError::UnknownAlphabet.into()),
            Err(Failure::Refused(Refusal::NoRoom).into()),
            "1234".parse::<Msisdn>().map(|_| ()).map_err(Into::into),
        ]
    }
    assert_eq!(
        all().map(|result| result.unwrap_err().to_string()),
        [
            "refusal 20: the number is new and the store is full",
            "refusal 5: the notice is not due",
            "error 71: the data coding scheme is not 0x0F",
            "refusal 1: a buffer is too short",
            "a number has 5 to 15 digits, not 4",
        ]
    );
}
