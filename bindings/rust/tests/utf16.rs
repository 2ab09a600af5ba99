//! Inputs in UTF-16: they are read without being asked, and lend views into what was decoded.

mod common;

use common::{Seen, ANTENNA, DAMAGED, HINGE};
use introspection::{Document, ErrorKind, LIMIT};

/// Text in UTF-16 with a byte order mark, big and little endian.
fn in_utf16(text: &str) -> [Vec<u8>; 2] {
    let units = || text.encode_utf16();
    let big = units().flat_map(u16::to_be_bytes);
    let little = units().flat_map(u16::to_le_bytes);
    [
        [0xfe, 0xff].into_iter().chain(big).collect(),
        [0xff, 0xfe].into_iter().chain(little).collect(),
    ]
}

#[test]
fn the_same_as_in_utf8() {
    let own =
        "<node name='&lt;\u{e9}\u{4e8c}\u{10302}'><x/><node name='\u{e9}'/></node>".as_bytes();
    for input in [ANTENNA, HINGE, own] {
        let text = std::str::from_utf8(input).unwrap();
        let document = Document::parse(input).unwrap();
        assert_eq!(document.text(), text);
        for wide in in_utf16(text) {
            let other = Document::parse(&wide).unwrap();
            assert_eq!(other.text(), text);
            assert_eq!(other, document);
            assert_eq!(other.table(), document.table());
            assert_eq!(Seen::of(&other).texts, Seen::of(&document).texts);
            assert_eq!(Seen::of(&other).written, Seen::of(&document).written);
            assert!(other.warnings().eq(document.warnings()));
        }
    }
}

#[test]
fn refused_as_in_utf8() {
    let damaged = std::str::from_utf8(DAMAGED).unwrap();
    for text in [
        damaged,
        "",
        " ",
        "<a></\u{e9}>",
        "<a \u{4e8c}='' \u{4e8c}=''/>",
        "<node>",
    ] {
        let error = Document::try_from(text).unwrap_err();
        for wide in in_utf16(text) {
            assert_eq!(Document::parse(&wide).unwrap_err(), error);
        }
    }
}

#[test]
fn refused_in_decoding() {
    let cases: [(&[u8], ErrorKind, usize, &str); 9] = [
        (b"\xfe", ErrorKind::NotUtf8, 0, "not UTF-8"),
        (b"\xff", ErrorKind::NotUtf8, 0, "not UTF-8"),
        (b"\xfe\xff\0", ErrorKind::OddBytes, 3, "odd number of bytes"),
        (
            b"\xfe\xff\xd8\0<",
            ErrorKind::OddBytes,
            5,
            "odd number of bytes",
        ),
        (
            b"\xff\xfe\0\xdc",
            ErrorKind::LoneSurrogate,
            2,
            "lone surrogate",
        ),
        (
            b"\xfe\xff\0<\xd8\0",
            ErrorKind::LoneSurrogate,
            4,
            "lone surrogate",
        ),
        (
            b"\xfe\xff\xd8\0\xd8\0\xdc\0",
            ErrorKind::LoneSurrogate,
            2,
            "lone surrogate",
        ),
        (b"\xfe\xff", ErrorKind::NoRoot, 0, "missing root element"),
        (
            b"\xff\xfe\0\0",
            ErrorKind::NoRoot,
            1,
            "missing root element",
        ),
    ];
    for (input, kind, position, message) in cases {
        let error = Document::parse(input).unwrap_err();
        assert_eq!(error.kind(), kind);
        assert_eq!(error.position(), position);
        assert_eq!(error.message(), message);
        assert_eq!(
            error.to_string(),
            format!("{message} (at byte offset {position})")
        );
    }
}

#[test]
fn at_the_limit() {
    // three bytes for each unit of two
    let spaced = |n: usize, rest: &str| format!("<x/>{}{rest}", "\u{800}".repeat(n));
    let most = (LIMIT - 4) / 3;
    let rest = " ".repeat((LIMIT - 4) % 3);
    for wide in in_utf16(&spaced(most, &rest)) {
        assert_eq!(Document::parse(&wide).unwrap().text().len(), LIMIT);
    }
    for wide in in_utf16(&spaced(most + 1, "")) {
        assert!(wide.len() < LIMIT);
        let error = Document::parse(&wide).unwrap_err();
        assert_eq!(
            (error.kind(), error.position()),
            (ErrorKind::TooLong, LIMIT)
        );
    }
    for wide in in_utf16(&" ".repeat(LIMIT / 2)) {
        let error = Document::parse(&wide).unwrap_err();
        assert_eq!(
            (error.kind(), error.position()),
            (ErrorKind::TooLong, LIMIT)
        );
    }
}

#[test]
fn text_may_be_longer_than_the_input() {
    let value = "\u{800}".repeat(100);
    for wide in in_utf16(&format!("<a name=\"&amp;{value}\"/>")) {
        assert!(wide.len() < 3 * 100);
        let document = Document::parse(&wide).unwrap();
        assert_eq!(document.root().name(), Some(format!("&{value}").as_str()));
    }
}

#[test]
fn cut_off_anywhere() {
    for wide in in_utf16(std::str::from_utf8(HINGE).unwrap()) {
        for n in 0..wide.len() {
            let Err(error) = Document::parse(&wide[..n]) else {
                // only without the line's end
                assert_eq!(n, wide.len() - 2);
                continue;
            };
            if n > 2 && n % 2 == 1 {
                assert_eq!((error.kind(), error.position()), (ErrorKind::OddBytes, n));
            }
        }
    }
}
