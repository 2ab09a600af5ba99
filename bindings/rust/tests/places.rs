//! Lines and columns.

mod common;

use common::{DAMAGED, HINGE};
use introspection::{Document, Lines, LIMIT};

#[test]
fn every_place_of_a_text() {
    let text = "a\nbc\r\n\rd\u{e9}\u{20ac}\u{1f680}e\n\n";
    let places = [
        ("a", 1, 1),
        ("\n", 1, 2),
        ("b", 2, 1),
        ("c", 2, 2),
        ("\r", 2, 3),
        ("\n", 2, 4),
        ("\r", 3, 1),
        ("d", 4, 1),
        ("\u{e9}", 4, 2),
        ("\u{20ac}", 4, 3),
        ("\u{1f680}", 4, 4),
        ("e", 4, 5),
        ("\n", 4, 6),
        ("\n", 5, 1),
        ("", 6, 1),
    ];
    let lines = Lines::new(text);
    let mut at = 0;
    for (character, line, column) in places {
        assert!(text[at..].starts_with(character));
        assert_eq!(lines.line_column(at), (line, column), "{at}");
        at += character.len();
    }
    assert_eq!(at, text.len());
    assert_eq!(lines.line_column(usize::MAX), (6, 1));
    let shown: Vec<_> = (0..8).map(|line| lines.line(line)).collect();
    let wanted = ["", "a", "bc", "", "d\u{e9}\u{20ac}\u{1f680}e", "", "", ""];
    assert_eq!(shown, wanted.map(str::as_bytes));
}

#[test]
fn one_place_and_many_are_counted_alike() {
    // two-byte characters, so that blocks begin inside of them, and lines of many lengths
    let mut text = String::from("<node>");
    for k in 0..60 {
        text += &"\u{e9}x".repeat(k * 7);
        text += ["\n", "\r\n", "\r"][k % 3];
        text += "<x/>";
    }
    text += "</node>";
    let document = Document::try_from(text.as_str()).unwrap();
    let lines = Lines::new(&text);
    assert_eq!(document.warnings().len(), 60);
    for (k, warning) in document.warnings().enumerate() {
        assert_eq!(warning.line_column(&text), (k + 2, 1));
        assert_eq!(lines.line_column(warning.position()), (k + 2, 1));
    }
    let error = Document::parse(&text.as_bytes()[..text.len() - 1]).unwrap_err();
    let place = lines.line_column(error.position());
    assert_eq!(error.line_column(&text), place);
    assert_eq!(place, (61, 6));
}

#[test]
fn of_refusals_and_warnings() {
    let error = Document::parse(DAMAGED).unwrap_err();
    assert_eq!(error.line_column(DAMAGED), (8, 63));
    let document = Document::parse(HINGE).unwrap();
    let warning = document.warnings().next().unwrap();
    assert_eq!(warning.line_column(HINGE), (3, 5));
}

#[test]
fn of_what_is_not_utf8() {
    let input = b"<node>\n\xc3\xa9 \xff</node>";
    let error = Document::parse(input).unwrap_err();
    assert_eq!(error.line_column(input), (2, 3));
    assert_eq!(Lines::new(input).line_column(error.position()), (2, 3));
}

#[test]
fn of_nothing() {
    let error = Document::parse(b"").unwrap_err();
    assert_eq!(error.line_column(b""), (1, 1));
    assert_eq!(Lines::new(b"").line_column(0), (1, 1));
}

#[test]
fn very_many_places_in_one_line() {
    let many = (LIMIT - 7) / 4;
    let input = format!("<a>{}</a>", "<b/>".repeat(many));
    let document = Document::try_from(input.as_str()).unwrap();
    let lines = Lines::new(&input);
    for (k, warning) in document.warnings().enumerate() {
        assert_eq!(lines.line_column(warning.position()), (1, 4 + 4 * k));
    }
}
