//! Text with references, escaping and unescaping.

use introspection::{escape, unescape, Document, LIMIT};

#[test]
fn values_with_references_are_shown() {
    let input = "<node name='a&amp;b&#x20AC;'><interface name='a.&#98;'>\
        <annotation name='plain' value='&lt;&gt;&quot;&apos;&#10;'/>\
        <annotation name='tab\there' value='line\nnext\r\nlast'/>\
        <annotation name='' value='é'/></interface></node>";
    let document = Document::try_from(input).unwrap();
    assert_eq!(document.root().name(), Some("a&b€"));
    let interface = document.root().interfaces().next().unwrap();
    assert_eq!(interface.name(), "a.b");
    let shown: Vec<_> = interface
        .annotations()
        .map(|a| (a.name(), a.value()))
        .collect();
    assert_eq!(
        shown,
        [
            ("plain", "<>\"'\n"),
            ("tab here", "line next last"),
            ("", "é"),
        ]
    );
}

#[test]
fn a_docstring_is_raw() {
    let input = "<node><docstring> a &amp; <b>c</b>\u{a0}</docstring></node>";
    let document = Document::try_from(input).unwrap();
    assert_eq!(document.root().docstring(), Some("a &amp; <b>c</b>"));
}

#[test]
fn absent_is_not_empty() {
    let document = Document::parse(b"<node name=''><node/></node>").unwrap();
    assert_eq!(document.root().name(), Some(""));
    assert_eq!(document.root().nodes().next().unwrap().name(), None);
}

#[test]
fn escaping() {
    assert_eq!(escape("").unwrap(), "");
    assert_eq!(escape("plain é€😀 text").unwrap(), "plain é€😀 text");
    let special = escape("&<>\"'\t\n\r").unwrap();
    assert_eq!(special.matches(';').count(), 8);
    assert!(!special.contains(['<', '>', '"', '\'', '\t', '\n', '\r']));
    assert_eq!(unescape(&special).unwrap(), "&<>\"'\t\n\r");
}

#[test]
fn unescaping() {
    assert_eq!(unescape("").unwrap(), "");
    assert_eq!(unescape("a\r\nb\rc\nd\te").unwrap(), "a b c d e");
    assert_eq!(unescape("&#65;&#x41;&#X0041;").unwrap(), "AAA");
    assert_eq!(unescape("&#x1F600;").unwrap(), "😀");
}

#[test]
fn round_trip() {
    let mut all: String = (1u32..0x3000).filter_map(char::from_u32).collect();
    all.push('\u{10ffff}');
    assert_eq!(unescape(escape(&all).unwrap()).unwrap(), all);
    let longest = "'".repeat(LIMIT);
    let escaped = escape(&longest).unwrap();
    assert!(escaped.len() > 4 * LIMIT);
}

#[test]
fn refusals() {
    let answer = |r: Result<String, introspection::Error>| {
        let error = r.unwrap_err();
        (error.number(), error.position())
    };
    assert_eq!(answer(escape(b"ab\xc3(")), (1, 2));
    assert_eq!(answer(unescape(b"ab\xed\xa0\x80")), (1, 2));
    assert_eq!(answer(unescape("a&amp")), (9, 1));
    assert_eq!(answer(unescape("a &b; c")), (10, 2));
    assert_eq!(answer(unescape("ab&#xD800;")), (11, 2));
    let long = vec![b'a'; LIMIT + 1];
    assert_eq!(answer(escape(&long)), (2, LIMIT));
    assert_eq!(answer(unescape(&long)), (2, LIMIT));
    assert_eq!(escape(&long[1..]).unwrap().len(), LIMIT);
}
