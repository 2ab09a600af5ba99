//! The strict profile: each rule refuses at its place, and what passes is as `Document::parse` reads it.

mod common;

use common::{ANTENNA, DAMAGED, HINGE};
use introspection::{Document, ErrorKind};

const LOOSE: &[u8] = include_bytes!("../../../examples/loose.xml");

fn refused_at(input: &[u8]) -> usize {
    assert!(
        Document::parse(input).is_ok(),
        "the ordinary entry accepts it"
    );
    let error = Document::parse_strict(input).unwrap_err();
    assert_eq!(error.kind(), ErrorKind::ProfileBreach);
    assert_eq!(error.number(), 29);
    assert_eq!(error.message(), "profile breach");
    error.position()
}

#[test]
fn each_rule() {
    let cases: [(&[u8], usize); 10] = [
        (b"<node a='1<2'/>", 10),
        (b"<node><x y='&#X41;'/></node>", 12),
        (b"<node><!-- -- --></node>", 11),
        (b"<!--a---><node/>", 5),
        (b"<node><-/></node>", 7),
        ("<node a\u{d7}='1'/>".as_bytes(), 7),
        (b"<node>\x0c</node>", 6),
        (b"<tp:node/>", 1),
        (b"<node/>text", 7),
        (b"<node/><!-- -- -->", 12),
    ];
    for (input, place) in cases {
        assert_eq!(
            refused_at(input),
            place,
            "{}",
            String::from_utf8_lossy(input)
        );
    }
}

#[test]
fn the_smallest_place() {
    assert_eq!(refused_at(b"<node><!--\x01--></node>x"), 10);
    assert_eq!(refused_at(b"\xff\xfe<\0x\0/\0>\0"), 1);
    let place = LOOSE.windows(4).position(|w| w == b"<!--").unwrap() + 4;
    let inside = LOOSE[place..].windows(2).position(|w| w == b"--").unwrap();
    assert_eq!(refused_at(LOOSE), place + inside);
}

#[test]
fn what_passes_is_the_same() {
    let own = b"junk<node name='&lt;'><x/><!--a--><docstring> b </docstring></node> <?p?>";
    for input in [ANTENNA, HINGE, own] {
        let strict = Document::parse_strict(input).unwrap();
        let document = Document::parse(input).unwrap();
        assert_eq!(strict, document);
        assert_eq!(strict.table(), document.table());
        assert!(strict.warnings().eq(document.warnings()));
    }
}

#[test]
fn what_is_refused_is_the_same() {
    for input in [DAMAGED, b"<x>", b"<x a='<' a='1'/>", b"\xfe\xff\0"] {
        assert_eq!(
            Document::parse_strict(input).unwrap_err(),
            Document::parse(input).unwrap_err()
        );
    }
}
