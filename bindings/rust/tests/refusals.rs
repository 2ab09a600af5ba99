//! Refusals: each number that reading gives, with its place.

use introspection::{Document, Error, ErrorKind, LIMIT};

fn refusal(input: &[u8]) -> (u32, usize) {
    let error = Document::parse(input).unwrap_err();
    assert_eq!(error.number(), error.kind().number());
    assert!(error.position() <= input.len());
    (error.number(), error.position())
}

#[test]
fn each_number_with_its_place() {
    let many: String = (0..257).map(|k| format!(" a{k}=''")).collect();
    let many = format!("<node{many}/>");
    let deep = "<node>".repeat(1025);
    let cases: [(&[u8], u32, usize); 31] = [
        (b"<node>\xff</node>", 1, 6),
        (b"<node/>\xc3", 1, 7),
        (b"", 3, 0),
        (b"text only", 3, 9),
        (b"<node><!-- never closed</node>", 22, 10),
        (b"<node><![CDATA[ never closed</node>", 23, 15),
        (b"<node><? never closed</node>", 24, 8),
        (b"<node><!never closed", 25, 20),
        (b"<!never 'closed><node/>", 25, 9),
        (b"<!-", 25, 3),
        (b"<!-->", 22, 4),
        (b"<node a='never closed></node>", 4, 6),
        (b"<node", 4, 5),
        (b"<node a></node>", 4, 6),
        (b"< node/>", 4, 1),
        (b"<node>", 5, 6),
        (b"<node><node></node>", 5, 19),
        (b"<node><interface name='a.b'></node></interface>", 6, 35),
        (deep.as_bytes(), 7, 6150),
        (b"<node a='' b='' a=''/>", 8, 16),
        (b"<node name='a&amp'/>", 9, 13),
        (b"<node name='&nbsp;'/>", 10, 12),
        (b"<node name='&#0;'/>", 11, 12),
        (b"<node><interface/></node>", 12, 7),
        (b"<node><interface name='single'/></node>", 13, 7),
        (
            b"<node><interface name='a.b'><property name='P' type='?' access='read'/></interface></node>",
            14,
            29,
        ),
        (
            b"<node><interface name='a.b'><property name='P' type='s' access='all'/></interface></node>",
            15,
            70,
        ),
        (
            b"<node><interface name='a.b'><signal name='S'><arg type='s' direction='up'/></signal></interface></node>",
            16,
            75,
        ),
        (
            b"<node><interface name='a.b'><property name='P' type='s'/></interface></node>",
            12,
            29,
        ),
        (
            b"<node><interface name='a.b'><annotation name='n'/></interface></node>",
            12,
            29,
        ),
        (many.as_bytes(), 17, many.rfind("a256").unwrap()),
    ];
    for (input, number, place) in cases {
        let shown = String::from_utf8_lossy(input);
        assert_eq!(refusal(input), (number, place), "{shown:.60}");
    }
}

#[test]
fn over_long() {
    let mut input = b"<node/>".to_vec();
    input.resize(LIMIT, b' ');
    assert!(Document::parse(&input).is_ok());
    input.push(b' ');
    assert_eq!(refusal(&input), (2, LIMIT));
    // before the UTF-8 of it
    input[0] = 0xff;
    assert_eq!(refusal(&input), (2, LIMIT));
}

#[test]
fn the_damaged_file() {
    let input = include_bytes!("../../../examples/damaged.xml");
    let error = Document::parse(input).unwrap_err();
    assert_eq!(error.kind(), ErrorKind::UnknownEntity);
    assert!(input[error.position()..].starts_with(b"&when;"));
    assert_eq!(error.message(), "unknown entity `&when;`");
    assert_eq!(
        error.to_string(),
        "unknown entity `&when;` (at byte offset 296)"
    );
}

#[test]
fn a_refusal_is_an_error_value() {
    fn read(input: &[u8]) -> Result<usize, Box<dyn std::error::Error>> {
        Ok(Document::parse(input)?.nodes().count())
    }
    assert_eq!(read(b"<node/>").unwrap(), 1);
    let error = read(b"<node><").unwrap_err();
    let error: &Error = error.downcast_ref().unwrap();
    assert_eq!(error.kind(), ErrorKind::MalformedMarkup);
    assert_eq!(error.to_string(), "malformed markup (at byte offset 7)");
}

#[test]
fn each_sort_of_markup_that_never_closes() {
    use ErrorKind::*;
    let sorts = [
        ("<!--", UnclosedComment, 10),
        ("<![CDATA[", UnclosedCdata, 15),
        ("<?", UnclosedInstruction, 8),
        ("<!x", UnclosedDeclaration, 9),
    ];
    for (begun, kind, position) in sorts {
        let error = Document::parse(format!("<node>{begun}").as_bytes()).unwrap_err();
        assert_eq!(error.kind(), kind);
        assert_eq!(error.position(), position);
        assert_eq!(error.message(), "malformed markup");
        // nothing after the root is read
        assert!(Document::parse(format!("<node/>{begun}").as_bytes()).is_ok());
    }
}

#[test]
fn try_from() {
    assert!(Document::try_from("<node/>").is_ok());
    assert!(Document::try_from(&b"<node/>"[..]).is_ok());
    assert!(Document::try_from("").is_err());
}

#[test]
fn messages_are_those_of_zbus_xml() {
    let interface = |inner: &str| format!("<node><interface name='a.b'>{inner}</interface></node>");
    let cases = [
        ("".into(), "missing root element"),
        ("<node>".into(), "missing `</node>`"),
        (
            "<a><node><node></node></x>".into(),
            "unexpected `</x>` while parsing `<node>`",
        ),
        ("<a x='1' x='2'/>".into(), "duplicate attribute `x`"),
        ("<a x='&q'/>".into(), "unterminated entity reference"),
        ("<a x='&a &lt;'/>".into(), "unknown entity `&a &lt;`"),
        ("<a x='&#0;'/>".into(), "invalid character reference `&#0;`"),
        (
            interface("<method/>"),
            "missing attribute `name` on `<method>`",
        ),
        (
            interface("<property name='P'/>"),
            "missing attribute `type` on `<property>`",
        ),
        (
            interface("<property name='P' type='s'/>"),
            "missing attribute `access` on `<property>`",
        ),
        (
            interface("<annotation name='n'/>"),
            "missing attribute `value` on `<annotation>`",
        ),
        (
            interface("<property name='P' type='s' access='a&#96;\r\n&lt;'/>"),
            "invalid property access `a` <`",
        ),
        (
            interface("<method name='M'><arg type='s' direction=''/></method>"),
            "invalid argument direction ``",
        ),
        (
            "<node>".repeat(1025),
            "maximum element nesting depth exceeded",
        ),
    ];
    for (input, message) in cases {
        let error = Document::parse(input.as_bytes()).unwrap_err();
        assert_eq!(error.message(), message);
        let shown = format!("{message} (at byte offset {})", error.position());
        assert_eq!(error.to_string(), shown);
    }
}

#[test]
fn messages_of_values() {
    let error = introspection::unescape("a&q;b").unwrap_err();
    assert_eq!(error.to_string(), "unknown entity `&q;` (at byte offset 1)");
    let error = introspection::unescape("&#xD800;").unwrap_err();
    assert_eq!(error.message(), "invalid character reference `&#xD800;`");
    let error = introspection::unescape("&").unwrap_err();
    assert_eq!(error.message(), "unterminated entity reference");
}
