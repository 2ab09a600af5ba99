//! Large documents: the deepest, the widest, the longest.

mod common;

use common::Seen;
use introspection::{Document, LIMIT};

#[test]
fn as_many_open_nodes_as_may_be() {
    let input = "<node>".repeat(1024) + &"</node>".repeat(1024);
    let document = Document::try_from(input.as_str()).unwrap();
    assert_eq!(document.nodes().count(), 1024);
    let mut node = document.root();
    let mut depth = 1;
    while let Some(next) = node.nodes().next() {
        assert_eq!(node.nodes().count(), 1);
        node = next;
        depth += 1;
    }
    assert_eq!(depth, 1024);
    assert_eq!(node.row(), 1023);

    let input = "<node>".repeat(1025) + &"</node>".repeat(1025);
    let error = Document::try_from(input.as_str()).unwrap_err();
    assert_eq!((error.number(), error.position()), (7, 1025 * 6));
}

#[test]
fn many_interfaces() {
    let interface = "<interface name='a.b'><method name='M'><arg type='s'/></method></interface>";
    let many = (LIMIT - 13) / interface.len();
    let input = format!("<node>{}</node>", interface.repeat(many));
    let document = Document::try_from(input.as_str()).unwrap();
    assert_eq!(document.root().interfaces().count(), many);
    let methods = document.root().interfaces().flat_map(|i| i.methods());
    assert_eq!(methods.clone().count(), many);
    let last = methods.last().unwrap();
    assert_eq!(last.row(), 3 * many - 1);
    // each written by itself: no more than in proportion to the whole
    for method in document.root().interfaces().flat_map(|i| i.methods()) {
        assert_eq!(
            method.to_xml(),
            r#"<method name="M"><arg type="s"/></method>"#
        );
    }
}

#[test]
fn deep_and_wide_documents_are_written() {
    let interface = "<interface name=\"a.b\"><method name=\"M\"/></interface>";
    let input = format!("<node>{interface}").repeat(1024) + &"</node>".repeat(1024);
    let document = Document::try_from(input.as_str()).unwrap();
    assert_eq!(document.to_xml(), input);
    // one more, that is closed at once
    let input = format!("<node>{interface}").repeat(1024) + "<node/>" + &"</node>".repeat(1024);
    let document = Document::try_from(input.as_str()).unwrap();
    assert_eq!(document.to_xml(), input);

    let many = (LIMIT - 13) / interface.len();
    let input = format!("<node>{}</node>", interface.repeat(many));
    let document = Document::try_from(input.as_str()).unwrap();
    assert_eq!(document.to_xml(), input);
    // each written by itself: no more than in proportion to the whole
    for written in document.root().interfaces().map(|i| i.to_xml()) {
        assert_eq!(written, interface);
    }
}

#[test]
fn as_many_rows_as_room_allows() {
    // a root and elements of four bytes
    let many = (LIMIT - 7) / 4;
    let input = format!("<a>{}</a>", "<b/>".repeat(many));
    let document = Document::try_from(input.as_str()).unwrap();
    assert_eq!(document.nodes().count(), 1);
    assert_eq!(document.warnings().len(), many);
    let last = document.warnings().last().unwrap();
    assert_eq!((last.position(), last.element()), (3 + 4 * (many - 1), "b"));

    let input = format!("<a>{}</a>", "<node/>".repeat(100_000));
    let document = Document::try_from(input.as_str()).unwrap();
    assert_eq!(document.nodes().count(), 100_001);
    assert_eq!(document.root().nodes().count(), 100_000);
}

#[test]
fn deep_and_wide() {
    let interface = "<interface name='a.b'><property name='P' type='s' access='read'/></interface>";
    let input = format!("<node name='n'>{interface}").repeat(1024) + &"</node>".repeat(1024);
    let document = Document::try_from(input.as_str()).unwrap();
    let seen = Seen::of(&document);
    assert_eq!(seen.texts.len(), 4 * 1024);
    assert_eq!(document, Document::try_from(input.as_str()).unwrap());
}

#[test]
fn a_text_of_the_longest_kind() {
    let value = "\n".repeat(LIMIT - 15);
    let input = format!("<node name='{value}'/>");
    assert_eq!(input.len(), LIMIT);
    let document = Document::try_from(input.as_str()).unwrap();
    let name = document.root().name().unwrap();
    assert_eq!(name.len(), value.len());
    assert!(name.bytes().all(|byte| byte == b' '));
}
