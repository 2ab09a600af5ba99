//! The listing program's own document, and each reason for a warning.

use introspection::{Document, Reason};

#[test]
fn the_listing_document() {
    let input = include_bytes!("../../../crates/listing/stdin");
    let document = Document::parse(input).unwrap();
    let node = document.root();
    let interface = node.interfaces().next().unwrap();
    let method = interface.methods().next().unwrap();
    assert_eq!((node.row(), interface.row(), method.row()), (0, 1, 2));
    assert_eq!(
        (node.position(), interface.position(), method.position()),
        (0, 6, 28)
    );
    assert_eq!(node.name(), None);
    assert_eq!(interface.name(), "a.b");
    assert_eq!(method.name(), "M");
    assert_eq!(document.nodes().count(), 1);
    assert_eq!(node.interfaces().count(), 1);
    assert_eq!(interface.children().count(), 1);

    let warning = document.warnings().next().unwrap();
    assert_eq!(document.warnings().len(), 1);
    assert_eq!(warning.reason(), Reason::UnsupportedElement);
    assert_eq!(warning.number(), 1);
    assert_eq!(warning.position(), 46);
    assert_eq!(warning.element(), "x");
    assert_eq!(
        warning.to_string(),
        "unsupported element `<x>` ignored (at byte offset 46)"
    );
}

#[test]
fn views_are_parts_of_the_input() {
    let input = include_bytes!("../../../crates/listing/stdin");
    let document = Document::parse(input).unwrap();
    let name = document.root().interfaces().next().unwrap().name();
    assert_eq!(name.as_ptr(), input[23..].as_ptr());
}

#[test]
fn each_reason() {
    let cases: [(&str, Reason, &str); 12] = [
        ("<extra/>", Reason::UnsupportedElement, "extra"),
        ("<tp:enum type='u'/>", Reason::NoName, "tp:enum"),
        ("<tp:struct/>", Reason::NoName, "tp:struct"),
        ("<simple-type name='T'/>", Reason::NoType, "simple-type"),
        ("<tp:simple-type name='T' type=''/>", Reason::BadSignature, "tp:simple-type"),
        ("<tp:enum name='T' type='!'/>", Reason::BadSignature, "tp:enum"),
        (
            "<enum name='T' type='u'><enumvalue suffix='A'/></enum>",
            Reason::IncompleteEnumvalue,
            "enum",
        ),
        (
            "<tp:struct name='T'><tp:member name='A'/></tp:struct>",
            Reason::IncompleteMember,
            "tp:struct",
        ),
        ("<tp:struct name='T'></tp:struct>", Reason::NoMembers, "tp:struct"),
        ("<tp:mapping name='T'/>", Reason::NotTwoMembers, "tp:mapping"),
        (
            "<tp:mapping name='T'><tp:member name='A' type='s'/></tp:mapping>",
            Reason::NotTwoMembers,
            "tp:mapping",
        ),
        (
            "<tp:mapping name='T'><tp:member name='A' type='v'/><tp:member name='B' type='v'/></tp:mapping>",
            Reason::KeyNotBasic,
            "tp:mapping",
        ),
    ];
    for (element, reason, name) in cases {
        let input = format!("<node>{element}<node name='after'/></node>");
        let document = Document::try_from(input.as_str()).unwrap();
        let warnings: Vec<_> = document.warnings().collect();
        assert_eq!(warnings.len(), 1, "{element}");
        assert_eq!(warnings[0].reason(), reason, "{element}");
        assert_eq!(warnings[0].number(), reason.number());
        assert_eq!(warnings[0].position(), 6);
        assert_eq!(warnings[0].element(), name);
        let begins = match reason {
            Reason::UnsupportedElement => format!("unsupported element `<{name}>` ignored"),
            _ => format!("malformed element `<{name}>` ignored: "),
        };
        assert!(warnings[0].message().starts_with(&begins));
        assert_eq!(document.root().telepathy_types().count(), 0);
        assert_eq!(
            document.root().nodes().next().unwrap().name(),
            Some("after")
        );
    }
}

#[test]
fn a_warning_is_an_error_value() {
    let document = Document::parse(b"<node><x/></node>").unwrap();
    let warning = document.warnings().next().unwrap();
    let boxed: Box<dyn std::error::Error + '_> = Box::new(warning);
    assert!(boxed.to_string().contains("<x>"));
}
