//! The order of type definitions.

use introspection::{Document, ErrorKind};

/// A document of these definitions.
fn node(definitions: &[String]) -> String {
    format!("<node>{}</node>", definitions.concat())
}

fn simple(name: &str) -> String {
    format!(r#"<tp:simple-type name="{name}" type="u"/>"#)
}

/// A struct with a member for each type.
fn structure(name: &str, types: &[&str]) -> String {
    let member = |tp: &&str| format!(r#"<tp:member name="m" type="u" tp:type="{tp}"/>"#);
    let members: String = types.iter().map(member).collect();
    format!(r#"<tp:struct name="{name}">{members}</tp:struct>"#)
}

/// The names in order.
fn names(input: &str) -> Vec<String> {
    let document = Document::parse(input.as_bytes()).unwrap();
    let types = document.types_in_order().unwrap();
    types
        .map(|definition| definition.name().to_owned())
        .collect()
}

#[test]
fn each_after_those_that_it_uses() {
    let both = [structure("A", &["C"]), simple("B"), simple("C")];
    assert_eq!(names(&node(&both)), ["B", "C", "A"]);
    // anew after each: B makes A ready, and A comes before C
    let anew = [structure("A", &["B"]), simple("B"), simple("C")];
    assert_eq!(names(&node(&anew)), ["B", "A", "C"]);
    // a name, and that name followed by `[]`
    let array = [structure("U", &["A[]"]), simple("A[]"), simple("A")];
    assert_eq!(names(&node(&array)), ["A[]", "A", "U"]);
    assert_eq!(names("<node/>"), [""; 0]);
}

#[test]
fn the_first_definition_of_a_name_counts() {
    let twice = [simple("A"), structure("A", &["A"])];
    assert_eq!(names(&node(&twice)), ["A", "A"]);
}

#[test]
fn names_are_sought_in_the_whole_document() {
    let inner = format!(r#"<interface name="a.b">{}</interface>"#, simple("B"));
    assert_eq!(names(&node(&[structure("A", &["B"]), inner])), ["B", "A"]);
}

#[test]
fn a_circle_is_refused() {
    let circle = [
        structure("A", &["B"]),
        structure("B", &["C"]),
        structure("C", &["B"]),
    ];
    let input = node(&circle);
    let document = Document::parse(input.as_bytes()).unwrap();
    let error = document.types_in_order().err().unwrap();
    assert_eq!(error.kind(), ErrorKind::CircularTypes);
    assert_eq!(error.number(), 28);
    assert_eq!(error.position(), 3); // B
    assert_eq!(error.to_string(), "circular types (at row 3)");
    for own in ["A", "A[]"] {
        let input = node(&[structure("A", &[own])]);
        let document = Document::parse(input.as_bytes()).unwrap();
        assert_eq!(document.types_in_order().err().unwrap().position(), 1);
    }
}
