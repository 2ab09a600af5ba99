//! The hinge: one enum value lacks its value, so that enum is left out whole, with a warning, and
//! the rest of the file is there.

use introspection::telepathy::TypeDef;
use introspection::{ArgDirection, Document, PropertyAccess, Reason};

const HINGE: &[u8] = include_bytes!("../../../examples/hinge.xml");

#[test]
fn the_broken_enum_is_left_out_whole() {
    let document = Document::parse(HINGE).unwrap();
    let hinge = document.root().interfaces().next().unwrap();
    let types: Vec<_> = hinge.telepathy_types().collect();
    assert_eq!(types.len(), 1);
    let TypeDef::Enum(side) = types[0] else {
        panic!("{:?}", types[0])
    };
    assert_eq!(side.name(), "Side");
    assert!(hinge.telepathy_types().all(|ty| ty.name() != "State"));
    assert_eq!(document.root().telepathy_types().count(), 0);
}

#[test]
fn there_is_one_warning_at_its_place() {
    let document = Document::parse(HINGE).unwrap();
    let warnings: Vec<_> = document.warnings().collect();
    assert_eq!(warnings.len(), 1);
    let warning = warnings[0];
    assert_eq!(warning.reason(), Reason::IncompleteEnumvalue);
    assert_eq!(warning.number(), 5);
    assert_eq!(warning.element(), "tp:enum");
    assert!(HINGE[warning.position()..].starts_with(b"<tp:enum name=\"State\""));
    assert_eq!(
        warning.to_string(),
        "malformed element `<tp:enum>` ignored: an enumvalue is missing its `suffix` or `value` attribute (at byte offset 122)"
    );
}

#[test]
fn the_rest_of_the_file_is_there() {
    let document = Document::parse(HINGE).unwrap();
    let hinge = document.root().interfaces().next().unwrap();
    assert_eq!(hinge.name(), "org.example.Hinge");

    let TypeDef::Enum(side) = hinge.telepathy_types().next().unwrap() else {
        panic!()
    };
    let values: Vec<_> = side.values().map(|v| (v.suffix(), v.value())).collect();
    assert_eq!(side.ty(), "y");
    assert_eq!(values, [("Port", "0"), ("Starboard", "1")]);

    let unfold = hinge.methods().next().unwrap();
    let arg = unfold.args().next().unwrap();
    assert_eq!(unfold.name(), "Unfold");
    assert_eq!(arg.name(), Some("side"));
    assert_eq!(arg.ty(), "y");
    assert_eq!(arg.direction(), Some(ArgDirection::In));
    assert_eq!(arg.tp_type(), Some("Side"));

    let changed = hinge.signals().next().unwrap();
    let arg = changed.args().next().unwrap();
    assert_eq!(changed.name(), "StateChanged");
    assert_eq!(arg.direction(), None);
    assert_eq!(arg.tp_type(), Some("State"));

    let state = hinge.properties().next().unwrap();
    assert_eq!(state.name(), "State");
    assert_eq!(state.access(), PropertyAccess::Read);
    assert_eq!(state.tp_type(), Some("State"));
    assert_eq!(hinge.children().count(), 3);
}

#[test]
fn mended_it_is_there() {
    let text = std::str::from_utf8(HINGE).unwrap();
    let mended = text.replace(r#"suffix="Moving""#, r#"suffix="Moving" value="1""#);
    let document = Document::try_from(mended.as_str()).unwrap();
    let hinge = document.root().interfaces().next().unwrap();
    let names: Vec<_> = hinge.telepathy_types().map(|ty| ty.name()).collect();
    assert_eq!(document.warnings().len(), 0);
    assert_eq!(names, ["State", "Side"]);
}
