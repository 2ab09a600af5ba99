//! The lengths of iterators, and the signatures of type definitions.

mod common;

use common::ANTENNA;
use introspection::telepathy::TypeDef;
use introspection::Document;

/// An iterator's length at each step, and that it ends when it says so.
fn counts_down<T>(mut iterator: impl ExactSizeIterator<Item = T> + Clone, len: usize) {
    assert_eq!(iterator.clone().count(), len);
    for left in (0..len).rev() {
        assert_eq!(iterator.len(), left + 1);
        assert!(iterator.next().is_some());
    }
    assert_eq!(iterator.size_hint(), (0, Some(0)));
    assert!(iterator.next().is_none());
    assert_eq!(iterator.len(), 0);
}

#[test]
fn lengths_are_exact() {
    let document = Document::parse(ANTENNA).unwrap();
    let root = document.root();
    counts_down(root.nodes(), 2);
    counts_down(root.interfaces(), 2);
    counts_down(root.telepathy_types(), 3);
    let antenna = root.interfaces().next().unwrap();
    counts_down(antenna.children(), 8);
    counts_down(antenna.methods(), 3);
    counts_down(antenna.signals(), 1);
    counts_down(antenna.properties(), 3);
    counts_down(antenna.annotations(), 1);
    counts_down(antenna.telepathy_types(), 1);
    let args: Vec<_> = antenna
        .methods()
        .map(|method| method.args().len())
        .collect();
    assert_eq!(args, [2, 0, 1]);
    let point = antenna.methods().next().unwrap();
    counts_down(point.args(), 2);
    counts_down(point.annotations(), 1);
    counts_down(point.args().next().unwrap().annotations(), 1);
    let moved = antenna.signals().next().unwrap();
    counts_down(moved.args(), 1);
    counts_down(moved.annotations(), 1);
    let mode = antenna.properties().next().unwrap();
    counts_down(mode.annotations(), 1);
    for definition in root.telepathy_types().chain(antenna.telepathy_types()) {
        match definition {
            TypeDef::SimpleType(_) => {}
            TypeDef::Enum(definition) => counts_down(definition.values(), 3),
            TypeDef::Struct(definition) => counts_down(definition.members(), 2),
            TypeDef::Mapping(definition) => counts_down(definition.members(), 2),
        }
    }
}

/// The signature of the one type definition in a document.
fn signature(definition: &str) -> String {
    let input = format!("<node>{definition}</node>");
    let document = Document::try_from(input.as_str()).unwrap();
    let mut types = document.root().telepathy_types();
    let definition = types.next().unwrap();
    assert_eq!((types.len(), document.warnings().len()), (0, 0));
    definition.signature()
}

fn structure(types: &[&str]) -> String {
    let member = |ty: &&str| format!("<member name='m' type='{ty}'/>");
    let members: String = types.iter().map(member).collect();
    signature(&format!("<struct name='S'>{members}</struct>"))
}

fn mapping(key: &str, value: &str) -> String {
    signature(&format!(
        "<mapping name='M'><member name='k' type='{key}'/><member name='v' type='{value}'/></mapping>"
    ))
}

#[test]
fn signatures_of_definitions() {
    assert_eq!(signature("<simple-type name='T' type='a{sv}'/>"), "a{sv}");
    assert_eq!(signature("<enum name='E' type='u'/>"), "u");
    assert_eq!(structure(&["d"]), "(d)");
    assert_eq!(structure(&["d", "a{sv}", "(ii)", "aas"]), "(da{sv}(ii)aas)");
    assert_eq!(mapping("s", "v"), "a{sv}");
    assert_eq!(mapping("u", "a{s(iai)}"), "a{ua{s(iai)}}");
}

/// Else the signature would not be that of one type.
#[test]
fn several_types_in_a_row() {
    assert_eq!(signature("<simple-type name='T' type='ii'/>"), "(ii)");
    assert_eq!(structure(&["ii", "s"]), "((ii)s)");
    assert_eq!(mapping("s", "as(i)"), "a{s(as(i))}");
    assert_eq!(mapping("s", "(i)(i)"), "a{s((i)(i))}");
}

#[test]
fn signatures_of_the_antenna() {
    let document = Document::parse(ANTENNA).unwrap();
    let root = document.root();
    let signatures: Vec<_> = root.telepathy_types().map(|ty| ty.signature()).collect();
    assert_eq!(signatures, ["d", "u", "(dd)"]);
    let antenna = root.interfaces().next().unwrap();
    let readings = antenna.telepathy_types().next().unwrap();
    assert_eq!(readings.signature(), "a{sv}");
}
