//! What is written, and that it reads back.

mod common;

use common::{around, Seen, ANTENNA, HINGE};
use introspection::telepathy::TypeDef;
use introspection::{Annotation, Arg, Child, Document};

#[test]
fn methods_signals_args_and_annotations() {
    let document = Document::parse(ANTENNA).unwrap();
    let antenna = document.root().interfaces().next().unwrap();
    let methods: Vec<_> = antenna.methods().map(|m| m.to_xml()).collect();
    assert_eq!(
        methods,
        [
            concat!(
                r#"<method name="Point">"#,
                r#"<arg name="direction" type="(dd)" direction="in">"#,
                r#"<annotation name="org.example.Unit" value="degree"/></arg>"#,
                r#"<arg name="seconds" type="u" direction="out"/>"#,
                r#"<annotation name="org.example.Precondition" value="elevation &gt; 5 &amp; wind &lt; 20"/>"#,
                r#"</method>"#,
            ),
            r#"<method name="Park"/>"#,
            r#"<method name="Sensors"><arg type="a{sv}" direction="out"/></method>"#,
        ]
    );
    let moved = antenna.signals().next().unwrap();
    assert_eq!(
        moved.to_xml(),
        concat!(
            r#"<signal name="Moved"><arg name="direction" type="(dd)"/>"#,
            r#"<annotation name="org.example.Rate" value="1 Hz"/></signal>"#
        )
    );
    let point = antenna.methods().next().unwrap();
    let arg = point.args().next().unwrap();
    assert_eq!(
        arg.to_xml(),
        concat!(
            r#"<arg name="direction" type="(dd)" direction="in">"#,
            r#"<annotation name="org.example.Unit" value="degree"/></arg>"#
        )
    );
    let owner = antenna.annotations().next().unwrap();
    assert_eq!(
        owner.to_xml(),
        r#"<annotation name="org.example.Owner" value="the &quot;north&quot; station"/>"#
    );
}

#[test]
fn args_before_annotations_and_an_annotation_of_a_property() {
    let input = around(concat!(
        r#"<signal name="S"><annotation name="n" value="v"/><arg name="" type=""/></signal>"#,
        r#"<property name="P" type="s" access="read"><annotation name="of" value="P"/></property>"#,
    ));
    let document = Document::try_from(input.as_str()).unwrap();
    let interface = document.root().interfaces().next().unwrap();
    assert_eq!(
        interface.signals().next().unwrap().to_xml(),
        r#"<signal name="S"><arg name="" type=""/><annotation name="n" value="v"/></signal>"#
    );
    let property = interface.properties().next().unwrap();
    assert_eq!(
        property.annotations().next().unwrap().to_xml(),
        r#"<annotation name="of" value="P"/>"#
    );
}

#[test]
fn to_a_writer() {
    let document = Document::parse(HINGE).unwrap();
    let hinge = document.root().interfaces().next().unwrap();
    let mut bytes = Vec::new();
    for child in hinge.children() {
        match child {
            Child::Method(method) => method.to_writer(&mut bytes).unwrap(),
            Child::Signal(signal) => signal.to_writer(&mut bytes).unwrap(),
            Child::Annotation(annotation) => annotation.to_writer(&mut bytes).unwrap(),
            Child::Property(_) => {}
        }
    }
    let expected = concat!(
        r#"<method name="Unfold"><arg name="side" type="y" direction="in"/></method>"#,
        r#"<signal name="StateChanged"><arg name="state" type="u"/></signal>"#,
    );
    assert_eq!(String::from_utf8(bytes).unwrap(), expected);
}

fn annotations<'d>(all: impl Iterator<Item = Annotation<'d>>) -> Vec<(&'d str, &'d str)> {
    all.map(|a| (a.name(), a.value())).collect()
}

type Content<'d> = (
    Option<&'d str>,
    &'d str,
    Option<introspection::ArgDirection>,
    Vec<(&'d str, &'d str)>,
);

fn args<'d>(all: impl Iterator<Item = Arg<'d>>) -> Vec<Content<'d>> {
    all.map(|a| {
        (
            a.name(),
            a.ty(),
            a.direction(),
            annotations(a.annotations()),
        )
    })
    .collect()
}

#[test]
fn what_is_written_reads_back() {
    let special = around(
        "<method name='M'><arg name='&amp;&lt;&gt;&quot;&apos;&#9;&#10;&#13; \té€😀' type='a{sv}'>\
         <annotation name='a&#x9;b' value='&#xD;&#xA;'/></arg><arg type='s' direction='out'/>\
         <annotation name='' value=''/></method><signal name='S'/><annotation name='&amp;amp;' value='\"'/>",
    );
    for input in [ANTENNA, HINGE, special.as_bytes()] {
        let document = Document::parse(input).unwrap();
        for interface in document.nodes().flat_map(|node| node.interfaces()) {
            for method in interface.methods() {
                let xml = around(&method.to_xml());
                let again = Document::try_from(xml.as_str()).unwrap();
                assert_eq!(again.warnings().len(), 0);
                let root = again.root();
                assert_eq!((root.name(), root.interfaces().count()), (None, 1));
                let interface = root.interfaces().next().unwrap();
                assert_eq!((interface.name(), interface.children().count()), ("a.b", 1));
                let other = interface.methods().next().unwrap();
                assert_eq!(other.name(), method.name());
                assert_eq!(args(other.args()), args(method.args()));
                assert_eq!(
                    annotations(other.annotations()),
                    annotations(method.annotations())
                );
                assert_eq!(other.to_xml(), method.to_xml());
            }
            for signal in interface.signals() {
                let xml = around(&signal.to_xml());
                let again = Document::try_from(xml.as_str()).unwrap();
                assert_eq!(again.warnings().len(), 0);
                let interface = again.root().interfaces().next().unwrap();
                let other = interface.signals().next().unwrap();
                assert_eq!(interface.children().count(), 1);
                assert_eq!(other.name(), signal.name());
                assert_eq!(args(other.args()), args(signal.args()));
                assert_eq!(
                    annotations(other.annotations()),
                    annotations(signal.annotations())
                );
            }
            for annotation in interface.annotations() {
                let xml = around(&annotation.to_xml());
                let again = Document::try_from(xml.as_str()).unwrap();
                let interface = again.root().interfaces().next().unwrap();
                assert_eq!(interface.annotations().next(), Some(annotation));
            }
        }
    }
}

#[test]
fn bytes_are_equal_exactly_when_content_is() {
    let document = Document::parse(ANTENNA).unwrap();
    let seen = Seen::of(&document);
    for (i, a) in seen.written.iter().enumerate() {
        for b in &seen.written[..i] {
            assert!(!a.starts_with(b.as_str()) && !b.starts_with(a.as_str()));
        }
    }
}

#[test]
fn an_item_that_grows_by_escaping() {
    let value = "&#13;".repeat(1000);
    let input = around(&format!("<annotation name='n' value='{value}'/>"));
    let document = Document::try_from(input.as_str()).unwrap();
    let interface = document.root().interfaces().next().unwrap();
    let annotation = interface.annotations().next().unwrap();
    assert_eq!(annotation.value(), "\r".repeat(1000));
    assert_eq!(
        annotation.to_xml(),
        format!("<annotation name=\"n\" value=\"{value}\"/>")
    );
}

#[test]
fn the_hinge_is_written_whole() {
    let document = Document::parse(HINGE).unwrap();
    let side = concat!(
        r#"<tp:enum name="Side" type="y"><tp:enumvalue suffix="Port" value="0"/>"#,
        r#"<tp:enumvalue suffix="Starboard" value="1"/></tp:enum>"#
    );
    let state = r#"<property name="State" type="u" tp:type="State" access="read"/>"#;
    let interface = [
        r#"<interface name="org.example.Hinge">"#,
        side,
        r#"<method name="Unfold"><arg name="side" type="y" tp:type="Side" direction="in"/></method>"#,
        r#"<signal name="StateChanged"><arg name="state" type="u" tp:type="State"/></signal>"#,
        state,
        "</interface>",
    ]
    .concat();
    let hinge = document.root().interfaces().next().unwrap();
    assert_eq!(document.to_xml(), format!("<node>{interface}</node>"));
    assert_eq!(document.root().to_xml(), document.to_xml());
    assert_eq!(hinge.to_xml(), interface);
    assert_eq!(hinge.properties().next().unwrap().to_xml(), state);
    let definition = hinge.telepathy_types().next().unwrap();
    assert_eq!(definition.to_xml(), side);
    let TypeDef::Enum(inner) = definition else {
        panic!("it is an enum")
    };
    assert_eq!(inner.to_xml(), side);
    // the four old writers keep their bytes
    let method = hinge.methods().next().unwrap();
    assert_eq!(
        method.to_xml(),
        r#"<method name="Unfold"><arg name="side" type="y" direction="in"/></method>"#
    );
}

#[test]
fn whole_trees_to_a_writer() {
    let document = Document::parse(ANTENNA).unwrap();
    let mut all = Vec::new();
    document.to_writer(&mut all).unwrap();
    assert_eq!(all, document.to_xml().into_bytes());
    for node in document.nodes() {
        let mut bytes = Vec::new();
        node.to_writer(&mut bytes).unwrap();
        let xml = String::from_utf8(bytes).unwrap();
        assert_eq!(xml, node.to_xml());
        assert_eq!(Document::try_from(xml.as_str()).unwrap().to_xml(), xml);
        for definition in node.telepathy_types() {
            let mut bytes = Vec::new();
            definition.to_writer(&mut bytes).unwrap();
            let xml = String::from_utf8(bytes).unwrap();
            assert!(node.to_xml().contains(&xml), "{xml}");
            let inner = match definition {
                TypeDef::SimpleType(inner) => inner.to_xml(),
                TypeDef::Enum(inner) => inner.to_xml(),
                TypeDef::Struct(inner) => inner.to_xml(),
                TypeDef::Mapping(inner) => inner.to_xml(),
            };
            assert_eq!(inner, xml);
        }
        for interface in node.interfaces() {
            let mut bytes = Vec::new();
            interface.to_writer(&mut bytes).unwrap();
            assert!(node.to_xml().as_bytes().ends_with(b"</node>"));
            assert_eq!(String::from_utf8(bytes).unwrap(), interface.to_xml());
            for property in interface.properties() {
                let mut bytes = Vec::new();
                property.to_writer(&mut bytes).unwrap();
                assert_eq!(String::from_utf8(bytes).unwrap(), property.to_xml());
                assert!(interface.to_xml().contains(&property.to_xml()));
            }
        }
    }
}

#[test]
fn whole_trees_read_back() {
    let special = around(
        "<tp:docstring>&amp; <!-- </tp:docstring> --> <tp:docstring>in</tp:docstring>\u{a0}</tp:docstring>\
         <annotation name='&#9;' value='\"'/><signal name='S'/><method name='M'/>",
    );
    for input in [ANTENNA, HINGE, special.as_bytes(), b"<x/>"] {
        let document = Document::parse(input).unwrap();
        let xml = document.to_xml();
        let again = Document::try_from(xml.as_str()).unwrap();
        assert_eq!(again.warnings().len(), 0);
        assert_eq!(again.to_xml(), xml);
        let (one, two) = (Seen::of(&document), Seen::of(&again));
        let sorted = |mut texts: Vec<String>| {
            texts.sort_unstable();
            texts
        };
        assert_eq!(sorted(one.written), sorted(two.written));
        let left_out = document.warnings().map(|warning| warning.element());
        let texts = |texts: Vec<&str>| sorted(texts.into_iter().map(str::to_string).collect());
        assert_eq!(
            texts(one.texts),
            texts(two.texts.into_iter().chain(left_out).collect())
        );
    }
}

#[test]
fn groups_are_put_in_order() {
    let input = concat!(
        "<node><node/><interface name='a.b'>",
        "<annotation name='n' value=''/><signal name='S'><annotation name='n' value=''/><arg type='s'/></signal>",
        "<method name='M'/><tp:simple-type name='T' type='u'/></interface>",
        "<tp:mapping name='X'><tp:member type='s' name='k'/><tp:member tp:type='T' type='u' name='v'/></tp:mapping></node>"
    );
    let document = Document::try_from(input).unwrap();
    assert_eq!(
        document.to_xml(),
        concat!(
            r#"<node><tp:mapping name="X"><tp:member name="k" type="s"/><tp:member name="v" type="u" tp:type="T"/></tp:mapping>"#,
            r#"<interface name="a.b"><tp:simple-type name="T" type="u"/>"#,
            r#"<signal name="S"><arg type="s"/><annotation name="n" value=""/></signal><method name="M"/>"#,
            r#"<annotation name="n" value=""/></interface><node/></node>"#
        )
    );
}
