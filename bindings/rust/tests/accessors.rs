//! Each accessor, on the antenna's file.

use introspection::telepathy::TypeDef;
use introspection::{Annotation, ArgDirection, Child, Document, Interface, PropertyAccess};

const ANTENNA: &[u8] = include_bytes!("../../../examples/antenna.xml");

fn antenna() -> Document<'static> {
    let document = Document::parse(ANTENNA).unwrap();
    assert_eq!(document.warnings().len(), 0);
    document
}

fn interface<'d>(document: &'d Document<'_>) -> Interface<'d> {
    document.root().interfaces().next().unwrap()
}

fn pair(annotation: Annotation<'_>) -> (&str, &str) {
    (annotation.name(), annotation.value())
}

#[test]
fn nodes() {
    let document = antenna();
    let root = document.root();
    assert_eq!(root.name(), Some("/ground/antenna"));
    assert_eq!(
        root.docstring(),
        Some("The status of one dish. <em>Angles are in degrees</em>, times in seconds.")
    );
    let names: Vec<_> = root.nodes().map(|node| node.name()).collect();
    assert_eq!(names, [Some("feed"), Some("drive")]);
    let names: Vec<_> = document.nodes().map(|node| node.name()).collect();
    assert_eq!(
        names,
        [Some("/ground/antenna"), Some("feed"), Some("drive")]
    );

    let feed = root.nodes().next().unwrap();
    assert_eq!(feed.docstring(), None);
    assert_eq!(feed.interfaces().next().unwrap().name(), "org.example.Feed");
    let drive = root.nodes().nth(1).unwrap();
    assert_eq!(drive.interfaces().count(), 0);
    assert_eq!(drive.nodes().count(), 0);
    assert_eq!(drive.telepathy_types().count(), 0);
}

#[test]
fn interfaces() {
    let document = antenna();
    let names: Vec<_> = document.root().interfaces().map(|i| i.name()).collect();
    assert_eq!(names, ["org.example.Antenna", "org.example.Heater"]);

    let antenna = interface(&document);
    assert_eq!(antenna.docstring(), Some("Pointing."));
    let annotations: Vec<_> = antenna.annotations().map(pair).collect();
    assert_eq!(
        annotations,
        [("org.example.Owner", "the \"north\" station")]
    );
    let children: Vec<_> = antenna
        .children()
        .map(|child| match child {
            Child::Method(method) => ("method", method.name()),
            Child::Property(property) => ("property", property.name()),
            Child::Signal(signal) => ("signal", signal.name()),
            Child::Annotation(annotation) => ("annotation", annotation.name()),
        })
        .collect();
    assert_eq!(
        children,
        [
            ("method", "Point"),
            ("method", "Park"),
            ("method", "Sensors"),
            ("signal", "Moved"),
            ("property", "Mode"),
            ("property", "Label"),
            ("property", "Passphrase"),
            ("annotation", "org.example.Owner"),
        ]
    );
    let heater = document.root().interfaces().nth(1).unwrap();
    assert_eq!(heater.docstring(), None);
    assert_eq!(heater.methods().count(), 0);
    assert_eq!(heater.signals().count(), 0);
    assert_eq!(heater.annotations().count(), 0);
    assert_eq!(heater.telepathy_types().count(), 0);
}

#[test]
fn methods_and_args() {
    let document = antenna();
    let methods: Vec<_> = interface(&document).methods().collect();
    assert_eq!(methods.len(), 3);

    let point = methods[0];
    assert_eq!(point.name(), "Point");
    assert_eq!(
        point.docstring(),
        Some("Turns the dish; answers with the seconds that it will take.")
    );
    let annotations: Vec<_> = point.annotations().map(pair).collect();
    assert_eq!(
        annotations,
        [("org.example.Precondition", "elevation > 5 & wind < 20")]
    );
    let args: Vec<_> = point.args().collect();
    assert_eq!(args.len(), 2);
    assert_eq!(args[0].name(), Some("direction"));
    assert_eq!(args[0].ty(), "(dd)");
    assert_eq!(args[0].direction(), Some(ArgDirection::In));
    assert_eq!(args[0].tp_type(), Some("Direction"));
    assert_eq!(args[0].docstring(), Some("Where to."));
    let annotations: Vec<_> = args[0].annotations().map(pair).collect();
    assert_eq!(annotations, [("org.example.Unit", "degree")]);
    assert_eq!(args[1].name(), Some("seconds"));
    assert_eq!(args[1].direction(), Some(ArgDirection::Out));
    assert_eq!(args[1].tp_type(), None);
    assert_eq!(args[1].docstring(), None);
    assert_eq!(args[1].annotations().count(), 0);

    assert_eq!(methods[1].name(), "Park");
    assert_eq!(methods[1].args().count(), 0);
    assert_eq!(methods[1].annotations().count(), 0);
    assert_eq!(methods[1].docstring(), None);
    let sensors = methods[2].args().next().unwrap();
    assert_eq!(sensors.name(), None);
    assert_eq!(sensors.ty(), "a{sv}");
}

#[test]
fn signals() {
    let document = antenna();
    let moved = interface(&document).signals().next().unwrap();
    assert_eq!(moved.name(), "Moved");
    assert_eq!(
        moved.docstring(),
        Some("Sent once a second while the dish moves.")
    );
    let arg = moved.args().next().unwrap();
    assert_eq!(arg.direction(), None);
    assert_eq!(arg.tp_type(), Some("Direction"));
    let annotations: Vec<_> = moved.annotations().map(pair).collect();
    assert_eq!(annotations, [("org.example.Rate", "1 Hz")]);
}

#[test]
fn properties() {
    let document = antenna();
    let properties: Vec<_> = interface(&document).properties().collect();
    let access: Vec<_> = properties.iter().map(|p| p.access()).collect();
    assert_eq!(
        access,
        [
            PropertyAccess::Read,
            PropertyAccess::ReadWrite,
            PropertyAccess::Write
        ]
    );
    let can: Vec<_> = access.iter().map(|a| (a.read(), a.write())).collect();
    assert_eq!(can, [(true, false), (true, true), (false, true)]);

    let mode = properties[0];
    assert_eq!(mode.name(), "Mode");
    assert_eq!(mode.ty(), "u");
    assert_eq!(mode.tp_type(), Some("Mode"));
    assert_eq!(mode.docstring(), Some("What it is doing now."));
    let annotations: Vec<_> = mode.annotations().map(pair).collect();
    assert_eq!(
        annotations,
        [("org.freedesktop.DBus.Property.EmitsChangedSignal", "true")]
    );
    assert_eq!(properties[1].tp_type(), None);
    assert_eq!(properties[1].docstring(), None);
    assert_eq!(properties[1].annotations().count(), 0);
}

#[test]
fn type_definitions() {
    let document = antenna();
    let types: Vec<_> = document.root().telepathy_types().collect();
    let names: Vec<_> = types.iter().map(|ty| ty.name()).collect();
    assert_eq!(names, ["Degrees", "Mode", "Direction"]);
    let docstrings: Vec<_> = types.iter().map(|ty| ty.docstring().unwrap()).collect();
    assert_eq!(
        docstrings,
        [
            "An angle, 0 to 360.",
            "What the dish is doing.",
            "Where the dish points."
        ]
    );
    let [TypeDef::SimpleType(degrees), TypeDef::Enum(mode), TypeDef::Struct(direction)] = types[..]
    else {
        panic!("{types:?}")
    };

    assert_eq!(degrees.name(), "Degrees");
    assert_eq!(degrees.ty(), "d");
    assert_eq!(degrees.docstring(), Some("An angle, 0 to 360."));

    assert_eq!(mode.name(), "Mode");
    assert_eq!(mode.ty(), "u");
    assert_eq!(mode.docstring(), Some("What the dish is doing."));
    let values: Vec<_> = mode
        .values()
        .map(|v| (v.suffix(), v.value(), v.docstring()))
        .collect();
    assert_eq!(
        values,
        [
            ("Parked", "0", Some("Pointing at the zenith, brakes on.")),
            ("Slewing", "1", None),
            ("Tracking", "2", None),
        ]
    );

    assert_eq!(direction.name(), "Direction");
    assert_eq!(direction.docstring(), Some("Where the dish points."));
    let members: Vec<_> = direction
        .members()
        .map(|m| (m.name(), m.ty(), m.tp_type(), m.docstring()))
        .collect();
    assert_eq!(
        members,
        [
            ("Azimuth", "d", Some("Degrees"), None),
            ("Elevation", "d", Some("Degrees"), Some("0 is the horizon.")),
        ]
    );
}

#[test]
fn mappings() {
    let document = antenna();
    let types: Vec<_> = interface(&document).telepathy_types().collect();
    let [TypeDef::Mapping(readings)] = types[..] else {
        panic!("{types:?}")
    };
    assert_eq!(readings.name(), "Readings");
    assert_eq!(readings.docstring(), Some("Sensor name to last reading."));
    assert_eq!(
        (readings.key().name(), readings.key().ty()),
        ("Sensor", "s")
    );
    assert_eq!(
        (readings.value().name(), readings.value().ty()),
        ("Reading", "v")
    );
    assert_eq!(readings.members().count(), 2);
}

#[test]
fn positions() {
    let document = antenna();
    let begins = |position: usize, tag: &str| {
        let text = std::str::from_utf8(&ANTENNA[position..]).unwrap();
        assert!(text.starts_with(tag), "{tag} at {position}");
    };
    begins(document.root().position(), "<node name=\"/ground/antenna\"");
    begins(
        document.root().nodes().next().unwrap().position(),
        "<node name=\"feed\"",
    );
    let antenna = interface(&document);
    begins(
        antenna.position(),
        "<interface name=\"org.example.Antenna\"",
    );
    for method in antenna.methods() {
        begins(
            method.position(),
            &format!("<method name=\"{}\"", method.name()),
        );
        for arg in method.args() {
            begins(arg.position(), "<arg ");
            assert!(arg.position() > method.position());
        }
    }
    let moved = antenna.signals().next().unwrap();
    begins(moved.position(), "<signal name=\"Moved\"");
    let mode = antenna.properties().next().unwrap();
    begins(mode.position(), "<property name=\"Mode\"");
    let owner = antenna.annotations().next().unwrap();
    begins(owner.position(), "<annotation name=\"org.example.Owner\"");

    let types: Vec<_> = document.root().telepathy_types().collect();
    let [TypeDef::SimpleType(degrees), TypeDef::Enum(mode), TypeDef::Struct(direction)] = types[..]
    else {
        panic!("{types:?}")
    };
    begins(degrees.position(), "<tp:simple-type name=\"Degrees\"");
    begins(mode.position(), "<tp:enum name=\"Mode\"");
    begins(direction.position(), "<tp:struct name=\"Direction\"");
    let positions: Vec<_> = types.iter().map(|ty| ty.position()).collect();
    assert_eq!(
        positions,
        [degrees.position(), mode.position(), direction.position()]
    );
    let parked = mode.values().next().unwrap();
    begins(parked.position(), "<tp:enumvalue suffix=\"Parked\"");
    let azimuth = direction.members().next().unwrap();
    begins(azimuth.position(), "<tp:member name=\"Azimuth\"");
    let Some(TypeDef::Mapping(readings)) = antenna.telepathy_types().next() else {
        panic!("no mapping")
    };
    begins(readings.position(), "<tp:mapping name=\"Readings\"");
    begins(readings.key().position(), "<tp:member name=\"Sensor\"");
}

#[test]
fn content_is_compared() {
    let document = antenna();
    let text = std::str::from_utf8(ANTENNA).unwrap();
    let moved = text.replacen("<node", "<!-- moved -->\n<node", 1);
    let other = Document::try_from(moved.as_str()).unwrap();
    assert_eq!(document, other);
    assert_eq!(document.root(), other.root());
    assert_ne!(document.root().position(), other.root().position());
    assert_eq!(interface(&document), interface(&other));

    for (from, to) in [
        ("Where to.", "Whence."),
        ("direction=\"in\"", "direction=\"out\""),
        ("<method name=\"Park\"/>", ""),
        ("\"Slewing\"", "\"Moving\""),
        (" name=\"seconds\"", ""),
        ("tp:type=\"Mode\"", ""),
    ] {
        let changed = text.replacen(from, to, 1);
        assert_ne!(changed, text);
        let other = Document::try_from(changed.as_str()).unwrap();
        assert_ne!(document, other, "{from}");
    }

    // the same rows, another tree
    let flat = Document::parse(b"<node><node/><node/></node>").unwrap();
    let deep = Document::parse(b"<node><node><node/></node></node>").unwrap();
    assert_ne!(flat, deep);
}

#[test]
fn views_outlive_the_iterators_and_can_be_kept() {
    let document = antenna();
    let longest = {
        let root = document.root();
        let names = root
            .interfaces()
            .flat_map(|i| i.methods())
            .map(|m| m.name());
        names.max_by_key(|name| name.len())
    };
    assert_eq!(longest, Some("Sensors"));
    let point = interface(&document).methods().next().unwrap();
    let copy = point;
    assert_eq!(point, copy);
    assert_eq!(format!("{point:?}"), "Method { row: 13, name: \"Point\" }");
    assert_eq!(
        format!("{document:?}"),
        "Document { bytes: 3071, rows: 36, text: 44, warnings: 0 }"
    );
}

#[test]
fn it_is_shared_between_threads() {
    let document = antenna();
    std::thread::scope(|scope| {
        for _ in 0..4 {
            scope.spawn(|| assert_eq!(interface(&document).methods().count(), 3));
        }
    });
}
