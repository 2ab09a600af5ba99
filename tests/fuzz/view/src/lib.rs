//! What the Rust crate sees of a document, as bytes that fuzz.c makes too from the answers of the
//! functions for C. A part is a text: `-` if it is absent, else its length, a colon and its bytes.

use std::fmt::Display;

use introspection::telepathy::{Member, TypeDef};
use introspection::{
    Annotation, Arg, ArgDirection, Child, Document, Error, Interface, Node, Property,
    PropertyAccess,
};

/// What is seen of a document: its rows in their order, then its warnings; or its refusal.
#[no_mangle]
pub unsafe extern "C" fn view_document(input: *const u8, len: usize, out: *mut usize) -> *mut u8 {
    // SAFETY: fuzz.c hands over bytes that are there, and a place for a length.
    unsafe { given(document(std::slice::from_raw_parts(input, len)), out) }
}

/// What is seen of a value that is escaped, then of one that is unescaped.
#[no_mangle]
pub unsafe extern "C" fn view_value(input: *const u8, len: usize, out: *mut usize) -> *mut u8 {
    // SAFETY: as above.
    unsafe { given(value(std::slice::from_raw_parts(input, len)), out) }
}

/// Frees what one of the two gave.
#[no_mangle]
pub unsafe extern "C" fn view_free(bytes: *mut u8, len: usize) {
    // SAFETY: it is the slice that `given` gave away.
    drop(unsafe { Box::from_raw(std::ptr::slice_from_raw_parts_mut(bytes, len)) });
}

unsafe fn given(view: Vec<u8>, out: *mut usize) -> *mut u8 {
    let view = view.into_boxed_slice();
    // SAFETY: the caller has a place for it.
    unsafe { *out = view.len() };
    Box::into_raw(view).cast()
}

fn value(input: &[u8]) -> Vec<u8> {
    let mut view = Vec::new();
    for answer in [introspection::escape(input), introspection::unescape(input)] {
        match answer {
            Ok(text) => put(&mut view, "accepted", &[Some(&text)]),
            Err(error) => refusal(&mut view, &error, false),
        }
    }
    view
}

fn document(input: &[u8]) -> Vec<u8> {
    let mut view = Vec::new();
    let document = match Document::parse(input) {
        Ok(document) => document,
        Err(error) => {
            refusal(&mut view, &error, true);
            return view;
        }
    };
    let mut rows = Rows(vec![None; document.table().len() / 16]);
    rows.node(document.root(), 0);
    for row in rows.0 {
        view.extend(row.expect("each row is seen"));
    }
    for warning in document.warnings() {
        let head = format!("warning {} {}", warning.number(), warning.position());
        put(
            &mut view,
            &head,
            &[Some(warning.element()), Some(&warning.message())],
        );
    }
    view
}

fn refusal(view: &mut Vec<u8>, error: &Error, message: bool) {
    let head = format!("refused {} {}", error.number(), error.position());
    let message = message.then(|| error.message());
    put(view, &head, &[message]);
}

/// A line: some words, then parts.
fn put(view: &mut Vec<u8>, head: &str, parts: &[Option<&str>]) {
    view.extend(head.as_bytes());
    for part in parts {
        match part {
            None => view.extend(b" -"),
            Some(text) => {
                view.extend(format!(" {}:", text.len()).as_bytes());
                view.extend(text.as_bytes());
            }
        }
    }
    view.push(b'\n');
}

/// The line of each row.
struct Rows(Vec<Option<Vec<u8>>>);

/// What a row has besides its number, its parent and its place.
#[derive(Default)]
struct Seen<'d> {
    kind: u32,
    choice: u32,
    name: Option<&'d str>,
    value: Option<&'d str>,
    tp_type: Option<&'d str>,
    docstring: Option<&'d str>,
    xml: Option<String>,
}

impl Rows {
    fn put(&mut self, row: usize, parent: impl Display, position: usize, seen: Seen<'_>) {
        let mut line = Vec::new();
        let head = format!("{row} {} {parent} {} {position}", seen.kind, seen.choice);
        let parts = [
            seen.name,
            seen.value,
            seen.tp_type,
            seen.docstring,
            seen.xml.as_deref(),
        ];
        put(&mut line, &head, &parts);
        let before = self.0[row].replace(line);
        assert!(before.is_none(), "row {row} is seen twice");
    }

    fn node(&mut self, node: Node<'_>, parent: usize) {
        let seen = Seen {
            kind: 1,
            name: node.name(),
            docstring: node.docstring(),
            ..Seen::default()
        };
        let own = node.row() + 1;
        self.put(node.row(), parent, node.position(), seen);
        node.telepathy_types()
            .for_each(|ty| self.definition(ty, own));
        node.interfaces()
            .for_each(|inner| self.interface(inner, own));
        node.nodes().for_each(|inner| self.node(inner, own));
    }

    fn interface(&mut self, interface: Interface<'_>, parent: usize) {
        let seen = Seen {
            kind: 2,
            name: Some(interface.name()),
            docstring: interface.docstring(),
            ..Seen::default()
        };
        let own = interface.row() + 1;
        self.put(interface.row(), parent, interface.position(), seen);
        interface
            .telepathy_types()
            .for_each(|ty| self.definition(ty, own));
        interface
            .children()
            .for_each(|child| self.child(child, own));
    }

    fn child(&mut self, child: Child<'_>, parent: usize) {
        match child {
            Child::Method(method) => {
                let seen = Seen {
                    kind: 3,
                    name: Some(method.name()),
                    docstring: method.docstring(),
                    xml: Some(method.to_xml()),
                    ..Seen::default()
                };
                let own = method.row() + 1;
                self.put(method.row(), parent, method.position(), seen);
                method.args().for_each(|arg| self.arg(arg, own));
                self.annotations(method.annotations(), own);
            }
            Child::Signal(signal) => {
                let seen = Seen {
                    kind: 5,
                    name: Some(signal.name()),
                    docstring: signal.docstring(),
                    xml: Some(signal.to_xml()),
                    ..Seen::default()
                };
                let own = signal.row() + 1;
                self.put(signal.row(), parent, signal.position(), seen);
                signal.args().for_each(|arg| self.arg(arg, own));
                self.annotations(signal.annotations(), own);
            }
            Child::Property(property) => self.property(property, parent),
            Child::Annotation(annotation) => self.annotations([annotation].into_iter(), parent),
        }
    }

    fn property(&mut self, property: Property<'_>, parent: usize) {
        let seen = Seen {
            kind: 4,
            choice: match property.access() {
                PropertyAccess::Read => 1,
                PropertyAccess::Write => 2,
                PropertyAccess::ReadWrite => 3,
            },
            name: Some(property.name()),
            value: Some(property.ty()),
            tp_type: property.tp_type(),
            docstring: property.docstring(),
            xml: None,
        };
        self.put(property.row(), parent, property.position(), seen);
        self.annotations(property.annotations(), property.row() + 1);
    }

    fn arg(&mut self, arg: Arg<'_>, parent: usize) {
        let seen = Seen {
            kind: 7,
            choice: match arg.direction() {
                None => 0,
                Some(ArgDirection::In) => 1,
                Some(ArgDirection::Out) => 2,
            },
            name: arg.name(),
            value: Some(arg.ty()),
            tp_type: arg.tp_type(),
            docstring: arg.docstring(),
            xml: Some(arg.to_xml()),
        };
        self.put(arg.row(), parent, arg.position(), seen);
        self.annotations(arg.annotations(), arg.row() + 1);
    }

    fn annotations<'d>(&mut self, all: impl Iterator<Item = Annotation<'d>>, parent: usize) {
        for annotation in all {
            let seen = Seen {
                kind: 6,
                name: Some(annotation.name()),
                value: Some(annotation.value()),
                xml: Some(annotation.to_xml()),
                ..Seen::default()
            };
            self.put(annotation.row(), parent, annotation.position(), seen);
        }
    }

    fn definition(&mut self, definition: TypeDef<'_>, parent: usize) {
        let (row, kind, value) = match definition {
            TypeDef::SimpleType(simple) => (simple.row(), 8, Some(simple.ty())),
            TypeDef::Enum(values) => (values.row(), 9, Some(values.ty())),
            TypeDef::Struct(members) => (members.row(), 11, None),
            TypeDef::Mapping(members) => (members.row(), 13, None),
        };
        let seen = Seen {
            kind,
            name: Some(definition.name()),
            value,
            docstring: definition.docstring(),
            ..Seen::default()
        };
        self.put(row, parent, definition.position(), seen);
        match definition {
            TypeDef::SimpleType(_) => {}
            TypeDef::Enum(definition) => {
                for value in definition.values() {
                    let seen = Seen {
                        kind: 10,
                        name: Some(value.suffix()),
                        value: Some(value.value()),
                        docstring: value.docstring(),
                        ..Seen::default()
                    };
                    self.put(value.row(), row + 1, value.position(), seen);
                }
            }
            TypeDef::Struct(members) => self.members(members.members(), row + 1),
            TypeDef::Mapping(members) => {
                self.members([members.key(), members.value()].into_iter(), row + 1)
            }
        }
    }

    fn members<'d>(&mut self, members: impl Iterator<Item = Member<'d>>, parent: usize) {
        for member in members {
            let seen = Seen {
                kind: 12,
                name: Some(member.name()),
                value: Some(member.ty()),
                tp_type: member.tp_type(),
                docstring: member.docstring(),
                ..Seen::default()
            };
            self.put(member.row(), parent, member.position(), seen);
        }
    }
}
