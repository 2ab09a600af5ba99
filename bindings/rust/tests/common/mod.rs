//! What several tests use.
#![allow(dead_code)]

use introspection::telepathy::TypeDef;
use introspection::{Annotation, Arg, Document, Interface, Node};

pub const ANTENNA: &[u8] = include_bytes!("../../../../examples/antenna.xml");
pub const HINGE: &[u8] = include_bytes!("../../../../examples/hinge.xml");
pub const DAMAGED: &[u8] = include_bytes!("../../../../examples/damaged.xml");

/// Every text that a document lends, and every item as it is written.
#[derive(Default)]
pub struct Seen<'d> {
    pub texts: Vec<&'d str>,
    pub written: Vec<String>,
}

impl<'d> Seen<'d> {
    pub fn of(document: &'d Document<'_>) -> Self {
        let mut seen = Self::default();
        for node in document.nodes() {
            seen.node(node);
        }
        seen.texts.extend(document.warnings().map(|w| w.element()));
        seen
    }

    fn node(&mut self, node: Node<'d>) {
        self.texts.extend(node.name());
        self.texts.extend(node.docstring());
        node.telepathy_types().for_each(|ty| self.definition(ty));
        node.interfaces().for_each(|i| self.interface(i));
    }

    fn interface(&mut self, interface: Interface<'d>) {
        self.texts.push(interface.name());
        self.texts.extend(interface.docstring());
        interface
            .telepathy_types()
            .for_each(|ty| self.definition(ty));
        for method in interface.methods() {
            self.texts.push(method.name());
            self.texts.extend(method.docstring());
            self.written.push(method.to_xml());
            method.args().for_each(|arg| self.arg(arg));
            method.annotations().for_each(|a| self.annotation(a));
        }
        for signal in interface.signals() {
            self.texts.push(signal.name());
            self.texts.extend(signal.docstring());
            self.written.push(signal.to_xml());
            signal.args().for_each(|arg| self.arg(arg));
            signal.annotations().for_each(|a| self.annotation(a));
        }
        for property in interface.properties() {
            self.texts.extend([property.name(), property.ty()]);
            self.texts.extend(property.tp_type());
            self.texts.extend(property.docstring());
            property.annotations().for_each(|a| self.annotation(a));
        }
        interface.annotations().for_each(|a| self.annotation(a));
    }

    fn arg(&mut self, arg: Arg<'d>) {
        self.texts.extend(arg.name());
        self.texts.push(arg.ty());
        self.texts.extend(arg.tp_type());
        self.texts.extend(arg.docstring());
        self.written.push(arg.to_xml());
        arg.annotations().for_each(|a| self.annotation(a));
    }

    fn annotation(&mut self, annotation: Annotation<'d>) {
        self.texts.extend([annotation.name(), annotation.value()]);
        self.written.push(annotation.to_xml());
    }

    fn definition(&mut self, definition: TypeDef<'d>) {
        self.texts.push(definition.name());
        self.texts.extend(definition.docstring());
        let members: Vec<_> = match definition {
            TypeDef::SimpleType(simple) => {
                self.texts.push(simple.ty());
                vec![]
            }
            TypeDef::Enum(values) => {
                self.texts.push(values.ty());
                for value in values.values() {
                    self.texts.extend([value.suffix(), value.value()]);
                    self.texts.extend(value.docstring());
                }
                vec![]
            }
            TypeDef::Struct(fields) => fields.members().collect(),
            TypeDef::Mapping(mapping) => vec![mapping.key(), mapping.value()],
        };
        for member in members {
            self.texts.extend([member.name(), member.ty()]);
            self.texts.extend(member.tp_type());
            self.texts.extend(member.docstring());
        }
    }
}

/// A document with one item in one interface.
pub fn around(item: &str) -> String {
    format!("<node><interface name=\"a.b\">{item}</interface></node>")
}
