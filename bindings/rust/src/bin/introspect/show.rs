//! `introspect show`: the tree of a document, then what was left out of it.

use std::io::{self, Write};

use introspection::telepathy::{Enum, Member, TypeDef};
use introspection::{
    Annotation, Arg, ArgDirection, Child, Document, Interface, Lines, Node, Property,
    PropertyAccess,
};

use crate::check::Report;
use crate::input::Input;
use crate::paint::{plain, word, Paint};
use crate::Status;

pub fn run(
    inputs: &[Input],
    places: bool,
    paint: Paint,
    output: &mut impl Write,
) -> io::Result<Status> {
    let mut worst = Status::Read;
    let mut between = "";
    for input in inputs {
        // what goes to standard error comes after what went before it to standard output
        output.flush()?;
        let bytes = match input.read() {
            Ok(bytes) => bytes,
            Err(status) => {
                worst = worst.max(status);
                continue;
            }
        };
        if inputs.len() > 1 {
            writeln!(output, "{between}{}", paint.strong(input.name() + ":"))?;
            between = "\n";
        }
        worst = worst.max(shown(&bytes, input.name(), places, paint, output)?);
    }
    Ok(worst)
}

fn shown(
    bytes: &[u8],
    name: String,
    places: bool,
    paint: Paint,
    output: &mut impl Write,
) -> io::Result<Status> {
    let document = match Document::parse(bytes) {
        Ok(document) => document,
        Err(error) => {
            output.flush()?;
            let paint = Paint::of(&io::stderr());
            // if it cannot be written there is nobody to tell
            let _ = Report::new(name, bytes, paint).error(&error, &mut io::stderr());
            return Ok(Status::Refused);
        }
    };
    let report = Report::new(name, document.text().as_bytes(), paint);
    let mut tree = Tree {
        output,
        lines: places.then(|| report.lines()),
        paint,
    };
    tree.node(document.root(), 0)?;
    report.root(&document, output)?;
    report.warnings(&document, false, output)?;
    Ok(Status::Read)
}

/// Deeper levels are not indented further, so that what is shown grows with the document alone.
const DEEPEST: usize = 32;

/// One line of the tree, and the first line of its docstring.
#[derive(Default)]
struct Line<'d> {
    position: usize,
    kind: &'static str,
    signature: Option<&'d str>,
    name: Option<&'d str>,
    value: Option<&'d str>,
    access: Option<&'static str>,
    tp_type: Option<&'d str>,
    docstring: Option<&'d str>,
}

struct Tree<'o, 'l, W> {
    output: &'o mut W,
    lines: Option<&'l Lines<'l>>,
    paint: Paint,
}

impl<W: Write> Tree<'_, '_, W> {
    fn node(&mut self, node: Node<'_>, depth: usize) -> io::Result<()> {
        let line = Line {
            position: node.position(),
            kind: "node",
            name: node.name(),
            docstring: node.docstring(),
            ..Line::default()
        };
        self.line(depth, line)?;
        for definition in node.telepathy_types() {
            self.definition(definition, depth + 1)?;
        }
        for interface in node.interfaces() {
            self.interface(interface, depth + 1)?;
        }
        for node in node.nodes() {
            self.node(node, depth + 1)?;
        }
        Ok(())
    }

    fn interface(&mut self, interface: Interface<'_>, depth: usize) -> io::Result<()> {
        let line = Line {
            position: interface.position(),
            kind: "interface",
            name: Some(interface.name()),
            docstring: interface.docstring(),
            ..Line::default()
        };
        self.line(depth, line)?;
        for definition in interface.telepathy_types() {
            self.definition(definition, depth + 1)?;
        }
        for child in interface.children() {
            self.child(child, depth + 1)?;
        }
        Ok(())
    }

    fn child(&mut self, child: Child<'_>, depth: usize) -> io::Result<()> {
        match child {
            Child::Method(method) => {
                let line = Line {
                    position: method.position(),
                    kind: "method",
                    name: Some(method.name()),
                    docstring: method.docstring(),
                    ..Line::default()
                };
                self.line(depth, line)?;
                self.args(method.args(), depth + 1)?;
                self.annotations(method.annotations(), depth + 1)
            }
            Child::Signal(signal) => {
                let line = Line {
                    position: signal.position(),
                    kind: "signal",
                    name: Some(signal.name()),
                    docstring: signal.docstring(),
                    ..Line::default()
                };
                self.line(depth, line)?;
                self.args(signal.args(), depth + 1)?;
                self.annotations(signal.annotations(), depth + 1)
            }
            Child::Property(property) => self.property(property, depth),
            Child::Annotation(annotation) => self.annotations([annotation].into_iter(), depth),
        }
    }

    fn property(&mut self, property: Property<'_>, depth: usize) -> io::Result<()> {
        let access = match property.access() {
            PropertyAccess::Read => "read",
            PropertyAccess::Write => "write",
            PropertyAccess::ReadWrite => "readwrite",
        };
        let line = Line {
            position: property.position(),
            kind: "property",
            signature: Some(property.ty()),
            name: Some(property.name()),
            access: Some(access),
            tp_type: property.tp_type(),
            docstring: property.docstring(),
            ..Line::default()
        };
        self.line(depth, line)?;
        self.annotations(property.annotations(), depth + 1)
    }

    fn args<'d>(&mut self, args: impl Iterator<Item = Arg<'d>>, depth: usize) -> io::Result<()> {
        for arg in args {
            let line = Line {
                position: arg.position(),
                kind: match arg.direction() {
                    Some(ArgDirection::In) => "in",
                    Some(ArgDirection::Out) => "out",
                    None => "arg",
                },
                signature: Some(arg.ty()),
                name: arg.name(),
                tp_type: arg.tp_type(),
                docstring: arg.docstring(),
                ..Line::default()
            };
            self.line(depth, line)?;
            self.annotations(arg.annotations(), depth + 1)?;
        }
        Ok(())
    }

    fn annotations<'d>(
        &mut self,
        annotations: impl Iterator<Item = Annotation<'d>>,
        depth: usize,
    ) -> io::Result<()> {
        for annotation in annotations {
            let line = Line {
                position: annotation.position(),
                kind: "annotation",
                name: Some(annotation.name()),
                value: Some(annotation.value()),
                ..Line::default()
            };
            self.line(depth, line)?;
        }
        Ok(())
    }

    fn definition(&mut self, definition: TypeDef<'_>, depth: usize) -> io::Result<()> {
        let signature = definition.signature();
        let line = Line {
            position: definition.position(),
            kind: match definition {
                TypeDef::SimpleType(_) => "simple-type",
                TypeDef::Enum(_) => "enum",
                TypeDef::Struct(_) => "struct",
                TypeDef::Mapping(_) => "mapping",
            },
            signature: Some(&signature),
            name: Some(definition.name()),
            docstring: definition.docstring(),
            ..Line::default()
        };
        self.line(depth, line)?;
        match definition {
            TypeDef::SimpleType(_) => Ok(()),
            TypeDef::Enum(definition) => self.values(definition, depth + 1),
            TypeDef::Struct(definition) => self.members(definition.members(), depth + 1),
            TypeDef::Mapping(definition) => self.members(definition.members(), depth + 1),
        }
    }

    fn values(&mut self, definition: Enum<'_>, depth: usize) -> io::Result<()> {
        for value in definition.values() {
            let line = Line {
                position: value.position(),
                kind: "value",
                name: Some(value.suffix()),
                value: Some(value.value()),
                docstring: value.docstring(),
                ..Line::default()
            };
            self.line(depth, line)?;
        }
        Ok(())
    }

    fn members<'d>(
        &mut self,
        members: impl Iterator<Item = Member<'d>>,
        depth: usize,
    ) -> io::Result<()> {
        for member in members {
            let line = Line {
                position: member.position(),
                kind: "member",
                signature: Some(member.ty()),
                name: Some(member.name()),
                tp_type: member.tp_type(),
                docstring: member.docstring(),
                ..Line::default()
            };
            self.line(depth, line)?;
        }
        Ok(())
    }

    fn line(&mut self, depth: usize, line: Line<'_>) -> io::Result<()> {
        let paint = self.paint;
        self.begin(depth, Some(line.position))?;
        write!(self.output, "{}", line.kind)?;
        if let Some(signature) = line.signature {
            write!(self.output, " {}", word(signature))?;
        }
        if let Some(name) = line.name {
            write!(self.output, " {}", paint.strong(word(name)))?;
        }
        if let Some(value) = line.value {
            write!(self.output, " = {}", word(value))?;
        }
        if let Some(access) = line.access {
            write!(self.output, ", {access}")?;
        }
        if let Some(tp_type) = line.tp_type {
            write!(self.output, ", tp:type {}", word(tp_type))?;
        }
        writeln!(self.output)?;
        match line.docstring {
            Some(docstring) => self.docstring(depth + 1, docstring),
            None => Ok(()),
        }
    }

    /// The first line of a docstring, and a mark if there is more.
    fn docstring(&mut self, depth: usize, docstring: &str) -> io::Result<()> {
        let (first, more) = match docstring.split_once(['\n', '\r']) {
            Some((first, _)) => (first.trim_end(), " .."),
            None => (docstring, ""),
        };
        self.begin(depth, None)?;
        let shown = format!("# {}{more}", plain(first));
        writeln!(self.output, "{}", self.paint.faint(shown))
    }

    /// What stands before a line: its place if that was asked for, and its indent.
    fn begin(&mut self, depth: usize, position: Option<usize>) -> io::Result<()> {
        if let Some(lines) = self.lines {
            let place = position.map(|position| {
                let (line, column) = lines.line_column(position);
                format!("{line}:{column}")
            });
            write!(self.output, "{:>8}  ", place.unwrap_or_default())?;
        }
        write!(self.output, "{:1$}", "", 2 * depth.min(DEEPEST))
    }
}
