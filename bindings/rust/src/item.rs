//! Nodes, interfaces and what stands in them.

use crate::row::{kind, view, word, Row};
use crate::telepathy::{self, TypeDef};

view! {
    /// A node: the root of the document, or one below it.
    Node, name
}

impl<'d> Node<'d> {
    /// The name, if any.
    pub fn name(&self) -> Option<&'d str> {
        self.0.shown(word::NAME)
    }

    /// The nodes in this one.
    pub fn nodes(&self) -> impl ExactSizeIterator<Item = Node<'d>> + Clone + 'd {
        self.0.held(kind::NODE, Node)
    }

    /// The interfaces of this node.
    pub fn interfaces(&self) -> impl ExactSizeIterator<Item = Interface<'d>> + Clone + 'd {
        self.0.held(kind::INTERFACE, Interface)
    }

    /// The type definitions on this node.
    pub fn telepathy_types(&self) -> impl ExactSizeIterator<Item = TypeDef<'d>> + Clone + 'd {
        telepathy::types(self.0)
    }

    /// The raw content of its docstring, trimmed, if any.
    pub fn docstring(&self) -> Option<&'d str> {
        self.0.docstring()
    }
}

view! {
    /// An interface.
    Interface, name
}

impl<'d> Interface<'d> {
    /// The name, a valid interface name.
    pub fn name(&self) -> &'d str {
        self.0.required(word::NAME)
    }

    /// Methods, properties, signals and annotations, in document order.
    ///
    /// ```
    /// use introspection::{Child, Document};
    ///
    /// let document = Document::parse(
    ///     b"<node><interface name='a.b'><signal name='S'/><method name='M'/></interface></node>",
    /// )?;
    /// let interface = document.root().interfaces().next().unwrap();
    /// let names: Vec<_> = interface
    ///     .children()
    ///     .map(|child| match child {
    ///         Child::Method(method) => method.name(),
    ///         Child::Property(property) => property.name(),
    ///         Child::Signal(signal) => signal.name(),
    ///         Child::Annotation(annotation) => annotation.name(),
    ///     })
    ///     .collect();
    /// assert_eq!(names, ["S", "M"]);
    /// # Ok::<(), introspection::Error>(())
    /// ```
    pub fn children(&self) -> impl ExactSizeIterator<Item = Child<'d>> + Clone + 'd {
        self.0.held_as(Child::of)
    }

    /// The methods.
    pub fn methods(&self) -> impl ExactSizeIterator<Item = Method<'d>> + Clone + 'd {
        self.0.held(kind::METHOD, Method)
    }

    /// The signals.
    pub fn signals(&self) -> impl ExactSizeIterator<Item = Signal<'d>> + Clone + 'd {
        self.0.held(kind::SIGNAL, Signal)
    }

    /// The properties.
    pub fn properties(&self) -> impl ExactSizeIterator<Item = Property<'d>> + Clone + 'd {
        self.0.held(kind::PROPERTY, Property)
    }

    /// The annotations on the interface itself.
    pub fn annotations(&self) -> impl ExactSizeIterator<Item = Annotation<'d>> + Clone + 'd {
        self.0.held(kind::ANNOTATION, Annotation)
    }

    /// The type definitions on this interface.
    pub fn telepathy_types(&self) -> impl ExactSizeIterator<Item = TypeDef<'d>> + Clone + 'd {
        telepathy::types(self.0)
    }

    /// The raw content of its docstring, trimmed, if any.
    pub fn docstring(&self) -> Option<&'d str> {
        self.0.docstring()
    }
}

/// What stands in an interface, but for type definitions.
#[derive(Clone, Copy, Debug, PartialEq, Eq)]
pub enum Child<'d> {
    /// A method.
    Method(Method<'d>),
    /// A property.
    Property(Property<'d>),
    /// A signal.
    Signal(Signal<'d>),
    /// An annotation.
    Annotation(Annotation<'d>),
}

impl<'d> Child<'d> {
    fn of(row: Row<'d>) -> Option<Self> {
        match row.kind() {
            kind::METHOD => Some(Child::Method(Method(row))),
            kind::PROPERTY => Some(Child::Property(Property(row))),
            kind::SIGNAL => Some(Child::Signal(Signal(row))),
            kind::ANNOTATION => Some(Child::Annotation(Annotation(row))),
            _ => None,
        }
    }
}

view! {
    /// A method.
    Method, name
}

impl<'d> Method<'d> {
    /// The name, a valid member name.
    pub fn name(&self) -> &'d str {
        self.0.required(word::NAME)
    }

    /// The arguments.
    pub fn args(&self) -> impl ExactSizeIterator<Item = Arg<'d>> + Clone + 'd {
        self.0.held(kind::ARG, Arg)
    }

    /// The annotations on the method itself.
    pub fn annotations(&self) -> impl ExactSizeIterator<Item = Annotation<'d>> + Clone + 'd {
        self.0.held(kind::ANNOTATION, Annotation)
    }

    /// The raw content of its docstring, trimmed, if any.
    pub fn docstring(&self) -> Option<&'d str> {
        self.0.docstring()
    }
}

view! {
    /// A signal.
    Signal, name
}

impl<'d> Signal<'d> {
    /// The name, a valid member name.
    pub fn name(&self) -> &'d str {
        self.0.required(word::NAME)
    }

    /// The arguments.
    pub fn args(&self) -> impl ExactSizeIterator<Item = Arg<'d>> + Clone + 'd {
        self.0.held(kind::ARG, Arg)
    }

    /// The annotations on the signal itself.
    pub fn annotations(&self) -> impl ExactSizeIterator<Item = Annotation<'d>> + Clone + 'd {
        self.0.held(kind::ANNOTATION, Annotation)
    }

    /// The raw content of its docstring, trimmed, if any.
    pub fn docstring(&self) -> Option<&'d str> {
        self.0.docstring()
    }
}

/// What may be done with a property.
#[derive(Clone, Copy, Debug, PartialEq, Eq, Hash)]
pub enum PropertyAccess {
    /// `read`
    Read,
    /// `write`
    Write,
    /// `readwrite`
    ReadWrite,
}

impl PropertyAccess {
    /// Whether it may be read.
    pub fn read(&self) -> bool {
        matches!(self, PropertyAccess::Read | PropertyAccess::ReadWrite)
    }

    /// Whether it may be written.
    pub fn write(&self) -> bool {
        matches!(self, PropertyAccess::Write | PropertyAccess::ReadWrite)
    }
}

view! {
    /// A property.
    Property, name
}

impl<'d> Property<'d> {
    /// The name, a valid property name.
    pub fn name(&self) -> &'d str {
        self.0.required(word::NAME)
    }

    /// The type: a valid signature, as the document has it.
    pub fn ty(&self) -> &'d str {
        self.0.required(word::VALUE)
    }

    /// What may be done with it.
    pub fn access(&self) -> PropertyAccess {
        match self.0.choice() {
            1 => PropertyAccess::Read,
            2 => PropertyAccess::Write,
            _ => PropertyAccess::ReadWrite,
        }
    }

    /// The annotations.
    pub fn annotations(&self) -> impl ExactSizeIterator<Item = Annotation<'d>> + Clone + 'd {
        self.0.held(kind::ANNOTATION, Annotation)
    }

    /// The type that it names in its `tp:type` attribute, if any.
    pub fn tp_type(&self) -> Option<&'d str> {
        self.0.shown(word::TP_TYPE)
    }

    /// The raw content of its docstring, trimmed, if any.
    pub fn docstring(&self) -> Option<&'d str> {
        self.0.docstring()
    }
}

view! {
    /// An annotation: a name and a value.
    Annotation, name
}

impl<'d> Annotation<'d> {
    /// The name.
    pub fn name(&self) -> &'d str {
        self.0.required(word::NAME)
    }

    /// The value.
    pub fn value(&self) -> &'d str {
        self.0.required(word::VALUE)
    }
}

/// Which way an argument goes.
#[derive(Clone, Copy, Debug, PartialEq, Eq, Hash)]
pub enum ArgDirection {
    /// `in`
    In,
    /// `out`
    Out,
}

view! {
    /// An argument of a method or a signal.
    Arg, name
}

impl<'d> Arg<'d> {
    /// The name, if any.
    pub fn name(&self) -> Option<&'d str> {
        self.0.shown(word::NAME)
    }

    /// The type: a valid signature, as the document has it.
    pub fn ty(&self) -> &'d str {
        self.0.required(word::VALUE)
    }

    /// The direction, if the document says one.
    pub fn direction(&self) -> Option<ArgDirection> {
        match self.0.choice() {
            1 => Some(ArgDirection::In),
            2 => Some(ArgDirection::Out),
            _ => None,
        }
    }

    /// The annotations.
    pub fn annotations(&self) -> impl ExactSizeIterator<Item = Annotation<'d>> + Clone + 'd {
        self.0.held(kind::ANNOTATION, Annotation)
    }

    /// The type that it names in its `tp:type` attribute, if any.
    pub fn tp_type(&self) -> Option<&'d str> {
        self.0.shown(word::TP_TYPE)
    }

    /// The raw content of its docstring, trimmed, if any.
    pub fn docstring(&self) -> Option<&'d str> {
        self.0.docstring()
    }
}
