//! Type definitions of the Telepathy extensions.
//!
//! They stand in nodes and interfaces. Arguments, properties and members name them in their
//! `tp:type` attribute, with one `[]` for each level of arrays. A definition that cannot be read
//! whole is left out whole, with a [`Warning`](crate::Warning).

use crate::row::{kind, view, word, Row};

/// The type definitions that stand in a row.
pub(crate) fn types<'d>(row: Row<'d>) -> impl ExactSizeIterator<Item = TypeDef<'d>> + Clone + 'd {
    row.held_as(TypeDef::of)
}

/// One complete type: a signature that is one, or the structure of several.
fn one_type(signature: &str) -> String {
    let bytes = signature.as_bytes();
    let mut open = 0_usize;
    let end = bytes.iter().position(|byte| {
        match byte {
            b'(' | b'{' => open += 1,
            b')' | b'}' => open -= 1,
            _ => {}
        }
        open == 0 && *byte != b'a'
    });
    match end {
        Some(end) if end + 1 < bytes.len() => format!("({signature})"),
        _ => signature.to_string(),
    }
}

/// A type definition.
#[derive(Clone, Copy, Debug, PartialEq, Eq)]
pub enum TypeDef<'d> {
    /// A name for a D-Bus type (`<tp:simple-type>`).
    SimpleType(SimpleType<'d>),
    /// The values of a type (`<tp:enum>`).
    Enum(Enum<'d>),
    /// A structure (`<tp:struct>`).
    Struct(Struct<'d>),
    /// A dictionary (`<tp:mapping>`).
    Mapping(Mapping<'d>),
}

impl<'d> TypeDef<'d> {
    pub(crate) fn of(row: Row<'d>) -> Option<Self> {
        match row.kind() {
            kind::SIMPLE_TYPE => Some(TypeDef::SimpleType(SimpleType(row))),
            kind::ENUM => Some(TypeDef::Enum(Enum(row))),
            kind::STRUCT => Some(TypeDef::Struct(Struct(row))),
            kind::MAPPING => Some(TypeDef::Mapping(Mapping(row))),
            _ => None,
        }
    }

    pub(crate) fn inner(&self) -> Row<'d> {
        match self {
            TypeDef::SimpleType(definition) => definition.0,
            TypeDef::Enum(definition) => definition.0,
            TypeDef::Struct(definition) => definition.0,
            TypeDef::Mapping(definition) => definition.0,
        }
    }

    /// The name of the type.
    pub fn name(&self) -> &'d str {
        self.inner().required(word::NAME)
    }

    /// The signature of the type.
    pub fn signature(&self) -> String {
        match self {
            TypeDef::SimpleType(definition) => one_type(definition.ty()),
            TypeDef::Enum(definition) => one_type(definition.ty()),
            TypeDef::Struct(definition) => definition.signature(),
            TypeDef::Mapping(definition) => definition.signature(),
        }
    }

    /// The raw content of its docstring, trimmed, if any.
    pub fn docstring(&self) -> Option<&'d str> {
        self.inner().docstring()
    }

    /// The place of the `<` of its start tag in the text of the document, a byte offset.
    pub fn position(&self) -> usize {
        self.inner().position()
    }
}

view! {
    /// A name for a D-Bus type (`<tp:simple-type>`).
    SimpleType, name
}

impl<'d> SimpleType<'d> {
    /// The name of the type.
    pub fn name(&self) -> &'d str {
        self.0.required(word::NAME)
    }

    /// The D-Bus type: a valid signature that is not empty.
    pub fn ty(&self) -> &'d str {
        self.0.required(word::VALUE)
    }

    /// The raw content of its docstring, trimmed, if any.
    pub fn docstring(&self) -> Option<&'d str> {
        self.0.docstring()
    }
}

view! {
    /// The values of a type (`<tp:enum>`).
    Enum, name
}

impl<'d> Enum<'d> {
    /// The name of the type.
    pub fn name(&self) -> &'d str {
        self.0.required(word::NAME)
    }

    /// The D-Bus type: a valid signature that is not empty.
    pub fn ty(&self) -> &'d str {
        self.0.required(word::VALUE)
    }

    /// The values.
    pub fn values(&self) -> impl ExactSizeIterator<Item = EnumValue<'d>> + Clone + 'd {
        self.0.held(kind::ENUMVALUE, EnumValue)
    }

    /// The raw content of its docstring, trimmed, if any.
    pub fn docstring(&self) -> Option<&'d str> {
        self.0.docstring()
    }
}

view! {
    /// A value of an [`Enum`] (`<tp:enumvalue>`).
    EnumValue, suffix
}

impl<'d> EnumValue<'d> {
    /// The name of the value.
    pub fn suffix(&self) -> &'d str {
        self.0.required(word::NAME)
    }

    /// The value, as the document has it.
    pub fn value(&self) -> &'d str {
        self.0.required(word::VALUE)
    }

    /// The raw content of its docstring, trimmed, if any.
    pub fn docstring(&self) -> Option<&'d str> {
        self.0.docstring()
    }
}

view! {
    /// A structure (`<tp:struct>`).
    Struct, name
}

impl<'d> Struct<'d> {
    /// The name of the type.
    pub fn name(&self) -> &'d str {
        self.0.required(word::NAME)
    }

    /// The members; there is at least one.
    pub fn members(&self) -> impl ExactSizeIterator<Item = Member<'d>> + Clone + 'd {
        self.0.held(kind::MEMBER, Member)
    }

    /// The signature of the structure: the types of its members in parentheses.
    ///
    /// A member whose type is several complete types in a row counts as one structure of these.
    /// Very many members make a signature that is longer than D-Bus allows.
    ///
    /// ```
    /// use introspection::telepathy::TypeDef;
    /// use introspection::Document;
    ///
    /// let xml = b"<node><tp:struct name='S'>
    ///   <tp:member name='Azimuth' type='d'/><tp:member name='Readings' type='a{sv}'/>
    /// </tp:struct></node>";
    /// let document = Document::parse(xml)?;
    /// let Some(TypeDef::Struct(definition)) = document.root().telepathy_types().next() else {
    ///     panic!("it is there")
    /// };
    /// assert_eq!(definition.signature(), "(da{sv})");
    /// # Ok::<(), introspection::Error>(())
    /// ```
    pub fn signature(&self) -> String {
        let types: String = self.members().map(|member| one_type(member.ty())).collect();
        format!("({types})")
    }

    /// The raw content of its docstring, trimmed, if any.
    pub fn docstring(&self) -> Option<&'d str> {
        self.0.docstring()
    }
}

view! {
    /// A dictionary (`<tp:mapping>`).
    Mapping, name
}

impl<'d> Mapping<'d> {
    /// The name of the type.
    pub fn name(&self) -> &'d str {
        self.0.required(word::NAME)
    }

    /// The two members: key and value.
    pub fn members(&self) -> impl ExactSizeIterator<Item = Member<'d>> + Clone + 'd {
        self.0.held(kind::MEMBER, Member)
    }

    /// The key; it is of a basic type.
    pub fn key(&self) -> Member<'d> {
        self.member(0)
    }

    /// The value.
    pub fn value(&self) -> Member<'d> {
        self.member(1)
    }

    /// The signature of the dictionary, such as `a{sv}`. A value whose type is several complete
    /// types in a row counts as one structure of these.
    pub fn signature(&self) -> String {
        let [key, value] = [self.key(), self.value()].map(|member| one_type(member.ty()));
        format!("a{{{key}{value}}}")
    }

    fn member(&self, n: usize) -> Member<'d> {
        self.members()
            .nth(n)
            .expect("an accepted mapping has two members")
    }

    /// The raw content of its docstring, trimmed, if any.
    pub fn docstring(&self) -> Option<&'d str> {
        self.0.docstring()
    }
}

view! {
    /// A member of a [`Struct`] or a [`Mapping`] (`<tp:member>`).
    Member, name
}

impl<'d> Member<'d> {
    /// The name.
    pub fn name(&self) -> &'d str {
        self.0.required(word::NAME)
    }

    /// The type: a valid signature that is not empty.
    pub fn ty(&self) -> &'d str {
        self.0.required(word::VALUE)
    }

    /// The type that it names in its `tp:type` attribute, if any.
    pub fn tp_type(&self) -> Option<&'d str> {
        self.0.shown(word::TP_TYPE)
    }

    /// The raw content of its docstring, trimmed, if any.
    pub fn docstring(&self) -> Option<&'d str> {
        self.0.docstring()
    }
}
