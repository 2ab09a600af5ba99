//! A safe API over the proved reader and writers of D-Bus introspection XML.
//!
//! [`Document::parse`] reads a document, and lends what it holds in the words of the crate zbus_xml:
//! nodes, interfaces, methods, signals, properties, arguments, annotations, docstrings and
//! [type definitions](telepathy). Every name and value is a `&str` into the document, or into one
//! text buffer where it was written with references, or with tabs or line ends, which are shown as
//! spaces; nothing else is copied but what is decoded.
//!
//! The rule: a definition that cannot be read whole is left out whole, with a [`Warning`] at its
//! place; a fault in the markup, or in what a member of an interface needs, refuses the document
//! with an [`Error`] at its place.
//!
//! A document in UTF-16 that begins with a byte order mark is decoded first, and what was decoded is
//! then the document: [`Document::text`]. [`Document::parse_strict`] refuses, besides, a document
//! that breaks a rule of the strict profile.
//!
//! ```
//! use introspection::{ArgDirection, Document};
//!
//! let xml = br#"<node name="/lamp">
//!   <interface name="org.example.Lamp">
//!     <method name="Dim"><arg name="percent" type="y" direction="in"/></method>
//!     <property name="Label" type="s" access="readwrite"/>
//!   </interface>
//! </node>"#;
//!
//! let document = Document::parse(xml)?;
//! assert_eq!(document.root().name(), Some("/lamp"));
//! assert_eq!(document.warnings().count(), 0);
//!
//! let lamp = document.root().interfaces().next().unwrap();
//! let dim = lamp.methods().next().unwrap();
//! let percent = dim.args().next().unwrap();
//! assert_eq!(lamp.name(), "org.example.Lamp");
//! assert_eq!(percent.ty(), "y");
//! assert_eq!(percent.direction(), Some(ArgDirection::In));
//! assert_eq!(
//!     dim.to_xml(),
//!     r#"<method name="Dim"><arg name="percent" type="y" direction="in"/></method>"#
//! );
//! # Ok::<(), introspection::Error>(())
//! ```
//!
//! [`Document::from_reader`] and [`Document::into_owned`] give a document that owns its input, so that
//! it can be kept. [`Error::line_column`], [`Warning::line_column`] and [`Lines`] tell a place by its
//! line and column.
//!
//! [`Document::to_xml`] writes a cleaned document: all that was read, docstrings included. Nodes,
//! interfaces, properties and type definitions are written so too.
//!
//! [`columns`](columns()) puts the rows of a table down as columns of differences, and [`rows`](rows()) puts
//! them back.
//!
//! The crate links the archive that `./build library` writes; README.md says where it is
//! sought.

#![deny(missing_docs, unsafe_code, rust_2018_idioms)]

mod answer;
mod columns;
#[allow(unsafe_code)]
mod ffi;
mod item;
mod place;
mod reader;
mod row;
pub mod telepathy;
mod text;

#[cfg(test)]
mod tests;

#[cfg(doctest)]
#[doc = include_str!("../README.md")]
struct Readme;

use std::borrow::Cow;
use std::fmt;
use std::str;

pub use answer::{Error, ErrorKind, Reason, Warning};
pub use columns::{columns, rows};
pub use item::{
    Annotation, Arg, ArgDirection, Child, Interface, Method, Node, Property, PropertyAccess, Signal,
};
pub use place::Lines;
pub use reader::ReadError;
pub use text::{escape, unescape};

use row::{kind, Row};
use telepathy::TypeDef;

/// The most bytes that a document or a value may have: 1,048,576.
pub const LIMIT: usize = 1 << 20;

/// A document that was read. It borrows the input, or owns what an input in UTF-16 was decoded to,
/// and it owns the tables that were filled.
///
/// A `Document<'static>` owns the input too: [`Document::from_reader`] and
/// [`Document::into_owned`] make one, and it may be kept or handed to another thread.
///
/// What it lends is `Copy` and lives as long as the borrow of the document. Two documents, or two
/// items, are equal if they have the same content in the same order, wherever in the input it
/// stands, be it UTF-8 or UTF-16.
#[derive(Clone)]
pub struct Document<'a> {
    input: Cow<'a, str>,
    text: String,
    rows: Vec<[u32; 16]>,
    ends: Vec<u32>,
    warnings: Vec<[u32; 4]>,
}

impl<'a> Document<'a> {
    /// Reads a document, in time that is in proportion to its length.
    ///
    /// ```
    /// use introspection::{Document, ErrorKind};
    ///
    /// let document = Document::parse(b"<node/>")?;
    /// assert_eq!(document.root().name(), None);
    ///
    /// let error = Document::parse(b"<node>").unwrap_err();
    /// assert_eq!(error.kind(), ErrorKind::UnclosedElement);
    /// assert_eq!(error.position(), 6);
    ///
    /// let document = Document::parse(b"\xff\xfe<\0x\0/\0>\0")?;
    /// assert_eq!(document.text(), "<x/>");
    /// # Ok::<(), introspection::Error>(())
    /// ```
    pub fn parse(input: &'a [u8]) -> Result<Self, Error> {
        Self::parse_with(false, input, openings(input))
    }

    /// Reads a document of the strict profile: as [`parse`](Self::parse), and a document that would be
    /// accepted and breaks one of the profile's rules is refused, at the least place of a breach.
    ///
    /// The rules are of XML 1.0: no raw `<` and no `&#X` in an attribute value, no `--` inside a
    /// comment and no hyphen at its end, tag and attribute names of the fifth edition, every character
    /// a Char, the root tag `node`, and after the root only white space, closed comments and closed
    /// instructions.
    ///
    /// ```
    /// use introspection::{Document, ErrorKind};
    ///
    /// let input = b"<node><!-- never -- up --></node>";
    /// assert!(Document::parse(input).is_ok());
    ///
    /// let error = Document::parse_strict(input).unwrap_err();
    /// assert_eq!(error.kind(), ErrorKind::ProfileBreach);
    /// assert_eq!(error.position(), 17);
    /// assert_eq!(error.message(), "profile breach");
    ///
    /// assert_eq!(Document::parse_strict(b"<node/>")?, Document::parse(b"<node/>")?);
    /// # Ok::<(), introspection::Error>(())
    /// ```
    pub fn parse_strict(input: &'a [u8]) -> Result<Self, Error> {
        Self::parse_with(true, input, openings(input))
    }

    /// Reads with this many rows and warnings at first, and with Room if those are too few.
    fn parse_with(strict: bool, input: &'a [u8], first: usize) -> Result<Self, Error> {
        let room = room(input);
        match Self::parse_within(strict, input, first.min(room)) {
            Err(error) if error.kind() == ErrorKind::NoRoom => {
                Self::parse_within(strict, input, room)
            }
            answer => answer,
        }
    }

    fn parse_within(strict: bool, input: &'a [u8], room: usize) -> Result<Self, Error> {
        let mut rows = vec![[0; 16]; room];
        let mut warnings = vec![[0; 4]; room];
        let mut text = vec![0; text_room(input)];
        let mut decoded = vec![0; decoded_room(input)];
        let counts = ffi::read(
            strict,
            input,
            &mut rows,
            &mut warnings,
            &mut text,
            &mut decoded,
        )?;
        shrink(&mut rows, counts.rows);
        shrink(&mut warnings, counts.warnings);
        shrink(&mut text, counts.text);
        shrink(&mut decoded, counts.decoded);
        // Proved too; checked once more, in a small part of the time of reading, so that no `&str`
        // rests on the archive alone.
        let input = if decoded.is_empty() {
            Cow::Borrowed(str::from_utf8(input).expect("an accepted document is UTF-8"))
        } else {
            Cow::Owned(String::from_utf8(decoded).expect("what was decoded is UTF-8"))
        };
        let text = String::from_utf8(text).expect("the text of an accepted document is UTF-8");
        let ends = row::ends(&rows);
        Ok(Self {
            input,
            text,
            rows,
            ends,
            warnings,
        })
    }

    /// The root of the document.
    pub fn root(&self) -> Node<'_> {
        Node(self.row(0))
    }

    /// The text of the document: the input, or what it was decoded to from UTF-16. Every position is a
    /// byte offset in it.
    pub fn text(&self) -> &str {
        &self.input
    }

    /// The root and every node below it, in document order.
    pub fn nodes(&self) -> impl Iterator<Item = Node<'_>> + Clone {
        let rows = (0..self.rows.len()).map(|index| self.row(index));
        rows.filter(|row| row.kind() == kind::NODE).map(Node)
    }

    /// What was left out, in the order in which that was found.
    pub fn warnings(&self) -> impl ExactSizeIterator<Item = Warning<'_>> + Clone {
        self.warnings.iter().map(|&words| Warning::new(self, words))
    }

    /// The type definitions of all nodes and interfaces, each after those that it uses.
    ///
    /// A struct or a mapping uses a type if the `tp:type` of one of its members is that name, or that
    /// name followed by `[]`. Of several definitions with one name the first counts; names that none
    /// has are left aside. Of the definitions that are ready, the first in the document comes first.
    ///
    /// Refused, if a definition uses itself, through others or not, with
    /// [`CircularTypes`](ErrorKind::CircularTypes) at the row of the first that does.
    ///
    /// ```
    /// use introspection::Document;
    ///
    /// let document = Document::parse(
    ///     br#"<node>
    ///       <tp:struct name="Pair"><tp:member name="a" type="u" tp:type="Id"/></tp:struct>
    ///       <tp:simple-type name="Id" type="u"/>
    ///     </node>"#,
    /// )?;
    /// let names: Vec<_> = document.types_in_order()?.map(|t| t.name()).collect();
    /// assert_eq!(names, ["Id", "Pair"]);
    /// # Ok::<(), introspection::Error>(())
    /// ```
    pub fn types_in_order(
        &self,
    ) -> Result<impl ExactSizeIterator<Item = TypeDef<'_>> + Clone, Error> {
        let mut work = vec![0; 3 * self.rows.len()];
        let mut order = vec![0; self.rows.len()];
        let (input, text) = (self.input.as_bytes(), self.text.as_bytes());
        let (definitions, _) = ffi::order(input, text, &self.rows, &mut work, &mut order)?;
        shrink(&mut order, definitions);
        let definition = |index| TypeDef::of(self.row(index as usize));
        Ok(order
            .into_iter()
            .map(move |index| definition(index).expect("a row of the order is a definition")))
    }

    /// The rows as words, 16 for each (docs/FORMAT.md, Tables).
    pub fn table(&self) -> &[u32] {
        self.rows.as_flattened()
    }

    fn row(&self, index: usize) -> Row<'_> {
        Row {
            document: self,
            index,
        }
    }
}

impl<'a> TryFrom<&'a [u8]> for Document<'a> {
    type Error = Error;

    fn try_from(input: &'a [u8]) -> Result<Self, Error> {
        Self::parse(input)
    }
}

impl<'a> TryFrom<&'a str> for Document<'a> {
    type Error = Error;

    fn try_from(input: &'a str) -> Result<Self, Error> {
        Self::parse(input.as_bytes())
    }
}

impl PartialEq for Document<'_> {
    fn eq(&self, other: &Document<'_>) -> bool {
        self.row(0) == other.row(0)
    }
}

impl Eq for Document<'_> {}

impl fmt::Debug for Document<'_> {
    fn fmt(&self, f: &mut fmt::Formatter<'_>) -> fmt::Result {
        f.debug_struct("Document")
            .field("bytes", &self.input.len())
            .field("rows", &self.rows.len())
            .field("text", &self.text.len())
            .field("warnings", &self.warnings.len())
            .finish()
    }
}

/// Room (docs/FORMAT.md), which is proved: 4 times (rows + warnings) never exceeds the document's
/// length. A document over the limit is refused before any room is used.
fn room(input: &[u8]) -> usize {
    text_room(input) / 4
}

/// Room for the text bytes, which do not exceed it either: the bytes of the document, which of an
/// input in UTF-16 are at most 3/2 of its bytes, as is proved too, and no more than the limit.
fn text_room(input: &[u8]) -> usize {
    if input.len() > LIMIT {
        return 0;
    }
    if is_utf16(input) {
        return (input.len() / 2 * 3).min(LIMIT);
    }
    input.len()
}

/// Room for what is decoded.
fn decoded_room(input: &[u8]) -> usize {
    if is_utf16(input) {
        return text_room(input);
    }
    0
}

/// Whether the input begins with a byte order mark of UTF-16.
fn is_utf16(input: &[u8]) -> bool {
    input.starts_with(b"\xfe\xff") || input.starts_with(b"\xff\xfe")
}

/// The `<` that may begin a start tag. Each row and each warning has its own, so there are no more
/// of them; in UTF-16 closing tags are counted too. Room is several times as much for ordinary
/// documents, and clearing it would be a large part of the time of reading.
fn openings(input: &[u8]) -> usize {
    if input.len() > LIMIT {
        return 0;
    }
    let opens = |b: u8, next: u8| (b == b'<') & (next != b'/') & (next != b'!') & (next != b'?');
    let next = input.get(1..).unwrap_or_default();
    // a count of bytes for each run of 255 compiles to a few instructions for many bytes
    let runs = input.chunks(255).zip(next.chunks(255)).map(|(run, next)| {
        let pairs = run.iter().zip(next);
        pairs
            .map(|(&b, &next)| u8::from(opens(b, next)))
            .sum::<u8>()
    });
    runs.map(usize::from).sum()
}

fn shrink<T>(table: &mut Vec<T>, len: usize) {
    table.truncate(len);
    table.shrink_to_fit();
}
