//! Writing items, escaping and unescaping.

use std::io;

use crate::answer::{Error, ErrorKind};
use crate::ffi;
use crate::item::{Annotation, Arg, Interface, Method, Node, Property, Signal};
use crate::row::{kind, word, Row};
use crate::telepathy::{Enum, Mapping, SimpleType, Struct, TypeDef};
use crate::{Document, LIMIT};

/// The item and what stands in it, as a table of its own, and the row of the item.
///
/// The writer looks at every row that is lent, so lending all rows of the document for each item
/// would cost the square of their number. Before the item stand the rows that it is in, from the
/// node down, so that the table is sound; a node stands by itself. Docstrings are not lent unless
/// they are to be written.
fn table(item: Row<'_>, docstrings: bool) -> (Vec<[u32; 16]>, usize) {
    let rows = &item.document.rows;
    let mut around = Vec::new();
    let mut at = item.index;
    while rows[at][word::KIND] != kind::NODE {
        at = rows[at][word::PARENT] as usize - 1;
        around.push(at);
    }
    let first = around.len();
    let inside = item.index..item.end();
    let mut table: Vec<_> = around
        .into_iter()
        .rev()
        .chain(inside)
        .map(|at| rows[at])
        .collect();
    for (index, row) in table.iter_mut().enumerate() {
        if index <= first {
            row[word::PARENT] = index as u32;
        } else {
            row[word::PARENT] = row[word::PARENT] - item.index as u32 + first as u32;
        }
        if !docstrings {
            row[word::DOCSTRING..word::DOCSTRING + 3].fill(0);
        }
    }
    (table, first)
}

/// The bytes that the rows from one on take if nothing in them is escaped: at most 43 for the tags
/// (`<arg name="" type="" direction="out"></arg>`) and what is shown.
fn plain_len(rows: &[[u32; 16]]) -> usize {
    let lens = rows
        .iter()
        .map(|row| row[word::NAME + 2] + row[word::VALUE + 2]);
    lens.map(|len| 43 + len as usize).sum()
}

pub(crate) fn to_xml(item: Row<'_>) -> String {
    let (rows, row) = table(item, false);
    let document = item.document.input.as_bytes();
    let text = item.document.text.as_bytes();
    filled(plain_len(&rows[row..]), |output| {
        ffi::write(document, text, &rows, row, output)
    })
    .expect("what the reader leaves can be written")
}

/// The same with docstrings and tp types: at most 67 bytes for the tags (those of a property) and 29
/// for those of a docstring.
fn tree_len(rows: &[[u32; 16]]) -> usize {
    let lens = rows.iter().map(|row| {
        let shown = word::TRIPLES.iter().map(|start| row[start + 2] as usize);
        let tags = if row[word::DOCSTRING + 2] == 0 {
            67
        } else {
            67 + 29
        };
        tags + shown.sum::<usize>()
    });
    lens.sum()
}

/// An item with all under it.
pub(crate) fn tree_to_xml(item: Row<'_>) -> String {
    let (rows, row) = table(item, true);
    let document = item.document.input.as_bytes();
    let text = item.document.text.as_bytes();
    filled(tree_len(&rows[row..]), |output| {
        ffi::write_tree(document, text, &rows, row, output)
    })
    .expect("what the reader leaves can be written")
}

/// What a function writes into an output of some length, or of the length that it then asks for.
fn filled(len: usize, write: impl Fn(&mut [u8]) -> Result<usize, Error>) -> Result<String, Error> {
    let mut output = vec![0; len];
    let written = match write(&mut output) {
        Err(error) if error.kind() == ErrorKind::OutputShort => {
            output = vec![0; error.position()];
            write(&mut output)?
        }
        answer => answer?,
    };
    output.truncate(written);
    Ok(String::from_utf8(output).expect("what is written is UTF-8"))
}

/// An output as long as the value, unless the value is refused for its length.
fn output_len(value: &[u8]) -> usize {
    if value.len() > LIMIT {
        return 0;
    }
    value.len()
}

/// Turns `&`, `<`, `>`, `"`, `'`, tab, LF and CR into references, and nothing else.
///
/// Refused are a value of more than 1,048,576 bytes (2) and one that is not UTF-8 (1).
///
/// ```
/// assert_eq!(introspection::escape("a < b\n")?, "a &lt; b&#10;");
/// # Ok::<(), introspection::Error>(())
/// ```
pub fn escape(value: impl AsRef<[u8]>) -> Result<String, Error> {
    let value = value.as_ref();
    filled(output_len(value), |output| ffi::escape(value, output))
}

/// What a value shows: its references replaced, tab, LF, CR and CR LF as one space each.
///
/// Refused are a value of more than 1,048,576 bytes (2), one that is not UTF-8 (1), and bad
/// references (9, 10, 11).
///
/// ```
/// assert_eq!(introspection::unescape("a &lt; b&#10;")?, "a < b\n");
///
/// let error = introspection::unescape("fish & chips").unwrap_err();
/// assert_eq!((error.number(), error.position()), (9, 5));
/// # Ok::<(), introspection::Error>(())
/// ```
pub fn unescape(value: impl AsRef<[u8]>) -> Result<String, Error> {
    let value = value.as_ref();
    filled(output_len(value), |output| ffi::unescape(value, output))
}

macro_rules! written {
    ($name:ident) => {
        impl $name<'_> {
            /// The item as XML, with what stands in it. Docstrings and `tp:type` are not written.
            ///
            /// The cost is in proportion to the item, however large the document is.
            pub fn to_xml(&self) -> String {
                to_xml(self.0)
            }

            /// Writes [`to_xml`](Self::to_xml) to a writer.
            pub fn to_writer<W: io::Write>(&self, mut writer: W) -> io::Result<()> {
                writer.write_all(self.to_xml().as_bytes())
            }
        }
    };
}

written!(Method);
written!(Signal);
written!(Annotation);
written!(Arg);

macro_rules! written_whole {
    ($name:ident) => {
        impl $name<'_> {
            /// All of it as XML: with what stands in it, docstrings and `tp:type` included, in groups
            /// (docs/FORMAT.md, Trees). No white space is put in, nor `xmlns:tp`.
            ///
            /// The cost is in proportion to what is written, however large the document is, where no
            /// node stands before another child of its node; else it may be the levels of nodes times
            /// that.
            pub fn to_xml(&self) -> String {
                tree_to_xml(self.0)
            }

            /// Writes [`to_xml`](Self::to_xml) to a writer.
            pub fn to_writer<W: io::Write>(&self, mut writer: W) -> io::Result<()> {
                writer.write_all(self.to_xml().as_bytes())
            }
        }
    };
}

written_whole!(Node);
written_whole!(Interface);
written_whole!(Property);
written_whole!(SimpleType);
written_whole!(Enum);
written_whole!(Struct);
written_whole!(Mapping);

impl TypeDef<'_> {
    /// All of it as XML, as [`Node::to_xml`] writes it.
    ///
    /// ```
    /// use introspection::Document;
    ///
    /// let document = Document::parse(
    ///     b"<node>\n  <tp:struct name='S'>\n    <tp:member type='u' name='m'/>\n  </tp:struct>\n</node>",
    /// )?;
    /// let definition = document.root().telepathy_types().next().unwrap();
    /// assert_eq!(
    ///     definition.to_xml(),
    ///     r#"<tp:struct name="S"><tp:member name="m" type="u"/></tp:struct>"#
    /// );
    /// # Ok::<(), introspection::Error>(())
    /// ```
    pub fn to_xml(&self) -> String {
        tree_to_xml(self.inner())
    }

    /// Writes [`to_xml`](Self::to_xml) to a writer.
    pub fn to_writer<W: io::Write>(&self, mut writer: W) -> io::Result<()> {
        writer.write_all(self.to_xml().as_bytes())
    }
}

impl Document<'_> {
    /// The cleaned document: the root with all under it as XML, as [`Node::to_xml`] writes it. What was
    /// left out is not in it, nor comments and white space between elements.
    ///
    /// What is written is read back without a warning, if it is within the [`LIMIT`], and has the same
    /// content, the children of each item compared kind by kind. It is not always equal by `==`,
    /// which compares the order of all children.
    ///
    /// ```
    /// use introspection::Document;
    ///
    /// let document = Document::parse(
    ///     br#"<x>
    ///       <!-- a node first -->
    ///       <node name="child"/><unheard-of/>
    ///       <interface name="a.b"><tp:docstring> Says <b>much</b>. </tp:docstring></interface>
    ///     </x>"#,
    /// )?;
    /// let xml = document.to_xml();
    /// assert_eq!(
    ///     xml,
    ///     concat!(
    ///         r#"<node><interface name="a.b"><tp:docstring>Says <b>much</b>.</tp:docstring></interface>"#,
    ///         r#"<node name="child"/></node>"#
    ///     )
    /// );
    /// assert_eq!(Document::parse(xml.as_bytes())?.to_xml(), xml);
    /// # Ok::<(), introspection::Error>(())
    /// ```
    pub fn to_xml(&self) -> String {
        self.root().to_xml()
    }

    /// Writes [`to_xml`](Self::to_xml) to a writer.
    pub fn to_writer<W: io::Write>(&self, writer: W) -> io::Result<()> {
        self.root().to_writer(writer)
    }
}
