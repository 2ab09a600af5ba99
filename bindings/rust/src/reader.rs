//! Documents that own what they were read from.

use std::borrow::Cow;
use std::error;
use std::fmt;
use std::io::{self, Read};

use crate::answer::Error;
use crate::{Document, LIMIT};

impl<'a> Document<'a> {
    /// Reads a document from a reader, and keeps what was read, so that it lives as long as is
    /// wanted.
    ///
    /// The reader is read to its end, but for what is past the limit: no more than [`LIMIT`] and one
    /// bytes are taken from it.
    ///
    /// ```
    /// use introspection::{Document, ReadError};
    ///
    /// fn service(path: &str) -> Result<Document<'static>, ReadError> {
    ///     Document::from_reader(std::fs::File::open(path)?)
    /// }
    ///
    /// let antenna = service("../../examples/antenna.xml")?;
    /// assert_eq!(antenna.root().name(), Some("/ground/antenna"));
    ///
    /// match service("../../examples/damaged.xml") {
    ///     Err(ReadError::Refused { error, input }) => {
    ///         assert_eq!(error.line_column(&input), (8, 63));
    ///     }
    ///     other => panic!("{other:?}"),
    /// }
    /// # Ok::<(), ReadError>(())
    /// ```
    pub fn from_reader<R: Read>(reader: R) -> Result<Document<'static>, ReadError> {
        let mut input = Vec::new();
        reader.take(LIMIT as u64 + 1).read_to_end(&mut input)?;
        Document::parse(&input)
            .map(Document::into_owned)
            .map_err(|error| ReadError::Refused { error, input })
    }

    /// The same document with an input of its own: it borrows nothing, so it may be kept, put into a
    /// collection or handed to another thread.
    ///
    /// ```
    /// use introspection::Document;
    ///
    /// fn kept() -> Document<'static> {
    ///     let input = String::from("<node name='/lamp'/>");
    ///     Document::try_from(input.as_str()).unwrap().into_owned()
    /// }
    ///
    /// let lamp = std::thread::spawn(kept).join().unwrap();
    /// assert_eq!(lamp.root().name(), Some("/lamp"));
    /// ```
    pub fn into_owned(self) -> Document<'static> {
        Document {
            input: Cow::Owned(self.input.into_owned()),
            text: self.text,
            rows: self.rows,
            ends: self.ends,
            warnings: self.warnings,
        }
    }

    /// A copy that owns its input, as [`into_owned`](Self::into_owned) has it.
    pub fn to_owned(&self) -> Document<'static> {
        self.clone().into_owned()
    }
}

/// Why [`Document::from_reader`] has no document. Later versions may have more reasons.
#[derive(Debug)]
#[non_exhaustive]
pub enum ReadError {
    /// The reader failed.
    Io(io::Error),
    /// The document was refused.
    Refused {
        /// What is wrong, and where.
        error: Error,
        /// What was read.
        input: Vec<u8>,
    },
}

impl fmt::Display for ReadError {
    fn fmt(&self, f: &mut fmt::Formatter<'_>) -> fmt::Result {
        match self {
            ReadError::Io(error) => error.fmt(f),
            ReadError::Refused { error, .. } => error.fmt(f),
        }
    }
}

impl error::Error for ReadError {
    fn source(&self) -> Option<&(dyn error::Error + 'static)> {
        match self {
            ReadError::Io(error) => Some(error),
            ReadError::Refused { error, .. } => Some(error),
        }
    }
}

impl From<io::Error> for ReadError {
    fn from(error: io::Error) -> Self {
        ReadError::Io(error)
    }
}
