//! Refusals and warnings.

use std::error;
use std::fmt;

use crate::{ffi, place, Document};

/// Why a document or a value was refused. The discriminants are the numbers of docs/FORMAT.md;
/// later versions may have more.
#[derive(Clone, Copy, Debug, PartialEq, Eq, Hash)]
#[repr(u32)]
#[non_exhaustive]
pub enum ErrorKind {
    /// Not UTF-8. Place: the first ill-formed sequence.
    NotUtf8 = 1,
    /// More than 1,048,576 bytes. Place: 1,048,576.
    TooLong = 2,
    /// No root element. Place: the length.
    NoRoot = 3,
    /// A malformed tag. Place: docs/FORMAT.md, Answers.
    MalformedMarkup = 4,
    /// An element that is not closed. Place: the length.
    UnclosedElement = 5,
    /// A closing tag of another element than the one that is open. Place: after the closing tag.
    CrossedClose = 6,
    /// More than 1,024 open nodes, or open elements in what is skipped. Place: after the start tag.
    TooDeep = 7,
    /// An attribute that its tag has already. Place: its name.
    DuplicateAttribute = 8,
    /// A reference without `;`. Place: its `&`.
    UnterminatedReference = 9,
    /// An entity that is not one of the five. Place: its `&`.
    UnknownEntity = 10,
    /// A character reference that names no character of XML. Place: its `&`.
    BadCharacterReference = 11,
    /// An attribute that the element needs is missing. Place: the element name.
    AttributeMissing = 12,
    /// Not an interface, member or property name. Place: the element name.
    BadName = 13,
    /// Not a signature. Place: the element name.
    BadSignature = 14,
    /// An access that is not read, write or readwrite. Place: after the start tag.
    BadAccess = 15,
    /// A direction that is not in or out. Place: after the start tag.
    BadDirection = 16,
    /// More than 256 attributes in a tag. Place: the 257th name.
    TooManyAttributes = 17,
    /// No room in a lent table: rows or columns that hold fewer words than 16 for each row of the
    /// count. Place: the count. For reading and unescaping this crate lends enough.
    NoRoom = 18,
    /// Rows that are not sound. What the reader leaves is, so no caller sees it.
    UnsoundRows = 19,
    /// A row that cannot be written. Only what can be has a writer here, so no caller sees it.
    NotWritable = 20,
    /// An output that is too short. This crate lends enough, so no caller sees it.
    OutputShort = 21,
    /// A comment that never closes. Place: past its `<!--`.
    UnclosedComment = 22,
    /// A CDATA section that never closes. Place: past its `<![CDATA[`.
    UnclosedCdata = 23,
    /// A processing instruction that never closes. Place: past its `<?`.
    UnclosedInstruction = 24,
    /// A declaration that never closes. Place: past the quote that never closes, else the length.
    UnclosedDeclaration = 25,
    /// An input in UTF-16 that has an odd number of bytes. Place: its length.
    OddBytes = 26,
    /// A surrogate without its partner in an input in UTF-16. Place: the first byte of its unit, in
    /// the input.
    LoneSurrogate = 27,
    /// Type definitions of which one uses itself, through others or not. Place: the row of the first
    /// such definition, from 0, in [`table`](crate::Document::table).
    CircularTypes = 28,
    /// A breach of the strict profile ([`Document::parse_strict`]). Place: the least.
    ProfileBreach = 29,
    /// More than 262,144 rows, to be put down as columns or to be made from them. Place: 262,144.
    TooManyRows = 30,
}

use ErrorKind::*;

const KINDS: [ErrorKind; 30] = [
    NotUtf8,
    TooLong,
    NoRoot,
    MalformedMarkup,
    UnclosedElement,
    CrossedClose,
    TooDeep,
    DuplicateAttribute,
    UnterminatedReference,
    UnknownEntity,
    BadCharacterReference,
    AttributeMissing,
    BadName,
    BadSignature,
    BadAccess,
    BadDirection,
    TooManyAttributes,
    NoRoom,
    UnsoundRows,
    NotWritable,
    OutputShort,
    UnclosedComment,
    UnclosedCdata,
    UnclosedInstruction,
    UnclosedDeclaration,
    OddBytes,
    LoneSurrogate,
    CircularTypes,
    ProfileBreach,
    TooManyRows,
];

impl ErrorKind {
    /// The number in docs/FORMAT.md.
    pub fn number(self) -> u32 {
        self as u32
    }
}

/// A refusal: what is wrong, where, and the sentence that zbus_xml has for it.
///
/// ```
/// use introspection::{Document, ErrorKind};
///
/// let error = Document::parse(b"<node><interface/></node>").unwrap_err();
/// assert_eq!(error.kind(), ErrorKind::AttributeMissing);
/// assert_eq!(error.number(), 12);
/// assert_eq!(error.position(), 7);
/// assert_eq!(error.message(), "missing attribute `name` on `<interface>`");
/// assert_eq!(
///     error.to_string(),
///     "missing attribute `name` on `<interface>` (at byte offset 7)"
/// );
/// ```
#[derive(Clone, Debug, PartialEq, Eq, Hash)]
pub struct Error {
    kind: ErrorKind,
    position: usize,
    message: String,
}

impl Error {
    /// What is wrong.
    pub fn kind(&self) -> ErrorKind {
        self.kind
    }

    /// Its number in docs/FORMAT.md.
    pub fn number(&self) -> u32 {
        self.kind.number()
    }

    /// Where: bytes from the start of the document or of the value. It is at most its length. The
    /// document of an input in UTF-16 is what it was decoded to; only
    /// [`OddBytes`](ErrorKind::OddBytes) and [`LoneSurrogate`](ErrorKind::LoneSurrogate) are places in
    /// the input. Of [`columns`](crate::columns()) and [`rows`](crate::rows()) it is a number of rows,
    /// of [`types_in_order`](crate::Document::types_in_order) a row.
    pub fn position(&self) -> usize {
        self.position
    }

    /// Where in lines and columns, both from 1, with the input that was refused.
    /// [`Lines`](crate::Lines) says how they are counted.
    pub fn line_column<I: AsRef<[u8]> + ?Sized>(&self, input: &I) -> (usize, usize) {
        place::line_column(input.as_ref(), self.text_position(input))
    }

    /// Where in the text, with the input that was refused: the [position](Self::position), but for
    /// the two that are places in an input in UTF-16.
    ///
    /// ```
    /// use introspection::{Document, ErrorKind};
    ///
    /// let input = b"\xfe\xff\0<\0\xe9\xdc\0";
    /// let error = Document::parse(input).unwrap_err();
    /// assert_eq!(error.kind(), ErrorKind::LoneSurrogate);
    /// assert_eq!(error.position(), 6);
    /// assert_eq!(error.text_position(input), 3);
    /// assert_eq!(error.line_column(input), (1, 3));
    /// ```
    pub fn text_position<I: AsRef<[u8]> + ?Sized>(&self, input: &I) -> usize {
        match self.kind {
            OddBytes | LoneSurrogate => {
                let input = input.as_ref();
                place::text(&input[..self.position.min(input.len())]).len()
            }
            _ => self.position,
        }
    }

    /// A message describing the error, in zbus_xml's words where it has any (docs/FORMAT.md,
    /// Messages).
    pub fn message(&self) -> &str {
        &self.message
    }

    /// A refusal with what was refused, by the words of a reader's answer; number 0 is none.
    pub(crate) fn unless_accepted(document: &[u8], refusal: [u64; 16]) -> Result<(), Self> {
        let [number, position, ..] = refusal;
        if number == 0 {
            return Ok(());
        }
        let kind = KINDS
            .into_iter()
            .find(|kind| u64::from(kind.number()) == number);
        Err(Self {
            kind: kind.expect("a number of docs/FORMAT.md"),
            position: position as usize,
            message: ffi::message(document, &refusal),
        })
    }

    /// The same for an answer that shows nothing.
    pub(crate) fn unless_done(number: u64, place: u64) -> Result<(), Self> {
        let mut refusal = [0; 16];
        [refusal[0], refusal[1]] = [number, place];
        Self::unless_accepted(b"", refusal)
    }
}

impl fmt::Display for Error {
    fn fmt(&self, f: &mut fmt::Formatter<'_>) -> fmt::Result {
        let Self {
            kind,
            position,
            message,
        } = self;
        match kind {
            NoRoom | CircularTypes | TooManyRows => write!(f, "{message} (at row {position})"),
            _ => write!(f, "{message} (at byte offset {position})"),
        }
    }
}

impl error::Error for Error {}

/// Why an element was left out. The discriminants are the reasons of docs/FORMAT.md; later versions
/// may have more.
#[derive(Clone, Copy, Debug, PartialEq, Eq, Hash)]
#[repr(u32)]
#[non_exhaustive]
pub enum Reason {
    /// An element that its parent does not hold.
    UnsupportedElement = 1,
    /// A type definition without a name.
    NoName = 2,
    /// A type definition without a type.
    NoType = 3,
    /// A type definition whose type is no signature, or the empty one.
    BadSignature = 4,
    /// An enum with a value that lacks its suffix or its value.
    IncompleteEnumvalue = 5,
    /// A struct or mapping with a member that lacks its name or a type.
    IncompleteMember = 6,
    /// A struct without members.
    NoMembers = 7,
    /// A mapping that has not exactly two members.
    NotTwoMembers = 8,
    /// A mapping whose key is not of a basic type.
    KeyNotBasic = 9,
}

const REASONS: [Reason; 9] = [
    Reason::UnsupportedElement,
    Reason::NoName,
    Reason::NoType,
    Reason::BadSignature,
    Reason::IncompleteEnumvalue,
    Reason::IncompleteMember,
    Reason::NoMembers,
    Reason::NotTwoMembers,
    Reason::KeyNotBasic,
];

impl Reason {
    /// The number in docs/FORMAT.md.
    pub fn number(self) -> u32 {
        self as u32
    }
}

/// An element that was left out, whole: why, where it stands, and the sentence that zbus_xml has for
/// it.
///
/// ```
/// use introspection::{Document, Reason};
///
/// let document = Document::parse(b"<node><tp:enum name='E' type='u'><tp:enumvalue suffix='A'/></tp:enum></node>")?;
/// let warning = document.warnings().next().unwrap();
/// assert_eq!(warning.reason(), Reason::IncompleteEnumvalue);
/// assert_eq!(warning.number(), 5);
/// assert_eq!(warning.position(), 6);
/// assert_eq!(warning.element(), "tp:enum");
/// assert_eq!(
///     warning.message(),
///     "malformed element `<tp:enum>` ignored: an enumvalue is missing its `suffix` or `value` attribute"
/// );
/// assert_eq!(
///     warning.to_string(),
///     format!("{} (at byte offset 6)", warning.message())
/// );
/// # Ok::<(), introspection::Error>(())
/// ```
#[derive(Clone, Copy, Debug, PartialEq, Eq, Hash)]
pub struct Warning<'d> {
    reason: Reason,
    position: usize,
    element: &'d str,
}

impl<'d> Warning<'d> {
    pub(crate) fn new(document: &'d Document<'_>, words: [u32; 4]) -> Self {
        let [reason, position, start, len] = words.map(|word| word as usize);
        Self {
            reason: REASONS[reason - 1],
            position,
            element: &document.input[start..start + len],
        }
    }

    /// Why it was left out.
    pub fn reason(&self) -> Reason {
        self.reason
    }

    /// The reason's number in docs/FORMAT.md.
    pub fn number(&self) -> u32 {
        self.reason.number()
    }

    /// The byte offset in the [text](Document::text) of the document at which the element starts.
    pub fn position(&self) -> usize {
        self.position
    }

    /// Where in lines and columns, both from 1, with the input or the [text](Document::text) of the
    /// document. [`Lines`](crate::Lines) says how they are counted, and is quicker where there are
    /// many.
    ///
    /// ```
    /// use introspection::Document;
    ///
    /// let hinge = Document::from_reader(std::fs::File::open("../../examples/hinge.xml")?)?;
    /// let warning = hinge.warnings().next().unwrap();
    /// assert_eq!(warning.line_column(hinge.text()), (3, 5));
    /// # Ok::<(), introspection::ReadError>(())
    /// ```
    pub fn line_column<I: AsRef<[u8]> + ?Sized>(&self, input: &I) -> (usize, usize) {
        place::line_column(input.as_ref(), self.position)
    }

    /// The name of the element.
    pub fn element(&self) -> &'d str {
        self.element
    }

    /// A message describing what was ignored, and why, in zbus_xml's words.
    pub fn message(&self) -> String {
        let name = self.element.as_bytes();
        ffi::warning_message(name, &[self.number(), 0, 0, name.len() as u32])
    }
}

impl fmt::Display for Warning<'_> {
    fn fmt(&self, f: &mut fmt::Formatter<'_>) -> fmt::Result {
        write!(f, "{} (at byte offset {})", self.message(), self.position)
    }
}

impl error::Error for Warning<'_> {}
