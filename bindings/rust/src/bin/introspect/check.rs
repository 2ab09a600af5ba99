//! `introspect check`: the places of what is wrong, with their lines, and a line of sums.

use std::io::{self, Write};

use introspection::{Document, Lines};

use crate::excerpt::excerpt;
use crate::input::Input;
use crate::paint::{plain, Paint};
use crate::{root, Status};

pub fn run(
    inputs: &[Input],
    strict: bool,
    paint: Paint,
    output: &mut impl Write,
) -> io::Result<Status> {
    let mut worst = Status::Read;
    let mut sums = Sums::default();
    for input in inputs {
        // what goes to standard error comes after what went before it to standard output
        output.flush()?;
        let status = match input.read() {
            Ok(bytes) => checked(&bytes, strict, input.name(), paint, &mut sums, output)?,
            Err(status) => {
                sums.unreadable += 1;
                status
            }
        };
        worst = worst.max(status);
    }
    writeln!(output, "{}", sums.line())?;
    Ok(worst)
}

fn checked(
    bytes: &[u8],
    strict: bool,
    name: String,
    paint: Paint,
    sums: &mut Sums,
    output: &mut impl Write,
) -> io::Result<Status> {
    let answer = if strict {
        Document::parse_strict(bytes)
    } else {
        Document::parse(bytes)
    };
    let document = match answer {
        Ok(document) => document,
        Err(error) => {
            sums.refused += 1;
            Report::new(name, bytes, paint).error(&error, output)?;
            return Ok(Status::Refused);
        }
    };
    sums.read += 1;
    sums.warnings += document.warnings().len();
    let report = Report::new(name, document.text().as_bytes(), paint);
    report.root(&document, output)?;
    report.warnings(&document, true, output)?;
    Ok(Status::Read)
}

/// What is told of one input, each thing with its place.
pub struct Report<'a> {
    name: String,
    bytes: &'a [u8],
    lines: Lines<'a>,
    paint: Paint,
}

impl<'a> Report<'a> {
    pub fn new(name: String, bytes: &'a [u8], paint: Paint) -> Self {
        Self {
            name,
            bytes,
            lines: Lines::new(bytes),
            paint,
        }
    }

    pub fn lines(&self) -> &Lines<'a> {
        &self.lines
    }

    /// A refusal, with its line.
    pub fn error(&self, error: &introspection::Error, output: &mut impl Write) -> io::Result<()> {
        let sort = self.paint.error("error");
        let position = error.text_position(self.bytes);
        self.tell(position, &sort, error.message(), output)?;
        self.excerpt(position, output)
    }

    /// All warnings, with their lines or without.
    pub fn warnings(
        &self,
        document: &Document<'_>,
        lines: bool,
        output: &mut impl Write,
    ) -> io::Result<()> {
        let sort = self.paint.warning("warning");
        for warning in document.warnings() {
            self.tell(warning.position(), &sort, &warning.message(), output)?;
            if lines {
                self.excerpt(warning.position(), output)?;
            }
        }
        Ok(())
    }

    /// A line for a root that is no node and lost members.
    pub fn root(&self, document: &Document<'_>, output: &mut impl Write) -> io::Result<()> {
        let Some(message) = root::lost_members(document) else {
            return Ok(());
        };
        let sort = self.paint.note("note");
        self.tell(document.root().position(), &sort, &message, output)
    }

    fn tell(
        &self,
        position: usize,
        sort: &str,
        message: &str,
        output: &mut impl Write,
    ) -> io::Result<()> {
        let (line, column) = self.lines.line_column(position);
        let place = self.paint.strong(format!("{}:{line}:{column}:", self.name));
        writeln!(output, "{place} {sort}: {}", plain(message))
    }

    fn excerpt(&self, position: usize, output: &mut impl Write) -> io::Result<()> {
        let Some([line, under]) = excerpt(&self.lines, position) else {
            return Ok(());
        };
        writeln!(output, "{line}\n{}", self.paint.note(under))
    }
}

#[derive(Default)]
struct Sums {
    read: usize,
    refused: usize,
    unreadable: usize,
    warnings: usize,
}

impl Sums {
    fn line(&self) -> String {
        let count = |count: usize, one: &str, many: &str| match count {
            1 => format!("1 {one}"),
            _ => format!("{count} {many}"),
        };
        let mut line = format!(
            "{} read, {} refused, {}",
            count(self.read, "file", "files"),
            self.refused,
            count(self.warnings, "warning", "warnings")
        );
        if self.unreadable > 0 {
            line += &format!(", {} could not be read", self.unreadable);
        }
        line
    }
}
