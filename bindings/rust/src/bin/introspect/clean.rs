//! `introspect clean`: the whole tree of a document, written anew. What was left out is told on standard
//! error.

use std::io::{self, Write};

use introspection::Document;

use crate::check::Report;
use crate::input::Input;
use crate::paint::Paint;
use crate::Status;

pub fn run(inputs: &[Input], output: &mut impl Write) -> io::Result<Status> {
    let mut worst = Status::Read;
    for input in inputs {
        let status = match input.read() {
            Ok(bytes) => cleaned(&bytes, input.name(), output)?,
            Err(status) => status,
        };
        worst = worst.max(status);
    }
    Ok(worst)
}

fn cleaned(bytes: &[u8], name: String, output: &mut impl Write) -> io::Result<Status> {
    let paint = Paint::of(&io::stderr());
    // what cannot be written to standard error there is nobody to tell
    let document = match Document::parse(bytes) {
        Ok(document) => document,
        Err(error) => {
            let _ = Report::new(name, bytes, paint).error(&error, &mut io::stderr());
            return Ok(Status::Refused);
        }
    };
    let report = Report::new(name, document.text().as_bytes(), paint);
    let _ = report.root(&document, &mut io::stderr());
    let _ = report.warnings(&document, false, &mut io::stderr());
    document.to_writer(output)?;
    Ok(Status::Read)
}
