//! `introspect list`: the tables as numbers, in the lines of the listing program (docs/FORMAT.md).

use std::io::{self, Write};

use introspection::{Document, Warning};

use crate::input::Input;
use crate::Status;

pub fn run(inputs: &[Input], output: &mut impl Write) -> io::Result<Status> {
    let mut worst = Status::Read;
    for input in inputs {
        let status = match input.read() {
            Ok(bytes) => listed(&bytes, output)?,
            Err(status) => status,
        };
        worst = worst.max(status);
    }
    Ok(worst)
}

fn listed(bytes: &[u8], output: &mut impl Write) -> io::Result<Status> {
    let document = match Document::parse(bytes) {
        Ok(document) => document,
        Err(error) => {
            writeln!(output, "refused {} {}", error.number(), error.position())?;
            return Ok(Status::Refused);
        }
    };
    let rows = document.table().chunks(16);
    let text = text_bytes(document.table());
    let warnings = document.warnings();
    writeln!(output, "ok {} {text} {}", rows.len(), warnings.len())?;
    for row in rows {
        line(output, row)?;
    }
    for warning in warnings {
        line(output, &words(&warning))?;
    }
    Ok(Status::Read)
}

/// The text bytes that a table uses: the end of its last triple of source 2.
fn text_bytes(table: &[u32]) -> u32 {
    let rows = table.chunks(16);
    let triples = rows.flat_map(|row| row[2..14].chunks(3));
    let ends = triples.filter(|triple| triple[0] == 2);
    ends.map(|triple| triple[1] + triple[2]).max().unwrap_or(0)
}

/// The words of a warning. The name stands directly after `<`.
fn words(warning: &Warning<'_>) -> [u32; 4] {
    let place = warning.position() as u32;
    let len = warning.element().len() as u32;
    [warning.number(), place, place + 1, len]
}

fn line(output: &mut impl Write, words: &[u32]) -> io::Result<()> {
    let words: Vec<_> = words.iter().map(u32::to_string).collect();
    writeln!(output, "{}", words.join(" "))
}
