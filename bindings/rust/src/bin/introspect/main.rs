//! `introspect`: shows, checks, lists and cleans D-Bus introspection documents (docs/introspect.md).
//!
//! What was asked for goes to standard output. That a file cannot be read, or standard output cannot
//! be written, is told on standard error.

mod arguments;
mod check;
mod clean;
mod excerpt;
mod input;
mod list;
mod paint;
mod root;
mod show;

use std::env;
use std::io::{self, BufWriter, Write};
use std::process::ExitCode;

use arguments::{Request, Verb};
use input::Input;
use paint::Paint;

/// What came of a file, and of all: the worst of it. The discriminants are the exit statuses.
#[derive(Clone, Copy, Debug, PartialEq, Eq, PartialOrd, Ord)]
#[repr(u8)]
pub enum Status {
    Read = 0,
    Refused = 1,
    Failed = 2,
}

fn main() -> ExitCode {
    let status = match arguments::request(env::args_os().skip(1)) {
        Ok(request) => {
            let mut output = BufWriter::new(io::stdout().lock());
            let answer = answer(&request, &mut output);
            let answer = answer.and_then(|status| output.flush().map(|()| status));
            // what could not be written is given up, not tried once more at the end
            let _ = output.into_parts();
            answer.unwrap_or_else(|error| {
                tell(&format!(
                    "cannot write standard output: {}",
                    input::reason(&error)
                ))
            })
        }
        Err(wrong) => tell(&format!("{wrong}; introspect --help says more")),
    };
    ExitCode::from(status as u8)
}

/// Answers a request. An error is one of writing.
fn answer(request: &Request, output: &mut impl Write) -> io::Result<Status> {
    match request {
        Request::Help => output.write_all(arguments::HELP.as_bytes())?,
        Request::Version => writeln!(output, "introspect {}", env!("CARGO_PKG_VERSION"))?,
        Request::Run(verb, inputs) => return run(*verb, inputs, output),
    }
    Ok(Status::Read)
}

fn run(verb: Verb, inputs: &[Input], output: &mut impl Write) -> io::Result<Status> {
    let paint = Paint::of(&io::stdout());
    match verb {
        Verb::Show { places } => show::run(inputs, places, paint, output),
        Verb::Check { strict } => check::run(inputs, strict, paint, output),
        Verb::List => list::run(inputs, output),
        Verb::Clean => clean::run(inputs, output),
    }
}

/// Says on standard error what could not be done. If that cannot be written there is nobody to tell.
pub fn tell(what: &str) -> Status {
    let _ = writeln!(io::stderr(), "introspect: {what}");
    Status::Failed
}
