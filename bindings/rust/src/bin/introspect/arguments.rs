//! What is asked for on the command line.

use std::ffi::OsString;

use crate::input::Input;

pub const HELP: &str = "\
Shows, checks, lists and cleans D-Bus introspection documents.

  introspect show [--places] [FILE..]   the tree, then what was left out
  introspect check [--strict] [FILE..]  the places of what is wrong, and sums
  introspect list [FILE]                the tables as numbers
  introspect clean [FILE]               the document without what was left out
  introspect --help | --version

Without a FILE, or for -, standard input is read. After -- all are FILEs.

  --places   each item with its line and column
  --strict   refuse, too, what breaks the strict profile

Exit status: 0 if all was read, 1 if a document was refused, 2 if a file cannot
be read or standard output cannot be written. Colours come only on a terminal,
and not if NO_COLOR is set.
";

pub enum Request {
    Help,
    Version,
    Run(Verb, Vec<Input>),
}

#[derive(Clone, Copy)]
pub enum Verb {
    Show { places: bool },
    Check { strict: bool },
    List,
    Clean,
}

/// The request of some arguments, or what is wrong with them.
pub fn request(arguments: impl IntoIterator<Item = OsString>) -> Result<Request, String> {
    let mut arguments = arguments.into_iter();
    let first = arguments.next().ok_or("a command is missing")?;
    let verb = match first.to_str() {
        Some("--help" | "-h" | "help") => return Ok(Request::Help),
        Some("--version" | "-V") => return Ok(Request::Version),
        Some("show") => Verb::Show { places: false },
        Some("check") => Verb::Check { strict: false },
        Some("list") => Verb::List,
        Some("clean") => Verb::Clean,
        _ => return Err(format!("there is no command {}", quoted(&first))),
    };
    of_verb(verb, arguments)
}

/// The request of a command with what follows it.
fn of_verb(mut verb: Verb, arguments: impl Iterator<Item = OsString>) -> Result<Request, String> {
    let mut inputs = Vec::new();
    let mut options = true;
    for argument in arguments {
        match argument.to_str() {
            Some("--") if options => options = false,
            Some("--help" | "-h") if options => return Ok(Request::Help),
            Some("--version" | "-V") if options => return Ok(Request::Version),
            Some("--places") if options && matches!(verb, Verb::Show { .. }) => {
                verb = Verb::Show { places: true }
            }
            Some("--strict") if options && matches!(verb, Verb::Check { .. }) => {
                verb = Verb::Check { strict: true }
            }
            Some("-") if options => inputs.push(Input::Standard),
            _ if options && argument.as_encoded_bytes().starts_with(b"-") => {
                return Err(format!("there is no option {}", quoted(&argument)))
            }
            _ => inputs.push(Input::File(argument)),
        }
    }
    if inputs.is_empty() {
        inputs.push(Input::Standard);
    }
    let alone = match verb {
        Verb::List => Some("list"),
        Verb::Clean => Some("clean"),
        _ => None,
    };
    match alone {
        Some(command) if inputs.len() > 1 => Err(format!("{command} takes one file")),
        _ => Ok(Request::Run(verb, inputs)),
    }
}

fn quoted(argument: &OsString) -> String {
    format!("`{}`", crate::paint::plain(&argument.to_string_lossy()))
}
