//! A monitor of services: reads the interface files of a folder, keeps them, and prints the table of
//! states: each property that names an enum as its type, with the values that the enum has.
//!
//!     cargo run --example monitor ../../examples
//!
//! An enum that is not whole was left out, and its warning is told; so is a file that is refused.
//! examples/monitor.c of the repository is the same program in C.

use std::collections::BTreeMap;
use std::fs::{self, File};
use std::io::{self, Write};
use std::path::Path;
use std::process::ExitCode;

use introspection::telepathy::{Enum, TypeDef};
use introspection::{Document, Interface, Node, ReadError};

fn main() -> ExitCode {
    let Some(folder) = std::env::args_os().nth(1) else {
        eprintln!("monitor: the name of a folder is missing");
        return ExitCode::from(2);
    };
    let services = match services(Path::new(&folder)) {
        Ok(services) => services,
        Err(error) => {
            eprintln!("monitor: cannot read {}: {error}", folder.to_string_lossy());
            return ExitCode::from(2);
        }
    };
    match table(&services, &mut io::stdout().lock()) {
        Ok(()) => ExitCode::SUCCESS,
        Err(error) => {
            eprintln!("monitor: cannot write standard output: {error}");
            ExitCode::from(2)
        }
    }
}

/// The documents of a folder by the names of their files. A document owns what it was read from, so
/// it can be kept for as long as the monitor runs.
fn services(folder: &Path) -> io::Result<BTreeMap<String, Document<'static>>> {
    let mut services = BTreeMap::new();
    let mut paths: Vec<_> = fs::read_dir(folder)?
        .map(|entry| Ok(entry?.path()))
        .collect::<io::Result<_>>()?;
    paths.retain(|path| path.extension().is_some_and(|extension| extension == "xml"));
    paths.sort();
    for path in paths {
        let name = path.file_name().unwrap_or_default().to_string_lossy();
        match File::open(&path)
            .map_err(ReadError::from)
            .and_then(Document::from_reader)
        {
            Ok(document) => {
                services.insert(name.into_owned(), document);
            }
            Err(ReadError::Refused { error, input }) => {
                let (line, column) = error.line_column(&input);
                eprintln!("{name}:{line}:{column}: error: {}", error.message());
            }
            Err(error) => eprintln!("{name}: {error}"),
        }
    }
    Ok(services)
}

fn table(
    services: &BTreeMap<String, Document<'static>>,
    output: &mut impl Write,
) -> io::Result<()> {
    for (name, document) in services {
        states(name, document.root(), &mut Vec::new(), output)?;
        for warning in document.warnings() {
            let (line, column) = warning.line_column(document.text());
            eprintln!("{name}:{line}:{column}: warning: {}", warning.message());
        }
    }
    output.flush()
}

/// The states of a node and of the nodes in it. `known` are the enums of the nodes around it.
fn states<'d>(
    name: &str,
    node: Node<'d>,
    known: &mut Vec<Enum<'d>>,
    output: &mut impl Write,
) -> io::Result<()> {
    let before = known.len();
    known.extend(node.telepathy_types().filter_map(an_enum));
    for interface in node.interfaces() {
        let around = known.len();
        known.extend(interface.telepathy_types().filter_map(an_enum));
        states_of(name, interface, known, output)?;
        known.truncate(around);
    }
    for node in node.nodes() {
        states(name, node, known, output)?;
    }
    known.truncate(before);
    Ok(())
}

fn an_enum(definition: TypeDef<'_>) -> Option<Enum<'_>> {
    match definition {
        TypeDef::Enum(definition) => Some(definition),
        _ => None,
    }
}

fn states_of(
    name: &str,
    interface: Interface<'_>,
    known: &[Enum<'_>],
    output: &mut impl Write,
) -> io::Result<()> {
    for property in interface.properties() {
        let Some(ty) = property.tp_type() else {
            continue;
        };
        write!(output, "{name} {}.{}", interface.name(), property.name())?;
        // the innermost is the last
        match known.iter().rfind(|definition| definition.name() == ty) {
            Some(definition) => {
                for value in definition.values() {
                    write!(output, " {}={}", value.value(), value.suffix())?;
                }
                writeln!(output)?;
            }
            None => writeln!(output, " has no enum {ty}")?,
        }
    }
    Ok(())
}
