//! Turns a file into a page of Markdown: what a program over zbus_xml 6.0.0 looks like.

use std::fmt::Write;
use std::fs::File;

use zbus_xml::telepathy::TypeDef;
use zbus_xml::{Arg, ArgDirection, Interface, Node, PropertyAccess};

pub fn page(path: &str) -> Result<String, Box<dyn std::error::Error>> {
    let (root, warnings) = Node::from_reader_with_warnings(File::open(path)?)?;
    let mut page = String::new();
    writeln!(page, "# {}", root.name().unwrap_or("/"))?;
    if let Some(docstring) = root.docstring() {
        writeln!(page, "{docstring}")?;
    }
    for definition in root.telepathy_types() {
        definition_on(&mut page, definition)?;
    }
    for interface in root.interfaces() {
        interface_on(&mut page, interface)?;
    }
    for node in root.nodes() {
        let name = node.name().unwrap_or("");
        writeln!(page, "- {name} has {}", node.interfaces().len())?;
    }
    for warning in &warnings {
        writeln!(page, "> {} {}", warning.element(), warning)?;
    }
    Ok(page)
}

fn interface_on(page: &mut String, interface: &Interface<'_>) -> std::fmt::Result {
    writeln!(page, "## {}", interface.name())?;
    for definition in interface.telepathy_types() {
        definition_on(page, definition)?;
    }
    for method in interface.methods() {
        let args: Vec<_> = method.args().iter().map(arg).collect();
        writeln!(page, "- {}({})", method.name(), args.join(", "))?;
        for annotation in method.annotations() {
            writeln!(page, "  - {} {}", annotation.name(), annotation.value())?;
        }
    }
    for signal in interface.signals() {
        let args: Vec<_> = signal.args().iter().map(arg).collect();
        writeln!(page, "- signal {}({})", signal.name(), args.join(", "))?;
    }
    for property in interface.properties() {
        let access = match property.access() {
            PropertyAccess::Read => "read only",
            PropertyAccess::Write => "write only",
            PropertyAccess::ReadWrite => "read and write",
        };
        writeln!(page, "- {} {}, {access}", property.ty(), property.name())?;
    }
    Ok(())
}

fn arg(arg: &Arg<'_>) -> String {
    let direction = match arg.direction() {
        Some(ArgDirection::Out) => "out ",
        _ => "",
    };
    let ty = match arg.tp_type() {
        Some(name) => name.to_string(),
        None => arg.ty().to_string(),
    };
    format!("{direction}{ty} {}", arg.name().unwrap_or("_"))
}

fn definition_on(page: &mut String, definition: &TypeDef<'_>) -> std::fmt::Result {
    let name = definition.name();
    let signature = definition.signature();
    write!(page, "- {name} is {signature}")?;
    match definition {
        TypeDef::SimpleType(_) => {}
        TypeDef::Enum(definition) => {
            for value in definition.values() {
                write!(page, ", {} {}", value.value(), value.suffix())?;
            }
        }
        TypeDef::Struct(definition) => {
            write!(page, " of {}", definition.members().len())?;
        }
        TypeDef::Mapping(definition) => {
            let (key, value) = (definition.key(), definition.value());
            write!(page, " from {} to {}", key.name(), value.name())?;
        }
    }
    writeln!(page)
}
