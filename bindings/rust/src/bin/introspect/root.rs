//! A root that is no node, and what was lost for it.

use introspection::{Document, Reason};

/// What to say of a document whose root is not `<node>`, if methods, signals or properties were left
/// out of it: such files are often parts of others, with an interface as their root.
pub fn lost_members(document: &Document<'_>) -> Option<String> {
    let root = name_at(document.text(), document.root().position() + 1);
    if root == "node" {
        return None;
    }
    let lost = |name: &str| {
        let left_out = document.warnings().filter(|warning| {
            warning.reason() == Reason::UnsupportedElement && warning.element() == name
        });
        left_out.count()
    };
    let counts = [
        ("method", "methods"),
        ("signal", "signals"),
        ("property", "properties"),
    ];
    let told: Vec<_> = counts
        .into_iter()
        .filter_map(|(one, many)| match lost(one) {
            0 => None,
            1 => Some(format!("1 {one}")),
            count => Some(format!("{count} {many}")),
        })
        .collect();
    if told.is_empty() {
        return None;
    }
    let told = told.join(", ");
    Some(format!(
        "the root is `<{root}>`, not `<node>`, and was read as one; left out: {told}"
    ))
}

/// The name of the tag whose name starts at a place (docs/FORMAT.md, Bytes).
fn name_at(input: &str, start: usize) -> &str {
    let ends = [' ', '\t', '\n', '\u{c}', '\r', '=', '/', '<', '>'];
    input[start..].split(ends).next().unwrap_or_default()
}
