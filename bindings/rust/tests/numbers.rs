//! Numbers, kinds and reasons: docs/numbers.txt is the table to which the header, this crate and
//! docs/FORMAT.md are held.

const TABLE: &str = include_str!("../../../docs/numbers.txt");
const HEADER: &str = include_str!("../../../include/introspection.h");
const FORMAT: &str = include_str!("../../../docs/FORMAT.md");
const ANSWER: &str = include_str!("../src/answer.rs");
const ROW: &str = include_str!("../src/row.rs");

/// The rows of the table of one sort: number, name and words.
fn table(sort: &str) -> Vec<(u32, &'static str, &'static str)> {
    let lines = TABLE.lines().filter_map(|line| line.strip_prefix(sort));
    let rows = lines.map(|line| {
        let (number, rest) = line.trim_start().split_once(' ').unwrap();
        let (name, words) = rest.split_once(' ').unwrap();
        (number.parse().unwrap(), name, words.trim_start())
    });
    let rows: Vec<_> = rows.collect();
    assert!(!rows.is_empty(), "{sort}");
    rows
}

/// Numbers and names of a sort, for comparison with those of a program.
fn names(sort: &str) -> Vec<(u32, String)> {
    let rows = table(sort).into_iter();
    rows.map(|(number, name, _)| (number, name.to_string()))
        .collect()
}

/// What stands between two texts, the first of them once in the whole.
fn between<'t>(text: &'t str, start: &str, end: &str) -> &'t str {
    assert_eq!(text.matches(start).count(), 1, "{start}");
    let (_, rest) = text.split_once(start).unwrap();
    rest.split_once(end).unwrap().0
}

/// `NAME = NUMBER,` in the lines of a part of a program, whatever stands around it.
fn pairs(part: &str, before: &str, equals: &str) -> Vec<(u32, String)> {
    let lines = part.lines().filter_map(|line| {
        let line = line.trim().strip_prefix(before)?;
        let (name, number) = line.split_once(equals)?;
        let digits = number.find(|c: char| !c.is_ascii_digit());
        let number = &number[..digits.unwrap_or(number.len())];
        Some((number.parse().ok()?, name.to_string()))
    });
    lines.collect()
}

/// `UnknownEntity` as `UNKNOWN_ENTITY`.
fn upper(name: &str) -> String {
    let mut upper = String::new();
    for (index, character) in name.char_indices() {
        if character.is_ascii_uppercase() && index > 0 {
            upper.push('_');
        }
        upper.push(character.to_ascii_uppercase());
    }
    upper
}

#[test]
fn the_table_has_each_once_and_in_order() {
    for sort in ["number", "kind", "reason"] {
        let rows = table(sort);
        assert!(rows.windows(2).all(|pair| pair[0].0 < pair[1].0), "{sort}");
        let mut names: Vec<_> = rows.iter().map(|row| row.1).collect();
        names.sort_unstable();
        names.dedup();
        assert_eq!(names.len(), rows.len());
    }
    let all = TABLE
        .lines()
        .filter(|line| !line.is_empty() && !line.starts_with('#'));
    assert_eq!(
        all.count(),
        table("number").len() + table("kind").len() + table("reason").len()
    );
}

#[test]
fn the_header_has_the_same() {
    let part = |name| between(HEADER, &format!("enum introspection_{name} {{"), "};");
    let mut numbers = pairs(part("number"), "INTROSPECTION_", " = ");
    assert_eq!(numbers.remove(0), (0, "ACCEPTED".to_string()));
    assert_eq!(numbers, names("number"));
    let kinds = pairs(part("kind"), "INTROSPECTION_KIND_", " = ");
    assert_eq!(kinds, names("kind"));
    let reasons = pairs(part("reason"), "INTROSPECTION_REASON_", " = ");
    assert_eq!(reasons, names("reason"));
}

#[test]
fn the_crate_has_the_same() {
    let cases = [
        ("ErrorKind", "KINDS", "number"),
        ("Reason", "REASONS", "reason"),
    ];
    for (name, list, sort) in cases {
        let declared = pairs(
            between(ANSWER, &format!("pub enum {name} {{"), "\n}"),
            "",
            " = ",
        );
        let declared: Vec<_> = declared
            .into_iter()
            .map(|(n, name)| (n, upper(&name)))
            .collect();
        assert_eq!(declared, names(sort));
        // the list from which a number is looked up has them all
        let length = declared.len();
        let listed = between(
            ANSWER,
            &format!("const {list}: [{name}; {length}] = ["),
            "];",
        );
        let listed: Vec<_> = listed
            .split(',')
            .map(str::trim)
            .filter(|name| !name.is_empty())
            .collect();
        let last = |name: &str| upper(name.rsplit("::").next().unwrap());
        let listed: Vec<_> = listed.into_iter().map(last).collect();
        assert!(
            listed.iter().eq(declared.iter().map(|(_, name)| name)),
            "{list}"
        );
    }
    let kinds = pairs(
        between(ROW, "mod kind {", "\n}"),
        "pub(crate) const ",
        ": u32 = ",
    );
    assert_eq!(kinds, names("kind"));
}

/// `1 node, 2 interface` as numbers and words.
fn enumerated(text: &str) -> Vec<(u32, String)> {
    let text = text.split_whitespace().collect::<Vec<_>>().join(" ");
    let parts = text.split(", ").map(|part| {
        let (number, words) = part.split_once(' ').unwrap();
        (number.parse().unwrap(), words.to_string())
    });
    parts.collect()
}

#[test]
fn the_document_has_the_same() {
    let words = |sort| -> Vec<_> {
        let rows = table(sort).into_iter();
        rows.map(|(number, _, words)| (number, words.to_string()))
            .collect()
    };
    let answers = between(FORMAT, "\n## Answers\n", "\nOrder when reading");
    let rows = answers.lines().filter_map(|line| {
        let mut cells = line.split('|').map(str::trim).skip(1);
        let number: u32 = cells.next()?.parse().ok()?;
        Some((number, cells.next()?.to_string()))
    });
    assert_eq!(rows.collect::<Vec<_>>(), words("number"));
    let kinds = between(FORMAT, "| 0 | kind: ", " |");
    assert_eq!(enumerated(kinds), words("kind"));
    let reasons = between(FORMAT, " Reasons: ", ".\n");
    assert_eq!(enumerated(reasons), words("reason"));
}
