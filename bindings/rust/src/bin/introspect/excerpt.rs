//! The line of a place, and a caret under it.

use introspection::Lines;

use crate::paint::steers;

/// The most characters that are shown before the place, and from it on.
const BEFORE: usize = 100;
const AFTER: usize = 100;

/// The most bytes of a character.
const CHARACTER: usize = 4;

/// Two lines: the line of a place, cut where it is long, and a caret under the place. None if the
/// line is empty.
pub fn excerpt(lines: &Lines<'_>, position: usize) -> Option<[String; 2]> {
    let (number, _) = lines.line_column(position);
    let line = lines.line(number);
    if line.is_empty() {
        return None;
    }
    let at = (position - lines.start(number)).min(line.len());
    let before = last(&line[..at]);
    let after = first(&line[at..]);
    let under: String = before
        .chars()
        .map(|character| if character == '\t' { '\t' } else { ' ' })
        .collect();
    Some([before + &after, under + "^"])
}

/// The end of what stands before the place.
fn last(bytes: &[u8]) -> String {
    let from = bytes.len().saturating_sub(BEFORE * CHARACTER + CHARACTER);
    let text = shown(&bytes[from..]);
    match text.char_indices().rev().nth(BEFORE - 1) {
        Some((cut, _)) if from > 0 || cut > 0 => format!("...{}", &text[cut..]),
        _ => text,
    }
}

/// The beginning of what stands from the place on.
fn first(bytes: &[u8]) -> String {
    let to = bytes.len().min(AFTER * CHARACTER + CHARACTER);
    let text = shown(&bytes[..to]);
    match text.char_indices().nth(AFTER) {
        Some((cut, _)) => format!("{}...", &text[..cut]),
        None => text,
    }
}

/// Bytes as text of one line, with a tab as it is.
fn shown(bytes: &[u8]) -> String {
    let replaced = |c| {
        if c != '\t' && steers(c) {
            '\u{fffd}'
        } else {
            c
        }
    };
    String::from_utf8_lossy(bytes)
        .chars()
        .map(replaced)
        .collect()
}

#[cfg(test)]
mod tests {
    use super::*;

    fn of(text: &str, position: usize) -> [String; 2] {
        excerpt(&Lines::new(text), position).unwrap()
    }

    #[test]
    fn short_lines_are_whole() {
        assert_eq!(of("ab\ncd\nef", 4), ["cd", " ^"]);
        assert_eq!(of("ab\r\ncd", 2), ["ab", "  ^"]);
        assert_eq!(of("ab\r\ncd", 3), ["ab", "  ^"]);
        assert_eq!(of("ab", 2), ["ab", "  ^"]);
        assert_eq!(of("\t\u{e9}\u{1f680}<", 7), ["\t\u{e9}\u{1f680}<", "\t  ^"]);
        assert!(excerpt(&Lines::new("ab\n"), 3).is_none());
    }

    #[test]
    fn long_lines_are_cut() {
        for unit in ["a", "\u{e9}", "\u{20ac}", "\u{1f680}"] {
            let text = unit.repeat(1000);
            let [line, under] = of(&text, 500 * unit.len());
            assert_eq!(line, format!("...{}...", unit.repeat(BEFORE + AFTER)));
            assert_eq!(under, " ".repeat(3 + BEFORE) + "^");
            let [line, under] = of(&text, 0);
            assert_eq!(line, format!("{}...", unit.repeat(AFTER)));
            assert_eq!(under, "^");
            let [line, under] = of(&text, text.len());
            assert_eq!(line, format!("...{}", unit.repeat(BEFORE)));
            assert_eq!(under, " ".repeat(3 + BEFORE) + "^");
        }
        let text = "a".repeat(BEFORE + AFTER);
        assert_eq!(of(&text, BEFORE)[0], text);
    }

    #[test]
    fn a_terminal_is_not_steered() {
        assert_eq!(of("a\u{1b}[2Jb", 5), ["a\u{fffd}[2Jb", "     ^"]);
    }
}
