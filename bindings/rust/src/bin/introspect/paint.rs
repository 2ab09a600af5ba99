//! Text for a terminal: colours, and what stands in a document made harmless.

use std::env;
use std::ffi::OsString;
use std::fmt::Display;
use std::io::IsTerminal;

/// Colours, or none.
#[derive(Clone, Copy)]
pub struct Paint(bool);

impl Paint {
    /// Colours for an output.
    pub fn of(output: &impl IsTerminal) -> Self {
        Self::new(output.is_terminal(), env::var_os("NO_COLOR"))
    }

    /// Colours if the output is a terminal and `NO_COLOR` is not set, or empty.
    fn new(terminal: bool, no_color: Option<OsString>) -> Self {
        Self(terminal && no_color.is_none_or(|value| value.is_empty()))
    }

    pub fn error(self, text: impl Display) -> String {
        self.code("1;31", text)
    }

    pub fn warning(self, text: impl Display) -> String {
        self.code("1;35", text)
    }

    pub fn note(self, text: impl Display) -> String {
        self.code("1;36", text)
    }

    pub fn strong(self, text: impl Display) -> String {
        self.code("1", text)
    }

    pub fn faint(self, text: impl Display) -> String {
        self.code("2", text)
    }

    fn code(self, code: &str, text: impl Display) -> String {
        if self.0 {
            format!("\u{1b}[{code}m{text}\u{1b}[m")
        } else {
            text.to_string()
        }
    }
}

/// Whether a terminal could be steered by a character: control characters, and those that turn the
/// direction of writing.
pub fn steers(character: char) -> bool {
    character.is_control()
        || matches!(character, '\u{200e}' | '\u{200f}' | '\u{2028}'..='\u{202e}' | '\u{2066}'..='\u{2069}')
}

/// A text in which each character that could steer a terminal is replaced.
pub fn plain(text: &str) -> String {
    let replaced = |character| {
        if steers(character) {
            '\u{fffd}'
        } else {
            character
        }
    };
    text.chars().map(replaced).collect()
}

/// A name or a value as one word: in quotes if it is empty, or has a blank, a quote or a character
/// that could steer a terminal.
pub fn word(text: &str) -> String {
    let bare = |c: char| !c.is_whitespace() && !matches!(c, '"' | '\\') && !steers(c);
    if !text.is_empty() && text.chars().all(bare) {
        return text.to_string();
    }
    let mut quoted = String::from("\"");
    for character in text.chars() {
        match character {
            '"' | '\\' => quoted.extend(['\\', character]),
            _ if steers(character) => quoted.extend(character.escape_default()),
            _ => quoted.push(character),
        }
    }
    quoted + "\""
}

#[cfg(test)]
mod tests {
    use super::*;

    #[test]
    fn colours_are_for_terminals() {
        assert_eq!(Paint(false).error("e"), "e");
        assert_eq!(Paint(true).error("e"), "\u{1b}[1;31me\u{1b}[m");
        assert!(Paint::new(true, None).0);
        assert!(Paint::new(true, Some("".into())).0);
        assert!(!Paint::new(true, Some("1".into())).0);
        assert!(!Paint::new(false, None).0);
    }

    #[test]
    fn words() {
        let cases = [
            ("a.b", "a.b"),
            ("\u{e9}", "\u{e9}"),
            ("", "\"\""),
            ("a b", "\"a b\""),
            ("a\"\\", "\"a\\\"\\\\\""),
            ("\u{1b}[31m", "\"\\u{1b}[31m\""),
            ("a\nb\t", "\"a\\nb\\t\""),
            ("\u{202e}", "\"\\u{202e}\""),
        ];
        for (text, shown) in cases {
            assert_eq!(word(text), shown);
        }
    }

    #[test]
    fn nothing_steers() {
        assert_eq!(
            plain("a\u{1b}[2J\u{9b}b\u{7f}"),
            "a\u{fffd}[2J\u{fffd}b\u{fffd}"
        );
        assert_eq!(plain("\u{e9} b"), "\u{e9} b");
    }
}
