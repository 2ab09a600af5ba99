//! Whatever is read, nothing panics, every text is UTF-8, and what is written reads back.

mod common;

use common::{around, Seen, ANTENNA, DAMAGED, HINGE};
use introspection::{escape, unescape, Document};

/// A small generator, always the same numbers.
struct Numbers(u64);

impl Numbers {
    fn below(&mut self, n: usize) -> usize {
        self.0 = self
            .0
            .wrapping_mul(6364136223846793005)
            .wrapping_add(1442695040888963407);
        (self.0 >> 33) as usize % n
    }
}

/// Reads, looks at everything, and tells whether it was accepted.
fn look(input: &[u8]) -> bool {
    let document = match Document::parse(input) {
        Ok(document) => document,
        Err(error) => {
            assert!(error.position() <= input.len());
            assert!(matches!(error.number(), 1..=17 | 22..=25), "{error}");
            assert!(!error.to_string().is_empty());
            return false;
        }
    };
    let seen = Seen::of(&document);
    for text in &seen.texts {
        assert!(std::str::from_utf8(text.as_bytes()).is_ok());
    }
    for warning in document.warnings() {
        assert_eq!(input[warning.position()], b'<');
        assert!(input[warning.position() + 1..].starts_with(warning.element().as_bytes()));
        assert!((1..=9).contains(&warning.number()));
    }
    for xml in seen.written.iter().filter(|xml| !xml.starts_with("<arg")) {
        let again = around(xml);
        let again = Document::try_from(again.as_str()).unwrap();
        assert_eq!(Seen::of(&again).written[0], *xml);
        assert_eq!(again.warnings().len(), 0);
    }
    true
}

#[test]
fn whole() {
    assert!(look(ANTENNA));
    assert!(look(HINGE));
    assert!(!look(DAMAGED));
}

#[test]
fn cut_off_anywhere() {
    for input in [ANTENNA, HINGE, DAMAGED] {
        let accepted = (0..input.len()).filter(|&n| look(&input[..n])).count();
        // only without the line's end
        assert!(accepted <= 1);
    }
}

#[test]
fn a_byte_less() {
    for input in [HINGE, DAMAGED] {
        for at in 0..input.len() {
            let mut damaged = input.to_vec();
            damaged.remove(at);
            look(&damaged);
        }
    }
}

#[test]
fn other_bytes() {
    let mut numbers = Numbers(1);
    let telling = b"<>/=&;'\" \t\n\r!?-[]:#x0az\x00\x7f\x80\xc3\xa9\xe2\x82\xac\xf0\xff";
    let mut accepted = 0;
    for round in 0..4000 {
        let mut damaged = [ANTENNA, HINGE, DAMAGED][round % 3].to_vec();
        for _ in 0..1 + numbers.below(3) {
            let at = numbers.below(damaged.len());
            match numbers.below(4) {
                0 => damaged[at] = telling[numbers.below(telling.len())],
                1 => damaged.insert(at, telling[numbers.below(telling.len())]),
                2 => {
                    damaged.remove(at);
                }
                _ => {
                    let end = (at + numbers.below(40)).min(damaged.len());
                    damaged.drain(at..end);
                }
            }
        }
        accepted += usize::from(look(&damaged));
    }
    assert!(accepted > 100 && accepted < 3900, "{accepted}");
}

#[test]
fn pieces_in_any_order() {
    let pieces = [
        "<node>",
        "</node>",
        "<node name='&lt;é'>",
        "<interface name='a.b'>",
        "</interface>",
        "<method name='M'>",
        "</method>",
        "<signal name='S'>",
        "</signal>",
        "<arg type='s' name='\n'/>",
        "<annotation name='&#10;' value='€'/>",
        "<property name='P' type='u' access='read'/>",
        "<tp:enum name='E' type='u'>",
        "</tp:enum>",
        "<tp:enumvalue suffix='A' value='1'/>",
        "<tp:enumvalue suffix='A'/>",
        "<tp:struct name='T'>",
        "</tp:struct>",
        "<tp:member name='m' type='s' tp:type='&amp;'/>",
        "<tp:mapping name='T'>",
        "</tp:mapping>",
        "<tp:docstring> é </tp:docstring>",
        "<x/>",
        "<!-- -->",
        "text",
        "<![CDATA[<]]>",
    ];
    let mut numbers = Numbers(2);
    let mut accepted = 0;
    for _ in 0..20_000 {
        // open what the next piece closes only sometimes: half of the documents are closed at the end
        let mut open: Vec<&str> = vec!["node"];
        let mut input = String::from("<node>");
        for _ in 0..numbers.below(20) {
            let piece = pieces[numbers.below(pieces.len())];
            if let Some(name) = piece.strip_prefix("</") {
                let name = name.trim_end_matches('>');
                if open.len() == 1 || open.last() != Some(&name) && numbers.below(20) > 0 {
                    continue;
                }
                open.pop();
            } else if piece.starts_with('<') && !piece.contains("/>") && !piece.contains("</") {
                let name = piece[1..].split([' ', '>']).next().unwrap();
                if !name.starts_with('!') {
                    open.push(name);
                }
            }
            input.push_str(piece);
        }
        for name in open.iter().rev() {
            input.push_str(&format!("</{name}>"));
        }
        accepted += usize::from(look(input.as_bytes()));
    }
    assert!(accepted > 1000, "{accepted}");
}

#[test]
fn bytes_of_any_kind() {
    let mut numbers = Numbers(3);
    for _ in 0..2000 {
        let bytes: Vec<u8> = (0..numbers.below(64))
            .map(|_| numbers.below(256) as u8)
            .collect();
        look(&bytes);
        if let Ok(escaped) = escape(&bytes) {
            assert_eq!(unescape(&escaped).unwrap().as_bytes(), bytes);
        }
        if let Ok(shown) = unescape(&bytes) {
            assert_eq!(unescape(escape(&shown).unwrap()).unwrap(), shown);
        }
    }
}
