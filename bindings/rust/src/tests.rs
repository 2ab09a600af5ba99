//! What the public API does not show: the tables, and the two ways to lend them.

use crate::row::{kind, word, Row};
use crate::{ffi, openings, room, text, Document, ErrorKind};

const ANTENNA: &[u8] = include_bytes!("../../../examples/antenna.xml");
const HINGE: &[u8] = include_bytes!("../../../examples/hinge.xml");

fn rows<'d>(document: &'d Document<'_>) -> impl Iterator<Item = Row<'d>> {
    (0..document.rows.len()).map(|index| document.row(index))
}

#[test]
fn the_first_room_is_enough_and_below_room() {
    for input in [ANTENNA, HINGE, b"<node/>", b"<a><b/><c/></a>"] {
        let document = Document::parse(input).unwrap();
        let used = document.rows.len() + document.warnings.len();
        assert!(used <= openings(input), "{used}");
        assert!(used <= room(input), "{used}");
    }
}

#[test]
fn too_little_room_at_first_reads_the_same() {
    for input in [ANTENNA, HINGE] {
        let document = Document::parse(input).unwrap();
        for first in [0, 1, document.rows.len() - 1, usize::MAX] {
            let other = Document::parse_with(false, input, first).unwrap();
            assert_eq!(document.rows, other.rows);
            assert_eq!(document.warnings, other.warnings);
            assert_eq!(document.text, other.text);
        }
    }
}

#[test]
fn a_refusal_is_the_same_with_too_little_room() {
    let input = include_bytes!("../../../examples/damaged.xml");
    let error = Document::parse(input).unwrap_err();
    assert_eq!(Document::parse_with(false, input, 0).unwrap_err(), error);
}

#[test]
fn tables_are_cut_to_what_is_used() {
    let document = Document::parse(ANTENNA).unwrap();
    assert_eq!(document.rows.len(), 36);
    assert_eq!(document.text.len(), 44);
    assert_eq!(document.warnings.len(), 0);
    assert!(document.rows.iter().all(|row| row[word::KIND] != 0));
    assert!(document.text.bytes().all(|byte| byte != 0));
}

#[test]
fn ends_are_those_of_the_parents() {
    let document = Document::parse(ANTENNA).unwrap();
    for row in rows(&document) {
        let within = |mut at: usize| loop {
            match document.rows[at][word::PARENT] {
                _ if at == row.index => return true,
                0 => return false,
                parent => at = parent as usize - 1,
            }
        };
        let inside = (0..document.rows.len()).filter(|&at| within(at));
        assert!(inside.eq(row.index..row.end()));
    }
}

#[test]
fn views_are_what_the_lookup_gives() {
    let input = b"<node name='&lt;\xc3\xa9'><interface name='a.b'/></node>";
    for input in [ANTENNA, HINGE, input] {
        let document = Document::parse(input).unwrap();
        for row in rows(&document) {
            for start in word::TRIPLES {
                let words = row.words();
                let triple = [words[start], words[start + 1], words[start + 2]];
                let (inside, [source, from, len]) =
                    ffi::lookup(input, document.text.as_bytes(), triple);
                let shown = row.shown(start);
                assert_eq!(inside, shown.is_some());
                let buffer = if source == 2 {
                    document.text.as_bytes()
                } else {
                    input
                };
                assert_eq!(
                    shown.unwrap_or("").as_bytes(),
                    &buffer[from..from + len],
                    "row {}",
                    row.index
                );
            }
        }
    }
}

#[test]
fn an_item_alone_is_written_as_in_its_document() {
    for input in [ANTENNA, HINGE] {
        let document = Document::parse(input).unwrap();
        let (input, text) = (document.input.as_bytes(), document.text.as_bytes());
        let mut output = vec![0; 10_000];
        for row in rows(&document) {
            let answer = ffi::write(input, text, &document.rows, row.index, &mut output);
            match row.kind() {
                kind::METHOD | kind::SIGNAL | kind::ANNOTATION | kind::ARG => {
                    let xml = &output[..answer.unwrap()];
                    assert_eq!(text::to_xml(row).as_bytes(), xml);
                }
                _ => {
                    let error = answer.unwrap_err();
                    assert_eq!(error.kind(), ErrorKind::NotWritable);
                    assert_eq!(error.position(), row.index);
                }
            }
        }
    }
}

#[test]
fn a_tree_alone_is_written_as_in_its_document() {
    for input in [ANTENNA, HINGE] {
        let document = Document::parse(input).unwrap();
        let (input, text) = (document.input.as_bytes(), document.text.as_bytes());
        let mut output = vec![0; 10_000];
        for row in rows(&document) {
            let answer = ffi::write_tree(input, text, &document.rows, row.index, &mut output);
            match row.kind() {
                kind::ENUMVALUE | kind::MEMBER => {
                    let error = answer.unwrap_err();
                    assert_eq!(error.kind(), ErrorKind::NotWritable);
                    assert_eq!(error.position(), row.index);
                }
                _ => {
                    let xml = &output[..answer.unwrap()];
                    assert_eq!(text::tree_to_xml(row).as_bytes(), xml);
                }
            }
        }
    }
}

#[test]
fn a_tree_is_not_deeper_than_it_may_be() {
    let document = Document::parse(b"<node/>").unwrap();
    let mut rows = vec![document.rows[0]; 1026];
    for (index, row) in rows.iter_mut().enumerate() {
        row[word::PARENT] = index as u32;
    }
    let input = document.input.as_bytes();
    let mut output = vec![1; 20_000];
    let error = ffi::write_tree(input, b"", &rows, 0, &mut output).unwrap_err();
    assert_eq!(error.kind(), ErrorKind::TooDeep);
    assert_eq!(error.position(), 1024);
    assert!(output.iter().all(|&byte| byte == 0));
    // 1,024 are open, and the last is closed at once
    assert!(ffi::write_tree(input, b"", &rows[..1025], 0, &mut output).is_ok());
    assert!(ffi::write_tree(input, b"", &rows, 1, &mut output).is_ok());
}

#[test]
fn rows_that_are_not_sound_are_not_followed() {
    let document = Document::parse(HINGE).unwrap();
    let (input, text) = (document.input.as_bytes(), document.text.as_bytes());
    let mut output = vec![0; 10_000];
    for at in 0..document.rows.len() {
        for k in 0..16 {
            let mut rows = document.rows.clone();
            rows[at][k] = u32::MAX;
            let error = ffi::write(input, text, &rows, 5, &mut output).unwrap_err();
            assert_eq!(error.kind(), ErrorKind::UnsoundRows, "row {at} word {k}");
            assert!(output.iter().all(|&byte| byte == 0));
        }
    }
}

#[test]
fn a_short_output_is_told_the_bytes_needed() {
    let document = Document::parse(HINGE).unwrap();
    let (input, text) = (document.input.as_bytes(), document.text.as_bytes());
    let xml = br#"<method name="Unfold"><arg name="side" type="y" direction="in"/></method>"#;
    for len in 0..xml.len() {
        let mut output = vec![1; len];
        let error = ffi::write(input, text, &document.rows, 5, &mut output).unwrap_err();
        assert_eq!(error.kind(), ErrorKind::OutputShort);
        assert_eq!(error.position(), xml.len());
        assert!(output.iter().all(|&byte| byte == 0));
    }
    let mut output = vec![1; xml.len()];
    let written = ffi::write(input, text, &document.rows, 5, &mut output).unwrap();
    assert_eq!(&output[..written], xml);
}

#[test]
fn the_header_is_of_this_version() {
    let header = include_str!("../../../include/introspection.h");
    let version = env!("CARGO_PKG_VERSION");
    let line = format!("#define INTROSPECTION_VERSION \"{version}\"\n");
    assert!(header.contains(&line), "{line}");
}
