//! Rows put down as columns, and back.

mod common;

use common::{ANTENNA, HINGE};
use introspection::{columns, rows, Document, Error, ErrorKind};

type Turn = fn(&[u32], usize, &mut [u32]) -> Result<(), Error>;

/// What a function leaves in room of so many words, which held others before.
fn turned(turn: Turn, source: &[u32], count: usize, room: usize) -> (Result<(), Error>, Vec<u32>) {
    let mut made = vec![0xa5a5_a5a5; room];
    let answer = turn(source, count, &mut made);
    (answer, made)
}

/// Words that go through all of 32 bits, with zeros and the largest word among them.
fn words(len: usize) -> Vec<u32> {
    let word = |i: usize| match i % 7 {
        0 => 0,
        3 => u32::MAX,
        _ => (i as u32).wrapping_mul(2_654_435_761),
    };
    (0..len).map(word).collect()
}

#[test]
fn each_word_has_its_place() {
    for count in [0, 1, 2, 3, 100] {
        let source = words(16 * count);
        let (answer, made) = turned(columns, &source, count, 16 * count);
        assert_eq!(answer, Ok(()));
        for r in 0..count {
            for k in 0..16 {
                let above = if r == 0 { 0 } else { source[16 * (r - 1) + k] };
                let less = source[16 * r + k].wrapping_sub(above);
                assert_eq!(made[k * count + r], less, "word {k} of row {r}");
            }
        }
    }
}

#[test]
fn either_undoes_the_other() {
    for (first, second) in [(columns as Turn, rows as Turn), (rows, columns)] {
        for count in [0, 1, 2, 3, 64, 65, 1000] {
            let len = 16 * count;
            // the source is longer, and so is the room
            let source = words(len + 5);
            let (answer, made) = turned(first, &source, count, len + 3);
            assert_eq!(answer, Ok(()));
            assert_eq!(made[len..], [0; 3]);
            let (answer, back) = turned(second, &made, count, len + 1);
            assert_eq!(answer, Ok(()));
            assert_eq!(back[..len], source[..len]);
            assert_eq!(back[len], 0);
        }
    }
}

#[test]
fn refusals() {
    for turn in [columns as Turn, rows as Turn] {
        for (held, count, room, kind, place) in [
            (47, 3, 48, ErrorKind::NoRoom, 3),
            (48, 3, 47, ErrorKind::NoRoom, 3),
            (0, 1, 0, ErrorKind::NoRoom, 1),
            (48, 262_144, 48, ErrorKind::NoRoom, 262_144),
            (48, 262_145, 48, ErrorKind::TooManyRows, 262_144),
            (0, usize::MAX, 0, ErrorKind::TooManyRows, 262_144),
            (48, 1 << 60, 48, ErrorKind::TooManyRows, 262_144),
        ] {
            let (answer, made) = turned(turn, &words(held), count, room);
            let error = answer.unwrap_err();
            assert_eq!((error.kind(), error.position()), (kind, place));
            assert!(made.iter().all(|&word| word == 0));
        }
    }
    let many = columns(&[], 262_145, &mut []).unwrap_err();
    assert_eq!(many.number(), 30);
    assert_eq!(many.to_string(), "too many rows (at row 262144)");
    let short = rows(&[], 2, &mut []).unwrap_err();
    assert_eq!(short.number(), 18);
    assert_eq!(short.to_string(), "no room in a lent table (at row 2)");
}

#[test]
fn a_table_packs_better_as_columns() {
    for input in [ANTENNA, HINGE] {
        let document = Document::parse(input).unwrap();
        let table = document.table();
        let count = table.len() / 16;
        let (answer, made) = turned(columns, table, count, table.len());
        assert_eq!(answer, Ok(()));
        let zeros = |words: &[u32]| words.iter().filter(|&&word| word == 0).count();
        assert!(
            zeros(&made) > zeros(table),
            "{} of {}",
            zeros(&made),
            zeros(table)
        );
        let (_, back) = turned(rows, &made, count, table.len());
        assert_eq!(back, table);
    }
}
