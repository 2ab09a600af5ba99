//! Documents that own their input, and reading from a reader.

mod common;

use std::collections::HashMap;
use std::io::{self, Read};
use std::thread;

use common::{ANTENNA, DAMAGED, HINGE};
use introspection::telepathy::TypeDef;
use introspection::{
    Annotation, Arg, Child, Document, Error, ErrorKind, Interface, Lines, Method, Node, Property,
    ReadError, Signal, Warning, LIMIT,
};

#[test]
fn everything_goes_to_another_thread() {
    fn both<T: Send + Sync>() {}
    both::<Document<'_>>();
    both::<Error>();
    both::<ReadError>();
    both::<Warning<'_>>();
    both::<Lines<'_>>();
    both::<Node<'_>>();
    both::<Interface<'_>>();
    both::<Child<'_>>();
    both::<Method<'_>>();
    both::<Signal<'_>>();
    both::<Property<'_>>();
    both::<Arg<'_>>();
    both::<Annotation<'_>>();
    both::<TypeDef<'_>>();
}

#[test]
fn a_monitor_keeps_what_it_read() {
    let mut kept: HashMap<&str, Document<'static>> = HashMap::new();
    for (name, bytes) in [("antenna", ANTENNA), ("hinge", HINGE)] {
        let input = bytes.to_vec();
        let document = Document::parse(&input).unwrap();
        kept.insert(name, document.to_owned());
        drop(input);
    }
    let names = thread::scope(|scope| {
        let reads = kept.values().map(|document| {
            scope.spawn(move || document.root().interfaces().next().unwrap().name())
        });
        let reads: Vec<_> = reads.collect();
        let mut names: Vec<_> = reads.into_iter().map(|read| read.join().unwrap()).collect();
        names.sort_unstable();
        names
    });
    assert_eq!(names, ["org.example.Antenna", "org.example.Hinge"]);
}

#[test]
fn the_owned_document_is_the_same() {
    for input in [ANTENNA, HINGE] {
        let document = Document::parse(input).unwrap();
        let owned = document.clone().into_owned();
        assert_eq!(owned, document);
        assert_eq!(owned.table(), document.table());
        assert!(owned.warnings().eq(document.warnings()));
        let written = |document: &Document<'_>| common::Seen::of(document).written;
        assert_eq!(written(&owned), written(&document));
        let read = Document::from_reader(input).unwrap();
        assert_eq!(read, document);
        assert_eq!(read.table(), document.table());
    }
}

/// Gives one byte for each call, and is interrupted before each.
struct Slow<'a>(&'a [u8], bool);

impl Read for Slow<'_> {
    fn read(&mut self, buffer: &mut [u8]) -> io::Result<usize> {
        self.1 = !self.1;
        if self.1 {
            return Err(io::ErrorKind::Interrupted.into());
        }
        let len = buffer.len().min(1);
        self.0.read(&mut buffer[..len])
    }
}

#[test]
fn a_reader_may_be_slow() {
    let document = Document::from_reader(Slow(ANTENNA, false)).unwrap();
    assert_eq!(document, Document::parse(ANTENNA).unwrap());
}

/// Counts what is taken from it.
struct Endless(usize);

impl Read for &mut Endless {
    fn read(&mut self, buffer: &mut [u8]) -> io::Result<usize> {
        buffer.fill(b' ');
        self.0 += buffer.len();
        Ok(buffer.len())
    }
}

#[test]
fn a_reader_without_end_is_refused() {
    let mut endless = Endless(0);
    let refused = Document::from_reader(&mut endless).unwrap_err();
    let ReadError::Refused { error, input } = refused else {
        panic!("{refused:?}")
    };
    assert_eq!(error.kind(), ErrorKind::TooLong);
    assert_eq!(input.len(), LIMIT + 1);
    assert_eq!(endless.0, LIMIT + 1);
}

#[test]
fn as_long_as_may_be() {
    let mut input = b"<node/>".to_vec();
    input.resize(LIMIT, b' ');
    assert!(Document::from_reader(&input[..]).is_ok());
}

#[test]
fn a_refusal_gives_the_input_back() {
    let refused = Document::from_reader(DAMAGED).unwrap_err();
    assert_eq!(
        refused.to_string(),
        "unknown entity `&when;` (at byte offset 296)"
    );
    let source = std::error::Error::source(&refused).unwrap();
    let source: &Error = source.downcast_ref().unwrap();
    assert_eq!(source.kind(), ErrorKind::UnknownEntity);
    let ReadError::Refused { error, input } = refused else {
        panic!("{refused:?}")
    };
    assert_eq!(input, DAMAGED);
    assert_eq!(error.line_column(&input), (8, 63));
}

#[test]
fn a_reader_that_fails() {
    let folder = std::fs::File::open(".").unwrap();
    let failed = Document::from_reader(folder).unwrap_err();
    let ReadError::Io(error) = failed else {
        panic!("{failed:?}")
    };
    assert_eq!(error.kind(), io::ErrorKind::IsADirectory);
}
