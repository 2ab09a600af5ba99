//! quick-xml: all events, with attribute values unescaped.
use quick_xml::{events::Event, Reader};
use std::hint::black_box;

/// How many elements a document has; with `texts` the text between tags is unescaped too.
fn events(bytes: &[u8], texts: bool) -> Option<i64> {
    let mut reader = Reader::from_reader(bytes);
    let mut count = 0;
    loop {
        match reader.read_event().ok()? {
            Event::Start(tag) | Event::Empty(tag) => {
                count += 1;
                for attribute in tag.attributes() {
                    let attribute = attribute.ok()?;
                    black_box(attribute.key);
                    black_box(attribute.unescape_value().ok()?);
                }
            }
            Event::Text(text) if texts => {
                black_box(text.unescape().ok()?);
            }
            Event::Eof => return Some(count),
            other => {
                black_box(other);
            }
        }
    }
}

unsafe fn given<'a>(bytes: *const u8, len: usize) -> &'a [u8] {
    std::slice::from_raw_parts(bytes, len)
}

#[no_mangle]
pub unsafe extern "C" fn quick_values(bytes: *const u8, len: usize) -> i64 {
    events(given(bytes, len), false).unwrap_or(-1)
}

#[no_mangle]
pub unsafe extern "C" fn quick_texts(bytes: *const u8, len: usize) -> i64 {
    events(given(bytes, len), true).unwrap_or(-1)
}

/// As `quick_values`, with the whole document checked to be UTF-8 first.
#[no_mangle]
pub unsafe extern "C" fn quick_checked(bytes: *const u8, len: usize) -> i64 {
    let text = std::str::from_utf8(given(bytes, len));
    text.ok().and_then(|s| events(s.as_bytes(), false)).unwrap_or(-1)
}
