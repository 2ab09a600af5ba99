//! The functions of the archive, each behind a safe one. All `unsafe` of the crate is here.
//!
//! What holds for every call below:
//! - A slice goes over as its pointer and its number of elements, so all of it may be read, and
//!   written where it is `&mut`; an empty one has a pointer that is not null and is not used.
//! - `&mut` borrows are exclusive, so no two of the buffers that are written overlap, nor one of
//!   them and one that is read. The functions keep no pointer after they return.
//! - The functions are proved for every input: they have no precondition, stay inside what is lent,
//!   end, and leave each buffer filled with words or bytes. They do not unwind.

use crate::answer::Error;

extern "C" {
    fn introspection_read(
        document: *const u8,
        document_len: usize,
        rows: *mut u32,
        rows_len: usize,
        warnings: *mut u32,
        warnings_len: usize,
        text: *mut u8,
        text_len: usize,
        decoded: *mut u8,
        decoded_len: usize,
        answer: *mut u64,
    );

    fn introspection_read_strict(
        document: *const u8,
        document_len: usize,
        rows: *mut u32,
        rows_len: usize,
        warnings: *mut u32,
        warnings_len: usize,
        text: *mut u8,
        text_len: usize,
        decoded: *mut u8,
        decoded_len: usize,
        answer: *mut u64,
    );

    fn introspection_message(
        document: *const u8,
        document_len: usize,
        refusal: *const u64,
        output: *mut u8,
        output_len: usize,
        answer: *mut u64,
    );

    fn introspection_warning_message(
        document: *const u8,
        document_len: usize,
        warning: *const u32,
        output: *mut u8,
        output_len: usize,
        answer: *mut u64,
    );

    fn introspection_escape(
        value: *const u8,
        value_len: usize,
        output: *mut u8,
        output_len: usize,
        answer: *mut u64,
    );

    fn introspection_unescape(
        value: *const u8,
        value_len: usize,
        output: *mut u8,
        output_len: usize,
        answer: *mut u64,
    );

    fn introspection_write(
        document: *const u8,
        document_len: usize,
        text: *const u8,
        text_len: usize,
        rows: *const u32,
        rows_len: usize,
        claimed: u64,
        row: u64,
        output: *mut u8,
        output_len: usize,
        answer: *mut u64,
    );

    fn introspection_write_tree(
        document: *const u8,
        document_len: usize,
        text: *const u8,
        text_len: usize,
        rows: *const u32,
        rows_len: usize,
        claimed: u64,
        row: u64,
        output: *mut u8,
        output_len: usize,
        answer: *mut u64,
    );

    fn introspection_columns(
        rows: *const u32,
        rows_len: usize,
        count: u64,
        columns: *mut u32,
        columns_len: usize,
        answer: *mut u64,
    );

    fn introspection_rows(
        columns: *const u32,
        columns_len: usize,
        count: u64,
        rows: *mut u32,
        rows_len: usize,
        answer: *mut u64,
    );

    fn introspection_order(
        document: *const u8,
        document_len: usize,
        text: *const u8,
        text_len: usize,
        rows: *const u32,
        rows_len: usize,
        claimed: u64,
        work: *mut u32,
        work_len: usize,
        order: *mut u32,
        order_len: usize,
        answer: *mut u64,
    );

    #[cfg(test)]
    fn introspection_lookup(
        document: *const u8,
        document_len: usize,
        text: *const u8,
        text_len: usize,
        source: u32,
        start: u32,
        len: u32,
        answer: *mut u64,
    );
}

/// How much of each buffer a document uses.
pub(crate) struct Counts {
    pub(crate) rows: usize,
    pub(crate) text: usize,
    pub(crate) warnings: usize,
    /// How many bytes were decoded; 0 of a document that is not in UTF-16.
    pub(crate) decoded: usize,
}

/// `introspection_read` or `introspection_read_strict`.
type Read = unsafe extern "C" fn(
    *const u8,
    usize,
    *mut u32,
    usize,
    *mut u32,
    usize,
    *mut u8,
    usize,
    *mut u8,
    usize,
    *mut u64,
);

/// Reads a document into the tables lent, by the strict profile or not; one in UTF-16 is decoded into
/// the last buffer first.
pub(crate) fn read(
    strict: bool,
    input: &[u8],
    rows: &mut [[u32; 16]],
    warnings: &mut [[u32; 4]],
    text: &mut [u8],
    decoded: &mut [u8],
) -> Result<Counts, Error> {
    let rows = rows.as_flattened_mut();
    let warnings = warnings.as_flattened_mut();
    let mut answer = [0; 16];
    let read: Read = if strict {
        introspection_read_strict
    } else {
        introspection_read
    };
    // SAFETY: `read` is one of the two functions; the five slices are as the head of this file says;
    // `answer` has the 16 words that both write.
    unsafe {
        read(
            input.as_ptr(),
            input.len(),
            rows.as_mut_ptr(),
            rows.len(),
            warnings.as_mut_ptr(),
            warnings.len(),
            text.as_mut_ptr(),
            text.len(),
            decoded.as_mut_ptr(),
            decoded.len(),
            answer.as_mut_ptr(),
        );
    }
    let [_, _, rows, text, warnings, .., count, _, _, _] = answer.map(size);
    let document = if count == 0 { input } else { &decoded[..count] };
    Error::unless_accepted(document, answer)?;
    Ok(Counts {
        rows,
        text,
        warnings,
        decoded: count,
    })
}

/// The message of a refusal, by the words of a reader's answer, with what was refused.
pub(crate) fn message(document: &[u8], refusal: &[u64; 16]) -> String {
    let mut output = vec![0; MESSAGE + size(refusal[7]) + size(refusal[10])];
    let mut answer = [0; 3];
    // SAFETY: the two slices are as the head of this file says; `refusal` and `answer` have the 16
    // and 3 words that this function reads and writes.
    unsafe {
        introspection_message(
            document.as_ptr(),
            document.len(),
            refusal.as_ptr(),
            output.as_mut_ptr(),
            output.len(),
            answer.as_mut_ptr(),
        );
    }
    told(answer, output)
}

/// The message of a warning, by its words, with its document.
pub(crate) fn warning_message(document: &[u8], warning: &[u32; 4]) -> String {
    let mut output = vec![0; MESSAGE + warning[3] as usize];
    let mut answer = [0; 3];
    // SAFETY: the two slices are as the head of this file says; `warning` and `answer` have the 4
    // and 3 words that this function reads and writes.
    unsafe {
        introspection_warning_message(
            document.as_ptr(),
            document.len(),
            warning.as_ptr(),
            output.as_mut_ptr(),
            output.len(),
            answer.as_mut_ptr(),
        );
    }
    told(answer, output)
}

/// More than the words of any message take.
const MESSAGE: usize = 128;

fn told(answer: [u64; 3], mut output: Vec<u8>) -> String {
    let [number, _, written] = answer.map(size);
    assert_eq!(number, 0, "what the reader tells has a message");
    output.truncate(written);
    String::from_utf8(output).expect("a message is UTF-8")
}

/// Escapes a value, and gives the bytes written.
pub(crate) fn escape(value: &[u8], output: &mut [u8]) -> Result<usize, Error> {
    let [number, place, written] = turned(introspection_escape, value, output);
    Error::unless_done(number, place)?;
    Ok(size(written))
}

/// Unescapes a value, and gives the bytes written.
pub(crate) fn unescape(value: &[u8], output: &mut [u8]) -> Result<usize, Error> {
    let [number, place, written] = turned(introspection_unescape, value, output);
    let mut refusal = [0; 16];
    [refusal[0], refusal[1]] = [number, place];
    if matches!(number, 10 | 11) {
        // the reference, from its `&` to its `;`
        let from = size(place);
        let end = value[from..].iter().position(|&b| b == b';');
        let len = end.map_or(0, |end| end + 1) as u64;
        [refusal[5], refusal[6], refusal[7]] = [1, place, len];
    }
    Error::unless_accepted(value, refusal)?;
    Ok(size(written))
}

/// `introspection_escape` or `introspection_unescape`.
type Turn = unsafe extern "C" fn(*const u8, usize, *mut u8, usize, *mut u64);

fn turned(turn: Turn, value: &[u8], output: &mut [u8]) -> [u64; 3] {
    let mut answer = [0; 3];
    // SAFETY: `turn` is one of the two functions; the two slices are as the head of this file says;
    // `answer` has the 3 words that both write.
    unsafe {
        turn(
            value.as_ptr(),
            value.len(),
            output.as_mut_ptr(),
            output.len(),
            answer.as_mut_ptr(),
        );
    }
    answer
}

/// Writes the item of a row, and gives the bytes written. All rows lent are claimed.
pub(crate) fn write(
    document: &[u8],
    text: &[u8],
    rows: &[[u32; 16]],
    row: usize,
    output: &mut [u8],
) -> Result<usize, Error> {
    put(introspection_write, document, text, rows, row, output)
}

/// The same with all under it.
pub(crate) fn write_tree(
    document: &[u8],
    text: &[u8],
    rows: &[[u32; 16]],
    row: usize,
    output: &mut [u8],
) -> Result<usize, Error> {
    put(introspection_write_tree, document, text, rows, row, output)
}

/// `introspection_write` or `introspection_write_tree`.
type Put = unsafe extern "C" fn(
    *const u8,
    usize,
    *const u8,
    usize,
    *const u32,
    usize,
    u64,
    u64,
    *mut u8,
    usize,
    *mut u64,
);

fn put(
    put: Put,
    document: &[u8],
    text: &[u8],
    rows: &[[u32; 16]],
    row: usize,
    output: &mut [u8],
) -> Result<usize, Error> {
    let words = rows.as_flattened();
    let mut answer = [0; 3];
    // SAFETY: `put` is one of the two functions; the four slices are as the head of this file says,
    // three of them only read; the two numbers may be any; `answer` has the 3 words that both write.
    unsafe {
        put(
            document.as_ptr(),
            document.len(),
            text.as_ptr(),
            text.len(),
            words.as_ptr(),
            words.len(),
            rows.len() as u64,
            row as u64,
            output.as_mut_ptr(),
            output.len(),
            answer.as_mut_ptr(),
        );
    }
    written(answer)
}

/// Puts rows down as columns.
pub(crate) fn columns(rows: &[u32], count: usize, columns: &mut [u32]) -> Result<(), Error> {
    laid(introspection_columns, rows, count, columns)
}

/// Puts columns down as rows again.
pub(crate) fn rows(columns: &[u32], count: usize, rows: &mut [u32]) -> Result<(), Error> {
    laid(introspection_rows, columns, count, rows)
}

/// `introspection_columns` or `introspection_rows`.
type Lay = unsafe extern "C" fn(*const u32, usize, u64, *mut u32, usize, *mut u64);

fn laid(lay: Lay, source: &[u32], count: usize, output: &mut [u32]) -> Result<(), Error> {
    let mut answer = [0; 2];
    // SAFETY: `lay` is one of the two functions; the two slices are as the head of this file says;
    // the count may be any; `answer` has the 2 words that both write.
    unsafe {
        lay(
            source.as_ptr(),
            source.len(),
            count as u64,
            output.as_mut_ptr(),
            output.len(),
            answer.as_mut_ptr(),
        );
    }
    let [number, place] = answer;
    Error::unless_done(number, place)
}

/// Gives out the type definitions in order, and gives how many there are and how many members name
/// none. All rows lent are claimed.
pub(crate) fn order(
    document: &[u8],
    text: &[u8],
    rows: &[[u32; 16]],
    work: &mut [u32],
    order: &mut [u32],
) -> Result<(usize, usize), Error> {
    let words = rows.as_flattened();
    let mut answer = [0; 4];
    // SAFETY: the five slices are as the head of this file says, three of them only read; the number
    // may be any; `answer` has the 4 words that this function writes.
    unsafe {
        introspection_order(
            document.as_ptr(),
            document.len(),
            text.as_ptr(),
            text.len(),
            words.as_ptr(),
            words.len(),
            rows.len() as u64,
            work.as_mut_ptr(),
            work.len(),
            order.as_mut_ptr(),
            order.len(),
            answer.as_mut_ptr(),
        );
    }
    let [number, place, definitions, undefined] = answer;
    Error::unless_done(number, place)?;
    Ok((size(definitions), size(undefined)))
}

/// The part that a triple leads to: whether it lies inside its buffer, source, start and length.
#[cfg(test)]
pub(crate) fn lookup(document: &[u8], text: &[u8], triple: [u32; 3]) -> (bool, [usize; 3]) {
    let mut answer = [0; 4];
    // SAFETY: the two slices are as the head of this file says, and only read; the three numbers may
    // be any; `answer` has the 4 words that this function writes.
    unsafe {
        introspection_lookup(
            document.as_ptr(),
            document.len(),
            text.as_ptr(),
            text.len(),
            triple[0],
            triple[1],
            triple[2],
            answer.as_mut_ptr(),
        );
    }
    let [inside, part @ ..] = answer.map(size);
    (inside == 1, part)
}

fn written(answer: [u64; 3]) -> Result<usize, Error> {
    let [number, place, written] = answer;
    Error::unless_done(number, place)?;
    Ok(size(written))
}

// The archive is for x86-64 (build.rs), where the two types have the same range.
fn size(word: u64) -> usize {
    word as usize
}
