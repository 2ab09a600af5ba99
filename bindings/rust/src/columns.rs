//! Rows put down as columns, and back.

use crate::answer::Error;
use crate::ffi;

/// Puts `count` rows of 16 words down as columns.
///
/// Word `k` of row `r` goes to `k * count + r`, less the same word of the row before, modulo 2 to
/// the 32nd; the words of row 0 go there as they are. Like numbers below each other become zeros.
/// Any words will do, sound rows or not. The words of `columns` past `16 * count` become zero, and
/// all of them after a refusal; those of `rows` are not looked at.
///
/// Refused: more than 262,144 rows ([`TooManyRows`](crate::ErrorKind::TooManyRows)); then, at
/// `count`, either slice with fewer than `16 * count` words ([`NoRoom`](crate::ErrorKind::NoRoom)).
///
/// ```
/// use introspection::{columns, rows, Document};
///
/// let document = Document::parse(b"<node><node/><node/></node>")?;
/// let table = document.table();
/// let mut put = vec![0; table.len()];
/// columns(table, 3, &mut put)?;
/// assert_eq!(put[..3], [1, 0, 0]); // three nodes
/// assert_eq!(put[3..6], [0, 1, 0]); // whose parents, plus one, are 0, 1 and 1
///
/// let mut back = vec![0; put.len()];
/// rows(&put, 3, &mut back)?;
/// assert_eq!(back, table);
/// # Ok::<(), introspection::Error>(())
/// ```
pub fn columns(rows: &[u32], count: usize, columns: &mut [u32]) -> Result<(), Error> {
    ffi::columns(rows, count, columns)
}

/// Puts columns down as `count` rows of 16 words again: what [`columns`] did is undone.
///
/// Either after the other restores the `16 * count` words, for any words. What is past them, and
/// what is refused, is as for [`columns`].
pub fn rows(columns: &[u32], count: usize, rows: &mut [u32]) -> Result<(), Error> {
    ffi::rows(columns, count, rows)
}
