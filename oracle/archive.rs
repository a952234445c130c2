//! Fix records in the archive's form and back: document 02, item 7, over document 01's table and item 1's reader. Written
//! from these, not from the port.

use crate::reader::{self, LENGTH, SHORT_OUTPUT, TORN_FILE};

pub const ARCHIVED: usize = 152;
pub const UNEQUAL_MIRROR: u32 = 20;

/// Document 01: the covariance stands in bytes 80 to 151; item 7: in bytes 80 to 127.
const COVARIANCE: usize = 80;
const REST: usize = 152;
const ARCHIVED_REST: usize = 128;

/// "An output shorter than its form is 14, tested first; bytes past the form stay. Turned away: 20 unequal mirror, tested
/// after the old form has been read".
pub fn to_archive(record: &[u8], out: &mut [u8]) -> u32 {
    let Some(form) = out.first_chunk_mut::<ARCHIVED>() else {
        return SHORT_OUTPUT;
    };
    let covariance = match reader::read(record) {
        Ok(fields) => fields.covariance,
        Err(number) => return number,
    };
    let entry = |row: usize, column: usize| covariance[3 * row + column];
    for row in 0..3 {
        for column in 0..row {
            if entry(row, column) != entry(column, row) {
                return UNEQUAL_MIRROR;
            }
        }
    }
    // "bytes 80 to 127 hold the entries on and right of the diagonal, by rows, and the last 24 bytes follow"
    let mut bytes = record[..COVARIANCE].to_vec();
    for row in 0..3 {
        for column in row..3 {
            bytes.extend(entry(row, column).to_le_bytes());
        }
    }
    bytes.extend(&record[REST..]);
    form.copy_from_slice(&bytes);
    0
}

/// "every new one whose old form can be read; another new one gets 16 or 18."
pub fn from_archive(record: &[u8], out: &mut [u8]) -> u32 {
    let Some(form) = out.first_chunk_mut::<LENGTH>() else {
        return SHORT_OUTPUT;
    };
    let Ok(record) = record.try_into() else {
        return TORN_FILE;
    };
    let old = old_form(record);
    match reader::read(&old) {
        Ok(_) => form.copy_from_slice(&old),
        Err(number) => return number,
    }
    0
}

/// "The covariance is symmetric".
pub fn old_form(record: &[u8; ARCHIVED]) -> Vec<u8> {
    let mut covariance: [[&[u8]; 3]; 3] = Default::default();
    let mut entries = record[COVARIANCE..ARCHIVED_REST].chunks_exact(8);
    for row in 0..3 {
        for column in row..3 {
            let entry = entries.next().expect("six entries");
            covariance[row][column] = entry;
            covariance[column][row] = entry;
        }
    }
    [&record[..COVARIANCE], &covariance.concat().concat(), &record[ARCHIVED_REST..]].concat()
}
