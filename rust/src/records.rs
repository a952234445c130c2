use crate::refusal::answered;
use crate::{Refusal, RECORD};

/// A file of fix records, lent: whole records one after the other.
#[derive(Clone, Copy, Debug)]
pub struct Records<'a> {
    file: &'a [u8],
}

extern "C" {
    fn mlat_record_at(file: *const u8, file_len: usize, place: u64, at: &mut u64) -> u32;
    #[rustfmt::skip]
    fn mlat_within(
        file: *const u8,
        file_len: usize,
        point: &[f64; 3],
        radius: f64,
        places: *mut u64,
        places_len: usize,
        count: &mut u64,
    ) -> u32;
    fn mlat_nearest(file: *const u8, file_len: usize, point: &[f64; 3], place: &mut u64) -> u32;
}

impl<'a> Records<'a> {
    /// The records of a file; [`Refusal::TornFile`] where it is not whole records.
    pub fn new(file: &'a [u8]) -> Result<Self, Refusal> {
        match offset(file, 0) {
            Err(Refusal::TornFile) => Err(Refusal::TornFile),
            _ => Ok(Self { file }),
        }
    }

    /// How many records the file has.
    pub fn len(&self) -> usize {
        self.file.len() / RECORD
    }

    /// Whether it has none.
    pub fn is_empty(&self) -> bool {
        self.file.is_empty()
    }

    /// The file's own bytes of the record at a place, from 0; [`Refusal::NoSuchPlace`] past the last.
    pub fn get(&self, place: u64) -> Result<&'a [u8; RECORD], Refusal> {
        let at = offset(self.file, place)? as usize;
        Ok(self.file[at..]
            .first_chunk()
            .expect("a whole record stands at the offset"))
    }

    /// The records in the file's order.
    pub fn iter(&self) -> Iter<'a> {
        Iter {
            records: *self,
            place: 0,
        }
    }

    /// The places, from 0, of the fixes at most `radius` metres from an ECEF point, in file order; refused solves are
    /// passed over. [`Refusal::MalformedRecord`] where [`crate::read`] turns a record of the file away, then
    /// [`Refusal::BadQuery`] where the radius or a coordinate is not finite or beyond 10^8 in size, or the radius is
    /// negative.
    pub fn within(&self, point: &[f64; 3], radius: f64) -> Result<Vec<u64>, Refusal> {
        let mut places = vec![0; self.len()];
        let count = self.within_into(point, radius, &mut places)?;
        places.truncate(count);
        Ok(places)
    }

    /// The same into the first entries of a buffer, which has room for [`Records::len`] of them
    /// ([`Refusal::ShortOutput`] where it has not, tested first). Gives how many they are; entries past them stay, and
    /// a refusal leaves all as they are.
    pub fn within_into(&self, point: &[f64; 3], radius: f64, places: &mut [u64]) -> Result<usize, Refusal> {
        let mut count = 0;
        let (file, lent) = (self.file, places.len());
        // SAFETY: file and buffer are lent with their lengths, apart from each other, and the call keeps none of them.
        answered(unsafe {
            mlat_within(
                file.as_ptr(),
                file.len(),
                point,
                radius,
                places.as_mut_ptr(),
                lent,
                &mut count,
            )
        })?;
        Ok(count as usize)
    }

    /// The place of the fix nearest to an ECEF point, the earliest of several at that distance, and none exactly where
    /// the file has no fix. [`Refusal::MalformedRecord`], then [`Refusal::BadQuery`], as [`Records::within`] gives them.
    pub fn nearest(&self, point: &[f64; 3]) -> Result<Option<u64>, Refusal> {
        let mut place = 0;
        // SAFETY: the file is lent with its length, and the call keeps none of what is lent.
        answered(unsafe { mlat_nearest(self.file.as_ptr(), self.file.len(), point, &mut place) })?;
        Ok((place != u64::MAX).then_some(place))
    }
}

/// Where the record at a place begins in the file.
fn offset(file: &[u8], place: u64) -> Result<u64, Refusal> {
    let mut at = 0;
    // SAFETY: the file is lent with its length, and the call keeps none of what is lent.
    answered(unsafe { mlat_record_at(file.as_ptr(), file.len(), place, &mut at) })?;
    Ok(at)
}

/// The records of a file in turn, each its own bytes.
#[derive(Clone, Debug)]
pub struct Iter<'a> {
    records: Records<'a>,
    place: u64,
}

impl<'a> Iterator for Iter<'a> {
    type Item = &'a [u8; RECORD];

    fn next(&mut self) -> Option<Self::Item> {
        let record = self.records.get(self.place).ok()?;
        self.place += 1;
        Some(record)
    }

    fn size_hint(&self) -> (usize, Option<usize>) {
        let left = self.records.len() - self.place as usize;
        (left, Some(left))
    }
}

impl ExactSizeIterator for Iter<'_> {}

impl<'a> IntoIterator for Records<'a> {
    type Item = &'a [u8; RECORD];
    type IntoIter = Iter<'a>;

    fn into_iter(self) -> Iter<'a> {
        self.iter()
    }
}
