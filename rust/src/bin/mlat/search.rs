//! The search for fixes near a place in a file that is read block by block: `mlat_within` of each block, and the
//! nearest of two blocks is `mlat_nearest` of a file of their two records, by its own rule for ties.

use jifrosk::{Records, Refusal, RECORD};

use crate::fault::Fault;
use crate::found::Found;

pub struct Search {
    point: [f64; 3],
    radius: f64,
    /// Whether the library refuses the point or the radius.
    bad: bool,
    /// The nearest so far: its place and its record.
    nearest: Option<(u64, [u8; RECORD])>,
    places: Vec<u64>,
}

impl Search {
    pub fn new(point: [f64; 3], radius: f64) -> Self {
        let mut search = Search {
            point,
            radius,
            bad: false,
            nearest: None,
            places: Vec::new(),
        };
        // a file without records is good, so that only the query can be refused
        search.bad = search.within(&[]).is_err();
        search
    }

    /// Whether the query is refused (22).
    pub fn is_bad(&self) -> bool {
        self.bad
    }

    /// The nearest of all.
    pub fn nearest(&self) -> Option<Found> {
        let (place, record) = self.nearest.as_ref()?;
        Found::of(*place, record, &self.point)
    }

    /// Searches whole records, the first at a place, and takes those within the radius. Whether all can be read: if
    /// not, nothing was taken.
    pub fn take(
        &mut self,
        first: u64,
        bytes: &[u8],
        mut take: impl FnMut(Found) -> Result<(), Fault>,
    ) -> Result<bool, Fault> {
        let count = match self.within(bytes) {
            Ok(count) => count,
            Err(refusal) => return Ok(refusal == Refusal::BadQuery),
        };
        self.take_nearest(first, bytes);
        for place in &self.places[..count] {
            let record = &bytes[*place as usize * RECORD..][..RECORD];
            if let Some(found) = Found::of(first + place, record, &self.point) {
                take(found)?;
            }
        }
        Ok(true)
    }

    fn within(&mut self, bytes: &[u8]) -> Result<usize, Refusal> {
        let records = Records::new(bytes)?;
        if self.places.len() < records.len() {
            self.places.resize(records.len(), 0);
        }
        records.within_into(&self.point, self.radius, &mut self.places)
    }

    /// The nearest of a block, and of it and the nearest so far.
    fn take_nearest(&mut self, first: u64, bytes: &[u8]) {
        let nearest = |bytes: &[u8]| Records::new(bytes).and_then(|records| records.nearest(&self.point));
        let Ok(Some(place)) = nearest(bytes) else {
            return;
        };
        let Some(record) = bytes[place as usize * RECORD..].first_chunk() else {
            return;
        };
        let both = self.nearest.map(|(_, before)| [before, *record]);
        let stays = both.is_some_and(|both| nearest(both.as_flattened()) == Ok(Some(0)));
        if !stays {
            self.nearest = Some((first + place, *record));
        }
    }
}
