//! Fix records read back and written again: document 02, item 1, over document 01's table. Written from these two, not
//! from the port.

pub const LENGTH: usize = 176;
pub const SHORT_OUTPUT: u32 = 14;
pub const TORN_FILE: u32 = 16;
pub const NO_SUCH_PLACE: u32 = 17;
pub const MALFORMED_RECORD: u32 = 18;

/// The fields of document 01's table, whatever they hold; an f64 by its bits. Version and kind are as wide as callers
/// have them.
#[derive(Clone, Copy, Debug, Default, PartialEq, Eq)]
pub struct Fields {
    pub answer: u32,
    pub detail: u32,
    pub n: u32,
    pub mask: u32,
    pub ecef: [u64; 3],
    pub t: u64,
    pub latitude: u64,
    pub longitude: u64,
    pub height: u64,
    pub transmit_ps: i64,
    pub covariance: [u64; 9],
    pub chi2: u64,
    pub version: u32,
    pub kind: u32,
    pub metres: u64,
}

/// "It hands back the caller's own 176 bytes of the record at a given place." "A file that isn't whole records is
/// refused before its place is looked at."
pub fn record_at(file: &[u8], place: u64) -> Result<&[u8], u32> {
    if file.len() % LENGTH != 0 {
        return Err(TORN_FILE);
    }
    let place = usize::try_from(place).map_err(|_| NO_SUCH_PLACE)?;
    file.chunks_exact(LENGTH).nth(place).ok_or(NO_SUCH_PLACE)
}

/// "A second call takes these apart, where a length other than 176 is 16. It takes apart exactly the records that meet
/// these rules."
pub fn read(record: &[u8]) -> Result<Fields, u32> {
    let record: &[u8; LENGTH] = record.try_into().map_err(|_| TORN_FILE)?;
    let fields = Fields::of(record);
    if meets_the_rules(record, &fields) { Ok(fields) } else { Err(MALFORMED_RECORD) }
}

/// "Writing a read record gives its bytes again; any other value gets 18."
pub fn write(fields: &Fields, out: &mut [u8]) -> u32 {
    let Some(first) = out.first_chunk_mut::<LENGTH>() else {
        return SHORT_OUTPUT;
    };
    match fields.bytes() {
        Some(bytes) if read(&bytes) == Ok(*fields) => {
            *first = bytes;
            0
        }
        _ => MALFORMED_RECORD,
    }
}

/// "The answer is 0 to 13 or 15, n at most 32, and fillers and unused fields are zero."
fn meets_the_rules(record: &[u8; LENGTH], fields: &Fields) -> bool {
    let filler = &record[163..168];
    matches!(fields.answer, 0..=13 | 15)
        && fields.n <= 32
        && filler == [0; 5]
        && if fields.answer == 0 { fix_is_sound(fields) } else { refusal_is_sound(record, fields) }
}

/// "A fix has version 8, altitude kind 0 to 2, finite floats, a mask within n, and a detail equal to its dof." Document
/// 01: the metres are "zero bytes where none"; "dof: used receptions, plus one with altitude, less 4".
fn fix_is_sound(fields: &Fields) -> bool {
    let dof = i64::from(fields.mask.count_ones()) + i64::from(fields.kind != 0) - 4;
    fields.version == 8
        && fields.kind <= 2
        && fields.floats().iter().all(|bits| f64::from_bits(*bits).is_finite())
        && u64::from(fields.mask) >> fields.n == 0
        && i64::from(fields.detail) == dof
        && (fields.kind != 0 || fields.metres == 0)
}

/// "A refusal's detail is at most 3 for 1, 1 to 31 for 11, 0 to 31, 100 to 131 or 200 for 12, else 0." Document 01: a
/// refusal "writes number, detail and (for 1 to 9) n; the remaining bytes up to 176 are zero".
fn refusal_is_sound(record: &[u8; LENGTH], fields: &Fields) -> bool {
    let detail = match fields.answer {
        1 => fields.detail <= 3,
        11 => (1..=31).contains(&fields.detail),
        12 => matches!(fields.detail, 0..=31 | 100..=131 | 200),
        _ => fields.detail == 0,
    };
    let shows_n = (1..=9).contains(&fields.answer);
    detail && (shows_n || fields.n == 0) && record[12..] == [0; LENGTH - 12]
}

impl Fields {
    /// The table, byte by byte.
    pub fn of(record: &[u8; LENGTH]) -> Self {
        let word = |at: usize| u32::from_le_bytes(record[at..at + 4].try_into().expect("four bytes"));
        let long = |at: usize| u64::from_le_bytes(record[at..at + 8].try_into().expect("eight bytes"));
        Self {
            answer: word(0),
            detail: word(4),
            n: word(8),
            mask: word(12),
            ecef: [long(16), long(24), long(32)],
            t: long(40),
            latitude: long(48),
            longitude: long(56),
            height: long(64),
            transmit_ps: long(72) as i64,
            covariance: std::array::from_fn(|k| long(80 + 8 * k)),
            chi2: long(152),
            version: u32::from(u16::from_le_bytes([record[160], record[161]])),
            kind: u32::from(record[162]),
            metres: long(168),
        }
    }

    /// None where version or kind is too wide for its bytes.
    pub fn bytes(&self) -> Option<[u8; LENGTH]> {
        let mut record = [0; LENGTH];
        let mut put = |at: usize, bytes: &[u8]| record[at..at + bytes.len()].copy_from_slice(bytes);
        put(0, &self.answer.to_le_bytes());
        put(4, &self.detail.to_le_bytes());
        put(8, &self.n.to_le_bytes());
        put(12, &self.mask.to_le_bytes());
        (0..3).for_each(|axis| put(16 + 8 * axis, &self.ecef[axis].to_le_bytes()));
        put(40, &self.t.to_le_bytes());
        put(48, &self.latitude.to_le_bytes());
        put(56, &self.longitude.to_le_bytes());
        put(64, &self.height.to_le_bytes());
        put(72, &self.transmit_ps.to_le_bytes());
        (0..9).for_each(|k| put(80 + 8 * k, &self.covariance[k].to_le_bytes()));
        put(152, &self.chi2.to_le_bytes());
        put(160, &u16::try_from(self.version).ok()?.to_le_bytes());
        put(162, &[u8::try_from(self.kind).ok()?]);
        put(168, &self.metres.to_le_bytes());
        Some(record)
    }

    /// Every f64 of the table.
    pub fn floats(&self) -> [u64; 18] {
        let Self { ecef: [x, y, z], t, latitude, longitude, height, covariance: c, chi2, metres, .. } = *self;
        let [c00, c01, c02, c10, c11, c12, c20, c21, c22] = c;
        [x, y, z, t, latitude, longitude, height, c00, c01, c02, c10, c11, c12, c20, c21, c22, chi2, metres]
    }

    /// The same f64, to change one.
    pub fn float_mut(&mut self, k: usize) -> &mut u64 {
        match k {
            0..=2 => &mut self.ecef[k],
            3 => &mut self.t,
            4 => &mut self.latitude,
            5 => &mut self.longitude,
            6 => &mut self.height,
            7..=15 => &mut self.covariance[k - 7],
            16 => &mut self.chi2,
            _ => &mut self.metres,
        }
    }
}
