//! Identities of receptions: families in which each field, or one byte of it, decides. They are sorted by the source's own order, the one that `ObservationId` of
//! obs.rs derives.

use crate::obs::ObservationId;
use crate::random::Random;
use crate::scene::Reception;
use std::collections::BTreeSet;

/// The bytes of an identity, the numbers' first byte being the one that counts most.
pub type Bytes = [u8; 76];

pub fn of_bytes(bytes: &Bytes) -> ObservationId {
    ObservationId {
        receiver: part(bytes, 0),
        epoch: u32::from_be_bytes(part(bytes, 32)),
        timestamp: u64::from_be_bytes(part(bytes, 36)),
        message: part(bytes, 44),
    }
}

fn part<const N: usize>(bytes: &Bytes, at: usize) -> [u8; N] {
    bytes[at..at + N].try_into().expect("N bytes")
}

/// The first and the last byte of each field, their neighbours, one within, and every byte of the numbers.
pub const PLACES: [usize; 22] = [0, 1, 15, 30, 31, 32, 33, 34, 35, 36, 37, 38, 39, 40, 41, 42, 43, 44, 45, 60, 74, 75];

#[derive(Clone, Copy, Debug)]
pub enum Family {
    /// Any bytes.
    Any,
    /// Alike before a byte; there and after it any.
    From(usize),
    /// Alike but for one byte.
    But(usize),
    /// One short number, one epoch and one message under different receivers.
    Receivers,
    /// Numbers of document 01's time: all zero but the timestamp.
    Timestamps,
    /// Each differs from a common one in a byte of its own.
    Near,
    /// Each field is one of few, about the limits of signed and of little-endian reading.
    Corners,
}

impl Family {
    fn by(random: &mut Random) -> Self {
        let place = random.of(&PLACES);
        random.of(&[Family::Any, Family::From(place), Family::From(place), Family::But(place), Family::Receivers, Family::Timestamps, Family::Near, Family::Corners])
    }

    fn identity(self, common: &Bytes, random: &mut Random) -> ObservationId {
        let mut bytes = *common;
        let mut fill = |bytes: &mut [u8]| bytes.iter_mut().for_each(|byte| *byte = random.bits() as u8);
        match self {
            Family::Any => fill(&mut bytes),
            Family::From(place) => fill(&mut bytes[place..]),
            Family::But(place) => fill(&mut bytes[place..place + 1]),
            Family::Receivers => fill(&mut bytes[..32]),
            Family::Timestamps => {
                bytes = [0; 76];
                fill(&mut bytes[36..44]);
            }
            Family::Near => {
                let place = random.below(76);
                bytes[place] = random.bits() as u8;
            }
            Family::Corners => return corner(random),
        }
        of_bytes(&bytes)
    }
}

fn corner(random: &mut Random) -> ObservationId {
    let ends = |random: &mut Random| {
        let first = random.of(&[0, 0x7F, 0x80, 0xFF]);
        let last = random.of(&[0, 0x7F, 0x80, 0xFF]);
        let mut bytes = [random.of(&[0, 0xFF]); 32];
        (bytes[0], bytes[31]) = (first, last);
        bytes
    };
    ObservationId {
        receiver: ends(random),
        epoch: random.of(&[0, 1, 255, 256, 1 << 24, (1 << 31) - 1, 1 << 31, u32::MAX]),
        timestamp: random.of(&[0, 1, 255, 256, 1 << 32, 1 << 56, (1 << 63) - 1, 1 << 63, u64::MAX]),
        message: ends(random),
    }
}

/// As many identities as there are seeds, of one family about one common identity, ascending.
pub fn sorted(family: Family, common: &Bytes, seeds: &[u64]) -> Vec<ObservationId> {
    let mut all = BTreeSet::new();
    for seed in seeds {
        let mut random = Random::new(*seed);
        while !all.insert(family.identity(common, &mut random)) {}
    }
    all.into_iter().collect()
}

fn common(random: &mut Random) -> Bytes {
    [0; 76].map(|_| random.bits() as u8)
}

/// The same, family and common identity by a seed of their own: what a problem draws for its identities does not depend on what they are.
pub fn ascending(seed: u64, seeds: &[u64]) -> Vec<ObservationId> {
    let mut random = Random::new(seed);
    sorted(Family::by(&mut random), &common(&mut random), seeds)
}

/// New identities in the order of the receptions, of a family by what the first one was.
pub fn anew(receptions: &mut [Reception]) {
    let seeds: Vec<u64> = (0..receptions.len() as u64).collect();
    let seed = receptions.first().map_or(0, |r| r.identity.timestamp);
    receptions.iter_mut().zip(ascending(seed, &seeds)).for_each(|(r, identity)| r.identity = identity);
}

/// Four identities that ascend by their bytes at a place, across the sign bit. Before it they are alike; after it they are alike too, or else say the contrary.
pub fn decided(place: usize, alike: bool) -> [ObservationId; 4] {
    let common = common(&mut Random::new(place as u64));
    [0, 1, 2, 3].map(|k| {
        let mut bytes = common;
        bytes[place] = [0, 127, 128, 255][k];
        if !alike {
            bytes[place + 1..].fill([255, 128, 127, 0][k]);
        }
        of_bytes(&bytes)
    })
}
