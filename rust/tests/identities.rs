//! The order of `ObservationId` beside the one that the proved solve asks of its receptions: it refuses by 11 where an
//! identity is not above the one before.

use jifrosk::{solve_bytes, solve_receptions, ObservationId, Reception, RECORD};

/// Whether the solve takes b after a, asked with a list of structs and with the bytes of a file. Two receptions are too
/// few, which is found out after their order.
fn ascend(a: ObservationId, b: ObservationId) -> bool {
    let pair = [a, b].map(|id| Reception {
        id,
        noise_m2: 1.0,
        ..Reception::default()
    });
    let file: Vec<u8> = pair.iter().flat_map(Reception::to_bytes).collect();
    let clock = [0; 32];
    let (mut listed, mut lent) = ([0; RECORD], [0; RECORD]);
    let answer = solve_receptions(&pair, Some(&clock), None, None, &mut listed);
    assert_eq!(solve_bytes(&file, Some(&clock), None, None, &mut lent), answer);
    assert_eq!(listed, lent);
    assert!(
        answer == 1 || answer == 11 && listed[4] == 1,
        "answer {answer}, detail {}",
        listed[4]
    );
    answer == 1
}

/// Each pair both ways, and each identity with itself.
fn held(a: ObservationId, b: ObservationId) {
    for (a, b) in [(a, b), (b, a), (a, a), (b, b)] {
        assert_eq!(ascend(a, b), a < b, "{a:?} {b:?}");
    }
    assert_eq!(!ascend(a, b) && !ascend(b, a), a == b);
}

/// splitmix64
struct Random(u64);

impl Random {
    fn bits(&mut self) -> u64 {
        self.0 = self.0.wrapping_add(0x9e37_79b9_7f4a_7c15);
        let a = (self.0 ^ (self.0 >> 30)).wrapping_mul(0xbf58_476d_1ce4_e5b9);
        let b = (a ^ (a >> 27)).wrapping_mul(0x94d0_49bb_1331_11eb);
        b ^ (b >> 31)
    }

    fn bytes(&mut self) -> [u8; 76] {
        [0; 76].map(|_: u8| self.bits() as u8)
    }
}

/// As a file has it.
fn identity(bytes: [u8; 76]) -> ObservationId {
    let mut record = [0; 132];
    record[..76].copy_from_slice(&bytes);
    Reception::from_bytes(&record).id
}

#[test]
fn any_two() {
    let mut random = Random(1);
    for _ in 0..20_000 {
        held(identity(random.bytes()), identity(random.bytes()));
    }
}

#[test]
fn two_that_differ_in_a_byte_and_perhaps_after_it() {
    let mut random = Random(2);
    for place in 0..76 {
        for (one, other) in [(0, 1), (127, 128), (254, 255), (0, 255), (1, 128)] {
            for _ in 0..8 {
                let (mut a, mut b) = (random.bytes(), random.bytes());
                b[..place].copy_from_slice(&a[..place]);
                (a[place], b[place]) = (one, other);
                held(identity(a), identity(b));
                b[place + 1..].copy_from_slice(&a[place + 1..]);
                held(identity(a), identity(b));
            }
        }
    }
}

#[test]
fn fields_at_their_ends() {
    let bytes = [[0; 32], [255; 32], [127; 32], [128; 32]];
    let mut all = Vec::new();
    for (receiver, message) in bytes.iter().flat_map(|a| bytes.iter().map(|b| (*a, *b))) {
        for epoch in [0, 255, 256, u32::MAX >> 1, u32::MAX] {
            for timestamp in [0, 255, 256, u64::MAX >> 1, u64::MAX] {
                all.push(ObservationId {
                    receiver,
                    epoch,
                    timestamp,
                    message,
                });
            }
        }
    }
    all.iter()
        .for_each(|a| all.iter().step_by(7).for_each(|b| held(*a, *b)));
}
