//! examples OUT SOLVE WHY: the example folders of the repository, each with its files and the original's record. Six stations about Lake Constance hear an aircraft that reports its
//! barometric altitude; in the second folder one station is 2 km late; in the third only three stations hear it, and two places fit alike; the
//! fourth is the first with a station's correction of the barometric altitude; in the fifth one station is 800 m late and another has heard a transmission 5 ms later,
//! which no pair with it allows. All have the same epoch, timestamp and
//! message in their identities, so that the stations' keys alone tell the receptions apart. The crate SOLVE gets what its program is run on: the files of the second folder without the
//! reference, so that an absent file is tried too. The crate WHY gets those of the fifth. records.bin has the first four records, one after the other.

use oracle::geo::Geodetic;
use oracle::identities::{self, Family};
use oracle::obs::ObservationId;
use oracle::random::Random;
use oracle::record;
use oracle::scene::{Files, Scene};
use oracle::sky;
use oracle::why;

/// Latitude, longitude and height of each station.
const STATIONS: [[f64; 3]; 6] = [
    [47.66, 9.18, 410.0],
    [47.50, 9.75, 440.0],
    [47.42, 9.37, 690.0],
    [47.81, 9.64, 460.0],
    [47.70, 8.63, 420.0],
    [47.99, 9.11, 640.0],
];

fn place([lat_deg, lon_deg, height_m]: [f64; 3]) -> Geodetic {
    Geodetic { lat_deg, lon_deg, height_m }
}

/// n identities with a counter of 48 bits, as the source has it.
fn names(n: usize) -> Vec<ObservationId> {
    let mut random = Random::new(6);
    let mut common = [0; 76].map(|_: u8| random.bits() as u8);
    common[32..38].copy_from_slice(&[0, 0, 0, 3, 0, 0]);
    let seeds: Vec<u64> = (0..n).map(|_| random.bits()).collect();
    identities::sorted(Family::Receivers, &common, &seeds)
}

fn scene(stations: &[[f64; 3]], aircraft: [f64; 3], late: &[f64]) -> Scene {
    let mut random = Random::new(1);
    let sites: Vec<[i64; 3]> = stations.iter().map(|station| oracle::geo::to_mm(oracle::geo::to_ecef(place(*station)))).collect();
    let n = sites.len();
    let noise = vec![400.0; n];
    let error: Vec<f64> = (0..n).map(|i| 15.0 * random.normal() + late[i]).collect();
    let mut receptions = sky::heard(&mut random, oracle::geo::to_ecef(place(aircraft)), &sites, &noise, &error);
    receptions.iter_mut().zip(names(n)).for_each(|(r, name)| r.identity = name);
    Scene {
        receptions,
        clock: Some((0..n * n).map(|k| if k / n == k % n { 100.0 } else { 25.0 }).collect()),
        altitude: Some((1, 11_280.0)),
        correction: 0,
        reference: Some(1_700_000_000_000_000),
    }
}

/// Those files of a problem that are there, in a folder.
fn write(folder: &str, files: &Files) {
    std::fs::create_dir_all(folder).expect("a folder");
    let all = [("receptions", &files.receptions), ("clock", &files.clock), ("altitude", &files.altitude), ("reference", &files.reference)];
    for (name, file) in all {
        if let Some(bytes) = file {
            std::fs::write(format!("{folder}/{name}.bin"), bytes).expect("a file");
        }
    }
}

fn main() {
    let words: Vec<String> = std::env::args().skip(1).collect();
    let [out, solve, told] = words.as_slice() else {
        panic!("examples OUT SOLVE WHY");
    };
    let aircraft = [47.58, 9.32, 11_310.0];
    let mut screened = scene(&STATIONS, aircraft, &[0.0, 800.0, 0.0, 0.0, 0.0, 0.0]);
    screened.receptions[4].time += 5_000_000_000;
    let folders = [
        ("fix", 0, scene(&STATIONS, aircraft, &[0.0; 6])),
        ("outlier", 0, scene(&STATIONS, aircraft, &[0.0, 0.0, 0.0, 2_000.0, 0.0, 0.0])),
        ("ambiguous", 8, scene(&STATIONS[..3], [46.90, 9.00, 11_310.0], &[0.0; 3])),
        ("corrected", 0, Scene { altitude: Some((1, 11_181.5)), correction: 9_850, ..scene(&STATIONS, aircraft, &[0.0; 6]) }),
        ("screened", 0, screened),
    ];
    let mut records = Vec::new();
    for (name, wanted, scene) in &folders {
        let files = scene.files();
        let (answer, record) = record::record(&files);
        assert_eq!(answer, *wanted, "{name}");
        let folder = format!("{out}/{name}");
        write(&folder, &files);
        std::fs::write(format!("{folder}/record.bin"), record).expect("a file");
        records.extend(record);
        let mask = u32::from_le_bytes([record[12], record[13], record[14], record[15]]);
        println!("{folder}: answer {answer}, used {mask:08x}");
    }
    records.truncate(4 * record::LENGTH);
    std::fs::write(format!("{out}/records.bin"), records).expect("a file");
    let files = Files { reference: None, ..folders[1].2.files() };
    write(&format!("{solve}/data"), &files);
    std::fs::write(format!("{solve}/stdout"), record::record(&files).1).expect("a file");

    let files = folders[4].2.files();
    write(&format!("{told}/data"), &files);
    let (mut states, mut detail) = ([0; why::LEAST], 0);
    let number = why::why(&files, &mut states, &mut detail);
    std::fs::write(format!("{told}/stdout"), [&number.to_le_bytes()[..], &detail.to_le_bytes(), &states].concat()).expect("a file");
    why::told(&files).states.iter().for_each(|state| println!("{state:?}"));
}
