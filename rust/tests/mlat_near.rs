//! `mlat near` and `mlat show`: against plain loops over the records' own bytes.

mod mlat;

use std::fs::OpenOptions;
use std::io::Write;

use mlat::{answer, bytes_of, damaged, float, long, mlat, mlat_on, Folder, EXAMPLES, FIXES, RECORD, RECORDS};

/// The fixes of a file with their distances from a point: norm of sub, in f64.
fn distances(file: &[u8], point: [f64; 3]) -> Vec<(usize, f64)> {
    let records = file.chunks_exact(RECORD).enumerate();
    let fixes = records.filter(|(_, record)| answer(record) == 0);
    fixes
        .map(|(place, record)| {
            let [x, y, z] = [0, 1, 2].map(|axis| float(record, 16 + 8 * axis) - point[axis]);
            (place, (x * x + y * y + z * z).sqrt())
        })
        .collect()
}

/// The line of a fix at a distance.
fn line(file: &[u8], place: usize, distance: f64) -> String {
    let record = &file[place * RECORD..][..RECORD];
    let [latitude, longitude, height] = [48, 56, 64].map(|at| float(record, at));
    let sent = long(record, 72) as i64;
    let away = if distance > 1.8e16 {
        "over 10^16 m".to_string()
    } else {
        format!("{distance:.3} m")
    };
    format!(
        "place {place}, {away} away: latitude {latitude:.6}, longitude {longitude:.6}, height {height:.1} m, \
         sent at {sent} ps\n"
    )
}

/// What is to be printed: the nearest, the earliest of several, then those within, in order or by distance.
fn due(file: &[u8], point: [f64; 3], radius: f64, sorted: bool) -> String {
    let all = distances(file, point);
    let mut text = match all.iter().rev().min_by(|a, b| a.1.total_cmp(&b.1).then(a.0.cmp(&b.0))) {
        Some((place, distance)) => format!("nearest: {}", line(file, *place, *distance)),
        None => "nearest: none, the file has no fix\n".to_string(),
    };
    let mut within: Vec<_> = all.into_iter().filter(|(_, distance)| *distance <= radius).collect();
    if sorted {
        within.sort_by(|a, b| a.1.total_cmp(&b.1));
    }
    for (place, distance) in within {
        text += &line(file, place, distance);
    }
    text
}

#[test]
fn fixes_near_a_point_are_named() {
    for path in [RECORDS, FIXES, EXAMPLES] {
        let file = bytes_of(path);
        for (point, radius) in [
            (["605583", "-5004040", "-3904606"], "3000000"),
            (["4260000.5", "699000", "4694000"], "1e5"),
            (["0", "-0.0", "0"], "1e8"),
            (["1e8", "-1e8", "100000000"], "0"),
        ] {
            let numbers = point.map(|word| word.parse().expect("a number"));
            let words = ["near", path, "--ecef", point[0], point[1], point[2], radius];
            let radius = radius.parse().expect("a number");
            assert_eq!(mlat(&words).done().text(), due(&file, numbers, radius, false));
            let sorted = mlat(&[&words[..], &["--sort", "distance"]].concat()).done();
            assert_eq!(sorted.text(), due(&file, numbers, radius, true));
            let piped = mlat_on(&file, &["near", "--ecef", "-", point[0], point[1], point[2], words[6]]).done();
            assert_eq!(piped.text(), due(&file, numbers, radius, false));
        }
    }
}

/// A file of records, a query of it, and what the oracle finds (oracle/keep_near): without positions and times.
const SEARCHED: [&str; 3] = [
    concat!(env!("CARGO_MANIFEST_DIR"), "/tests/data/near/records.bin"),
    concat!(env!("CARGO_MANIFEST_DIR"), "/tests/data/near/query.txt"),
    concat!(env!("CARGO_MANIFEST_DIR"), "/tests/data/near/found.txt"),
];

#[test]
fn the_oracle_finds_the_same() {
    let [file, query, found] = SEARCHED;
    let [query, found] = [query, found].map(|path| String::from_utf8(bytes_of(path)).expect("text"));
    let words: Vec<&str> = ["near", file].into_iter().chain(query.lines()).collect();
    let text = mlat(&words).done().text().to_string();
    let places: Vec<&str> = text
        .lines()
        .map(|line| line.split(": latitude").next().expect("a part"))
        .collect();
    assert_eq!(places, found.lines().collect::<Vec<_>>());
}

#[test]
fn ties_and_many_blocks() {
    // more than a block of a megabyte, and every fix once more in each copy: the earliest is the nearest
    let file = bytes_of(FIXES).repeat(70);
    let (place, _) = distances(&file, [0.0; 3])[5];
    let point = [16, 24, 32].map(|at| float(&file[place * RECORD..], at));
    let words = point.map(|number| format!("{number:?}"));
    let near = ["near", "-", "--ecef", &words[0], &words[1], &words[2], "0"];
    let text = mlat_on(&file, &near).done().text().to_string();
    assert!(text.starts_with(&format!("nearest: place {place}, 0.000 m away")));
    assert_eq!(text, due(&file, point, 0.0, false));
    assert!(text.lines().count() >= 71);
    // the nearest of a later block may be nearer
    let moved = damaged(&file[place * RECORD..][..RECORD], 16, &(point[0] + 0.5).to_le_bytes());
    let last = [bytes_of(RECORDS).repeat(60), moved, bytes_of(EXAMPLES)].concat();
    let x = format!("{:?}", point[0] + 0.5);
    let text = mlat_on(&last, &["near", "-", "--ecef", &x, &words[1], &words[2], "0"])
        .done()
        .text()
        .to_string();
    assert_eq!(text, due(&last, [point[0] + 0.5, point[1], point[2]], 0.0, false));
    assert!(text.starts_with(&format!("nearest: place {}, 0.000 m away", 60 * 107)));
}

#[test]
fn a_file_that_grows_gives_its_fixes_up_to_a_place() {
    let folder = Folder::new("near_grows");
    let path = folder.file("fixes", &bytes_of(FIXES).repeat(200));
    let mut child = mlat::piped(&["near", "--tail", &path, "--ecef", "0", "0", "0", "1e8"]);
    let mut growing = OpenOptions::new().append(true).open(&path).expect("the file");
    while child.try_wait().expect("it runs or has ended").is_none() && growing.metadata().expect("size").len() < 1 << 23
    {
        growing.write_all(&bytes_of(EXAMPLES)).expect("four records more");
    }
    let ran = mlat::ended(child);
    // the last record may be seen half written
    assert_eq!(ran.status, Some(0), "{}", ran.err);
    let text = ran.text();
    // as many records as there were fixes: none is missing among them
    let (file, listed) = (bytes_of(&path), text.lines().count() - 1);
    let within = distances(&file, [0.0; 3])
        .into_iter()
        .filter(|(_, distance)| *distance <= 1e8);
    let (last, _) = within.take(listed).last().expect("a fix");
    assert!(last >= 199 * 107);
    assert_eq!(text, due(&file[..(last + 1) * RECORD], [0.0; 3], 1e8, false));
}

#[test]
fn lines_beyond_memory_wait_in_a_file() {
    // over 8 MB of lines
    let file = bytes_of(FIXES).repeat(1200);
    let folder = Folder::new("spool");
    let path = folder.file("fixes", &file);
    let words = ["near", &path, "--ecef", "0", "0", "0", "1e8"];
    let text = mlat(&words).done().text().to_string();
    assert!(text.len() > 9 << 20, "{}", text.len());
    assert_eq!(text, due(&file, [0.0; 3], 1e8, false));
    // where none can be made, that is said and nothing printed
    let nowhere = folder.path("nowhere");
    let output = mlat::command(&words)
        .env("TMPDIR", &nowhere)
        .output()
        .expect("mlat runs");
    let err = String::from_utf8(output.stderr).expect("text");
    assert_eq!((output.status.code(), output.stdout.len()), (Some(5), 0));
    assert!(
        err.contains("a temporary file in") && err.matches('\n').count() == 1,
        "{err}"
    );
}

#[test]
fn a_place_is_read_strictly() {
    let near = |words: [&str; 4]| mlat(&[&["near", EXAMPLES][..], &words].concat());
    near(["47,6", "9.3", "11000", "50000"]).faulted(2, "LAT is a number, not 47,6");
    near(["91", "9.3", "11000", "50000"]).faulted(2, "LAT is from -90 to 90, not 91");
    near(["-33.9", "180.5", "0", "1"]).faulted(2, "LON is from -180 to 180, not 180.5");
    near(["47.6", "9.3", "inf", "1"]).faulted(2, "HEIGHT is a number, not inf");
    near(["47.6", "9.3", "0x10", "1"]).faulted(2, "HEIGHT is a number, not 0x10");
    near(["47.6", "9.3", "11000", ""]).faulted(2, "RADIUS is a number, not ");
    near(["47.6", "9.3", "11000", "50 km"]).faulted(2, "RADIUS is a number, not 50 km");
    near(["47.6", "9.3", "11000", "--sort=height"]).faulted(2, "usage: mlat near FILE LAT LON HEIGHT RADIUS");
    mlat(&["near", EXAMPLES, "47.6"]).faulted(2, "usage: mlat near FILE LAT LON HEIGHT RADIUS");
    mlat(&["near", EXAMPLES, "1", "2", "3", "4", "--sort=x"]).faulted(2, "--sort takes distance, not x");
    // negative numbers are no options
    assert_eq!(near(["-33.9", "-.5", "-1e2", "0"]).done().text().lines().count(), 1);
    assert_eq!(
        near(["+47.6", "9.3", "11000", "50000"]).done().text().lines().count(),
        4
    );
}

#[test]
fn a_geodetic_place_is_its_point() {
    // WGS 84 at the pole and at the equator
    let pole = 6_356_752.314_245_179;
    let file = bytes_of(FIXES);
    let close = |text: &str, point: [f64; 3]| {
        let nearest = text.lines().next().expect("the nearest").to_string();
        let all = distances(&file, point);
        let (_, least) = all.iter().min_by(|a, b| a.1.total_cmp(&b.1)).expect("a fix");
        let told = nearest
            .split(", ")
            .nth(1)
            .and_then(|word| word.strip_suffix(" m away: latitude")?.parse().ok());
        let told: f64 = told
            .or_else(|| nearest.split(", ").nth(1)?.split(' ').next()?.parse().ok())
            .expect("metres");
        assert!((told - least).abs() < 0.01, "{nearest} {least}");
    };
    close(
        mlat(&["near", FIXES, "90", "0", "1000", "0"]).done().text(),
        [0.0, 0.0, pole + 1000.0],
    );
    close(
        mlat(&["near", FIXES, "0", "90", "500", "0"]).done().text(),
        [0.0, 6_378_637.0, 0.0],
    );
    close(
        mlat(&["near", FIXES, "0", "-180", "0", "0"]).done().text(),
        [-6_378_137.0, 0.0, 0.0],
    );
}

#[test]
fn a_bad_query_is_told_after_the_whole_file() {
    let folder = Folder::new("query");
    let good = bytes_of(EXAMPLES);
    let bad = folder.file("bad", &[&good[..], &damaged(&good[..RECORD], 160, &[0])].concat());
    let torn = folder.file("torn", &good[..500]);
    for (words, limit) in [
        (
            ["0", "0", "0", "-1"],
            "bad query (22): RADIUS is not negative, as -1 is",
        ),
        (
            ["0", "0", "0", "100000001"],
            "bad query (22): RADIUS is at most 10^8 m, not 100000001",
        ),
        (
            ["1e9", "0", "0", "1"],
            "bad query (22): the place is at most 10^8 m from the middle of the earth",
        ),
        (
            ["0", "-100000000.1", "0", "1"],
            "bad query (22): the place is at most 10^8 m",
        ),
    ] {
        let near = |file: &str| mlat(&[&["near", "--ecef", file][..], &words].concat());
        near(EXAMPLES).faulted(2, limit);
        near(&bad).faulted(3, "record 4 is malformed (18): its version is 0, not 8");
        near(&torn).faulted(
            3,
            "torn file (16): 500 bytes are not whole records of 176: record 2 has 148",
        );
        near(&folder.file("empty", &[])).faulted(2, limit);
    }
    mlat(&["near", EXAMPLES, "0", "0", "1e9", "1"]).faulted(2, "bad query (22): the place is at most 10^8 m");
    // a malformed record at the end of a pipe: nothing was printed before
    let piped = [bytes_of(FIXES).repeat(70), damaged(&good[..RECORD], 160, &[0])].concat();
    mlat_on(&piped, &["near", "-", "0", "0", "0", "1e8"]).faulted(3, "record 7490 is malformed (18)");
    mlat_on(&piped[..piped.len() - 1], &["near", "-", "0", "0", "0", "1e8"]).faulted(3, "record 7490 has 175");
}

#[test]
fn a_search_in_json() {
    let file = bytes_of(EXAMPLES);
    let text = mlat(&["near", "--json", EXAMPLES, "--ecef", "0", "0", "0", "1e8"]).done();
    let all = distances(&file, [0.0; 3]);
    let object = |what: &str, (place, distance): (usize, f64)| {
        let record = &file[place * RECORD..][..RECORD];
        let [latitude, longitude, height] = [48, 56, 64].map(|at| float(record, at));
        format!(
            "{{\"found\": \"{what}\", \"place\": {place}, \"distance_m\": {distance:?}, \"latitude_deg\": \
             {latitude:?}, \"longitude_deg\": {longitude:?}, \"height_m\": {height:?}, \"transmit_ps\": {}}}\n",
            long(record, 72) as i64
        )
    };
    let nearest = all.iter().copied().min_by(|a, b| a.1.total_cmp(&b.1)).expect("a fix");
    let mut due = object("nearest", nearest);
    due.extend(all.into_iter().map(|found| object("within", found)));
    assert_eq!(text.text(), due);
    let none = mlat_on(&[], &["near", "--json", "-", "0", "0", "0", "1"]).done();
    assert_eq!(none.text(), "{\"found\": \"nearest\", \"place\": null}\n");
    let none = mlat_on(&[], &["near", "-", "0", "0", "0", "1"]).done();
    assert_eq!(none.text(), "nearest: none, the file has no fix\n");
}

/// The lines of the second example, from its bytes; its mask is 0x37 of six.
fn lines_of_second(record: &[u8]) -> [String; 9] {
    let [x, y, z] = [16, 24, 32].map(|at| float(record, at));
    let [latitude, longitude, height] = [48, 56, 64].map(|at| float(record, at));
    let [c20, c21, c22] = [128, 136, 144].map(|at| float(record, at));
    [
        format!("  place    latitude {latitude:.6}, longitude {longitude:.6} degrees (WGS 84)\n"),
        format!("  height   {height:.1} m above the ellipsoid\n"),
        format!("  ecef     {x:.3}, {y:.3}, {z:.3} m\n"),
        format!("{c20:14.3} {c21:14.3} {c22:14.3}\n"),
        "  used     receptions 0 1 2 4 5 of 0 to 5; ".to_string(),
        format!(
            "  fit      chi-square {:.3} at 2 degrees of freedom\n",
            float(record, 152)
        ),
        format!(
            "  sent     {} ps, {:.3} m of light",
            long(record, 72) as i64,
            float(record, 40)
        ),
        format!("  altitude {:.1} m, barometric\n", float(record, 168)),
        "  version  8\n".to_string(),
    ]
}

#[test]
fn a_record_is_shown() {
    let file = bytes_of(EXAMPLES);
    let ran = mlat(&["show", EXAMPLES, "1"]).done();
    assert!(ran
        .text()
        .starts_with(&format!("the record at place 1 of {EXAMPLES}:\n")));
    for due in lines_of_second(&file[RECORD..2 * RECORD]) {
        assert!(ran.text().contains(&due), "{} has not {due}", ran.text());
    }
    let piped = mlat_on(&file, &["show", "-", "01"]).done();
    assert_eq!(piped.text(), ran.text().replace(EXAMPLES, "standard input"));
    let json = mlat(&["show", EXAMPLES, "1", "--json"]).done();
    let due = "{\"place\": 1, \"answer\": 0, \"name\": \"FIX\", \"detail\": 2, \"n\": 6, \"used\": 55, ";
    assert!(
        json.text().starts_with(due) && json.text().ends_with("}\n"),
        "{}",
        json.text()
    );
}

#[test]
fn a_refusal_is_shown_with_status_1() {
    // an ambiguous problem
    for words in [&["show", EXAMPLES, "2"][..], &["show", EXAMPLES, "2", "--json"]] {
        let ran = mlat(words);
        assert_eq!((ran.status, ran.err.as_str()), (Some(1), ""));
        assert!(ran.text().contains("ambiguous"), "{}", ran.text());
    }
}

#[test]
fn places_past_the_end_are_refused() {
    let file = bytes_of(EXAMPLES);
    for place in ["4", "18446744073709551615", "99999999999999999999"] {
        mlat(&["show", EXAMPLES, place]).faulted(1, "no such place (17): its records are 0 to 3");
        mlat_on(&file, &["show", "-", place]).faulted(1, "no such place (17): its records are 0 to 3");
    }
    mlat_on(&[], &["show", "-", "0"]).faulted(1, "no such place (17): it has no records");
    for place in ["-1", "1.0", "", "one"] {
        mlat(&["show", EXAMPLES, place]).faulted(2, "PLACE is a whole number from 0, not ");
    }
    // a torn file is refused before its place is looked at
    let folder = Folder::new("places");
    let torn = folder.file("torn", &file[..703]);
    for place in ["0", "9"] {
        mlat(&["show", &torn, place]).faulted(3, "torn file (16)");
        mlat_on(&file[..703], &["show", "-", place]).faulted(3, "torn file (16)");
    }
    let (whole, tail) = (
        mlat(&["show", EXAMPLES, "0"]),
        mlat(&["show", "--tail", &torn, "0"]).done(),
    );
    assert_eq!(tail.text(), whole.text().replace(EXAMPLES, &torn));
    mlat(&["show", "--tail", &torn, "3"]).faulted(1, "its records are 0 to 2");
}
