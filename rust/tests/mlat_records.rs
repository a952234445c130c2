//! `mlat archive`, `unarchive`, `asterix`, `records`, `check` and `patterns` on records of recorded solves, whole and
//! damaged.

mod mlat;

use mlat::{
    answer, bytes_of, damaged, long, mlat, mlat_on, with_answer, Folder, Ran, EXAMPLES, FIXES, RECORD, RECORDS,
};

/// Document 02, item 7: the six entries on and right of the diagonal, and the last 24 bytes.
fn archived(file: &[u8]) -> Vec<u8> {
    let mut out = Vec::new();
    for record in file.chunks_exact(RECORD) {
        out.extend_from_slice(&record[..80]);
        for entry in [0, 1, 2, 4, 5, 8] {
            out.extend_from_slice(&record[80 + 8 * entry..88 + 8 * entry]);
        }
        out.extend_from_slice(&record[152..]);
    }
    out
}

#[test]
fn records_go_to_the_archive_and_back() {
    let folder = Folder::new("archive");
    for file in [RECORDS, EXAMPLES] {
        let bytes = bytes_of(file);
        let (there, back) = (folder.path("there"), folder.path("back"));
        let ran = mlat(&["archive", file, &there]);
        let count = bytes.len() / RECORD;
        let line = format!(
            "mlat: {count} records moved, {} bytes to {}\n",
            count * 176,
            count * 152
        );
        assert_eq!((ran.status, ran.err), (Some(0), line));
        assert_eq!(bytes_of(&there), archived(&bytes));
        mlat(&["unarchive", "-q", &there, &back]).done();
        assert_eq!(bytes_of(&back), bytes);
    }
    assert_eq!(folder.names(), ["back", "there"]);
}

#[test]
fn an_archive_goes_through_pipes() {
    let bytes = bytes_of(RECORDS);
    let moved = mlat_on(&bytes, &["archive", "--quiet", "-", "-"]).done().out;
    assert_eq!(moved, archived(&bytes));
    assert_eq!(
        mlat_on(&moved, &["unarchive", "-q", "/dev/stdin", "-"]).done().out,
        bytes
    );
    assert_eq!(mlat_on(&[], &["archive", "-q", "-", "-"]).done().out, []);
}

#[test]
fn an_unequal_mirror_is_not_archived() {
    let fix = with_answer(&bytes_of(FIXES), 0).to_vec();
    let other = (long(&fix, 104) ^ 1).to_le_bytes();
    let file = [fix.clone(), damaged(&fix, 104, &other)].concat();
    let folder = Folder::new("mirror");
    let (there, kept) = (folder.file("there", &file), folder.file("kept", b"as it was"));
    mlat(&["archive", &there, &kept]).faulted(3, "record 1 is refused (20): the covariance is not symmetric");
    assert_eq!(bytes_of(&kept), b"as it was");
    let ran = mlat(&["archive", "-q", "--skip-malformed", &there, "-"]);
    assert_eq!((ran.status, ran.out), (Some(0), archived(&fix)));
    assert!(ran
        .err
        .contains(": 1 record passed over, the first: record 1 is refused (20)"));
    // the others do not look at the mirror
    mlat(&["records", &there]).done();
}

#[test]
fn fixes_become_items() {
    // the oracle's items of these records
    let due = bytes_of(concat!(env!("CARGO_MANIFEST_DIR"), "/tests/data/asterix/items.bin"));
    let ran = mlat(&["asterix", FIXES, "-"]);
    assert_eq!((ran.status, ran.out), (Some(0), due.clone()));
    let line = "mlat: 68 fixes written, 39 records passed over: 35 without a fix, 4 beyond the wire (19)\n";
    assert_eq!(ran.err, line);
    let folder = Folder::new("asterix");
    let out = folder.path("items");
    mlat(&["asterix", "-q", FIXES, &out]).done();
    assert_eq!(bytes_of(&out), due);
    let twice = bytes_of(FIXES).repeat(2);
    assert_eq!(mlat_on(&twice, &["asterix", "-q", "-", "-"]).done().out, due.repeat(2));
}

#[test]
fn a_position_beyond_the_wire_is_passed_over() {
    let fix = with_answer(&bytes_of(FIXES), 0).to_vec();
    let high = damaged(&fix, 64, &25_000.5_f64.to_le_bytes());
    let ran = mlat_on(&[high, fix].concat(), &["asterix", "-", "-"]);
    assert_eq!((ran.status, ran.out.len()), (Some(0), 10));
    assert_eq!(
        ran.err,
        "mlat: 1 fix written, 1 record passed over: 1 beyond the wire (19)\n"
    );
}

/// Records of every answer, a malformed one last, and their list by the table of a record (tools/record_cases).
const EVERY: &str = concat!(env!("CARGO_MANIFEST_DIR"), "/tests/data/records/records.bin");
const LISTED: &str = concat!(env!("CARGO_MANIFEST_DIR"), "/tests/data/records/list.csv");

#[test]
fn records_are_listed_by_the_table() {
    let due = String::from_utf8(bytes_of(LISTED)).expect("text");
    let listed = |ran: Ran| {
        assert_eq!(ran.status, Some(3), "the last record is malformed: {}", ran.err);
        ran.text().to_string()
    };
    assert_eq!(listed(mlat(&["records", "--csv", EVERY])), due);
    assert_eq!(listed(mlat_on(&bytes_of(EVERY), &["records", "-", "--csv"])), due);
    // as JSON, by the names of the columns: no empty columns of a refusal, null for an altitude that is not there
    let mut lines = due.lines();
    let head: Vec<&str> = lines.next().expect("a head").split(',').collect();
    let object = |line: &str| {
        let cells: Vec<&str> = line.split(',').collect();
        let shown = if cells[1] == "0" { head.len() } else { 5 };
        let member = |(name, cell): (&&str, &&str)| match (*name, *cell) {
            ("name", cell) => format!("\"name\": \"{cell}\""),
            (name, "") => format!("\"{name}\": null"),
            (name, cell) => format!("\"{name}\": {cell}"),
        };
        let members: Vec<String> = head.iter().zip(&cells).take(shown).map(member).collect();
        format!("{{{}}}\n", members.join(", "))
    };
    let due: String = lines.map(object).collect();
    assert_eq!(listed(mlat(&["records", "--json", EVERY])), due);
}

#[test]
fn records_are_counted() {
    let file = bytes_of(RECORDS);
    let text = mlat(&["records", RECORDS]).done().text().to_string();
    let words: Vec<Vec<&str>> = text.lines().map(|line| line.split_whitespace().collect()).collect();
    assert_eq!(words[0], ["records", "107"]);
    let fixes = || file.chunks_exact(RECORD).filter(|record| answer(record) == 0);
    for number in 0..25 {
        let count = file
            .chunks_exact(RECORD)
            .filter(|record| answer(record) == number)
            .count();
        let line = words
            .iter()
            .find(|line| line[0] == "answer" && line[1] == number.to_string());
        assert_eq!(
            line.map(|line| line[3].to_string()),
            (count > 0).then(|| count.to_string())
        );
    }
    let times = || fixes().map(|record| long(record, 72) as i64);
    let (first, last) = (times().min().expect("a fix"), times().max().expect("a fix"));
    assert!(text.contains(&format!("first sent at {first} ps\nlast sent at {last} ps\n")));
    let minute = |time: i64| (time as f64 / 6e13).floor() as i64;
    for time in times() {
        let count = times().filter(|other| minute(*other) == minute(time)).count();
        assert!(text.contains(&format!("\nminute {} fixes {count}\n", minute(time))));
    }
    assert_eq!(mlat_on(&file, &["records", "-"]).done().text(), text);
    assert_eq!(mlat_on(&[], &["records", "-"]).done().text(), "records 0\n");
    mlat(&["records", "--csv", "--json", RECORDS]).faulted(2, "--csv or --json, not both");
}

/// Each rule of document 02, item 1, with a fix (answer 0) or a refusal that breaks it: from which byte, by what.
const BROKEN: [(u32, usize, &[u8], &str); 19] = [
    (1, 0, &[14], "its answer is 14, not 0 to 13 or 15"),
    (1, 0, &[16], "its answer is 16, not 0 to 13 or 15"),
    (1, 3, &[1], "its answer is 16777217, not 0 to 13 or 15"),
    (0, 8, &[33], "its n is 33, over 32"),
    (5, 8, &[33], "its n is 33, over 32"),
    (13, 8, &[1], "its n is 1, and a refusal by 13 has none"),
    (0, 160, &[7], "its version is 7, not 8"),
    (0, 162, &[3], "its altitude is of kind 3, not 0 to 2"),
    (0, 30, &[0xf0, 0x7f], "its ECEF y is not finite"),
    (0, 142, &[0xf8, 0x7f], "its covariance entry 21 is not finite"),
    (0, 158, &[0xf0, 0xff], "its chi-square is not finite"),
    (0, 15, &[0x80], "its mask has bits past n"),
    (0, 4, &[29], "its detail is 29, and its degrees of freedom are "),
    (0, 167, &[1], "its filler is not zero"),
    (1, 4, &[4], "its detail is 4, which a refusal by 1 has not"),
    (11, 4, &[0], "its detail is 0, which a refusal by 11 has not"),
    (2, 4, &[1], "its detail is 1, which a refusal by 2 has not"),
    (2, 12, &[1], "its byte 12 is not zero, and a refusal uses none past n"),
    (2, 175, &[1], "its byte 175 is not zero, and a refusal uses none past n"),
];

#[test]
fn each_broken_rule_is_named() {
    let file = bytes_of(RECORDS);
    let folder = Folder::new("rules");
    let out = folder.file("out", b"as it was");
    for (wanted, at, bytes, rule) in BROKEN {
        let broken = damaged(with_answer(&file, wanted), at, bytes);
        let path = folder.file("in", &[&file[..2 * RECORD], &broken, &file[..RECORD]].concat());
        let words = format!("record 2 is malformed (18): {rule}");
        let ran = mlat(&["check", &path]);
        assert_eq!(ran.status, Some(3));
        assert!(ran.text().contains(&words), "{}", ran.text());
        assert_eq!(ran.err, format!("mlat: {path}: malformed records (18): 1 of 4\n"));
        mlat(&["archive", &path, &out]).faulted(3, &words);
        mlat(&["asterix", &path, &out]).faulted(3, &words);
        mlat(&["near", &path, "47.6", "9.3", "11000", "50000"]).faulted(3, &words);
        mlat(&["show", &path, "2"]).faulted(3, &words);
        assert!(mlat(&["records", &path]).err.contains(&words));
        assert_eq!(bytes_of(&out), b"as it was");
    }
}

#[test]
fn metres_without_an_altitude_break_a_rule() {
    let file = bytes_of(RECORDS);
    let fix = file
        .chunks_exact(RECORD)
        .find(|record| answer(record) == 0 && record[162] == 0)
        .expect("a fix without an altitude");
    let ran = mlat_on(&damaged(fix, 175, &[0x80]), &["check", "-"]);
    assert_eq!(ran.status, Some(3));
    assert!(ran
        .text()
        .contains("record 0 is malformed (18): it has metres of an altitude that it has not"));
}

#[test]
fn an_archived_record_names_its_rule_too() {
    let fix = with_answer(&bytes_of(FIXES), 0).to_vec();
    // the entries of the last row of the old form are mirrors: 22 is the sixth of the archive's
    let path = Folder::new("old_form");
    let broken = damaged(&archived(&fix), 80 + 5 * 8 + 6, &[0xf0, 0x7f]);
    let file = path.file("in", &[archived(&fix), broken].concat());
    mlat(&["unarchive", &file, "-"]).faulted(3, "record 1 is malformed (18): its covariance entry 22 is not finite");
    let ran = mlat(&["unarchive", "-q", "--skip-malformed", &file, "-"]);
    assert_eq!((ran.status, ran.out), (Some(0), fix));
}

#[test]
fn malformed_records_are_passed_over_and_said() {
    let file = bytes_of(RECORDS);
    let broken = damaged(&file[..RECORD], 0, &[14]);
    let mixed: Vec<u8> = file
        .chunks_exact(RECORD)
        .flat_map(|record| [record, &broken].concat())
        .collect();
    let line = "107 records passed over, the first: record 1 is malformed (18): its answer is 14, not 0 to 13 or 15";
    for words in [
        &["archive", "-q", "-", "-"][..],
        &["asterix", "-q", "-", "-"],
        &["records", "-"],
    ] {
        let ran = mlat_on(&mixed, &[words, &["--skip-malformed"]].concat());
        assert_eq!(
            (ran.status, ran.err),
            (Some(0), format!("mlat: standard input: {line}\n"))
        );
        assert_eq!(ran.out, mlat_on(&file, words).done().out);
    }
    let near = ["near", "-", "0", "0", "0", "1e8"];
    let ran = mlat_on(&mixed, &[&near[..], &["--skip-malformed"]].concat());
    let good = mlat_on(&file, &near).done();
    // a place among the mixed is twice that among the good
    let halved = |text: &str| {
        text.replace("nearest: ", "")
            .lines()
            .map(half_of_place)
            .collect::<Vec<_>>()
    };
    assert_eq!(
        halved(ran.text()),
        good.text().replace("nearest: ", "").lines().collect::<Vec<_>>()
    );
}

fn half_of_place(line: &str) -> String {
    let (place, rest) = line
        .strip_prefix("place ")
        .expect("a place")
        .split_once(',')
        .expect("a comma");
    format!("place {},{rest}", place.parse::<u64>().expect("a number") / 2)
}

#[test]
fn a_list_shows_malformed_records() {
    let fix = with_answer(&bytes_of(FIXES), 0).to_vec();
    let file = [damaged(&fix, 160, &[9]), fix].concat();
    let ran = mlat_on(&file, &["records", "--csv", "-"]);
    assert_eq!(ran.status, Some(3));
    let lines: Vec<&str> = ran.text().lines().collect();
    assert_eq!(lines[1], format!("0,18,MALFORMED_RECORD,0,0{}", ",".repeat(22)));
    assert!(lines[2].starts_with("1,0,FIX,") && lines.len() == 3);
    assert_eq!(
        ran.err,
        "mlat: standard input: 1 malformed record, the first: record 0 is malformed (18): its version is 9, not 8\n"
    );
    let ran = mlat_on(&file, &["records", "--json", "-"]);
    let line = "{\"place\": 0, \"answer\": 18, \"name\": \"MALFORMED_RECORD\", \"detail\": 0, \"n\": 0}\n";
    assert!(ran.status == Some(3) && ran.text().starts_with(line));
    let ran = mlat_on(&file, &["records", "--csv", "--skip-malformed", "-"]);
    assert_eq!(ran.status, Some(0));
    assert!(ran.text().lines().count() == 2 && ran.text().contains("\n1,0,FIX,"));
}

#[test]
fn a_check_names_twenty_and_counts_the_others() {
    let file = bytes_of(RECORDS);
    let ran = mlat(&["check", RECORDS]).done();
    assert!(ran.text().starts_with("records 107\nanswer  0 FIX "));
    mlat_on(&file, &["check", "-q", "-"]).done();
    let broken = damaged(&file[..RECORD], 0, &[14]).repeat(33);
    let ran = mlat_on(&[&file[..], &broken].concat(), &["check", "-"]);
    assert_eq!(ran.status, Some(3));
    let places: Vec<&str> = ran.text().lines().filter(|line| line.starts_with("record ")).collect();
    assert_eq!(places.len(), 20);
    assert!(places[0].starts_with("record 107 is") && places[19].starts_with("record 126 is"));
    assert!(ran.text().contains("\nand 13 more malformed records\nrecords 140\n"));
    assert!(ran.text().ends_with("\nanswer 18 MALFORMED_RECORD  33\n"));
    let ran = mlat_on(&broken, &["check", "-q", "-"]);
    assert_eq!((ran.status, ran.out, ran.err.as_str()), (Some(3), vec![], ""));
}

#[test]
fn patterns_are_counted() {
    let table = bytes_of(concat!(env!("CARGO_MANIFEST_DIR"), "/tests/data/patterns/table.txt"));
    let table = String::from_utf8(table).expect("text");
    assert_eq!(mlat(&["patterns"]).done().text(), table);
    let lines: Vec<&str> = table.lines().collect();
    for n in 0..7 {
        let text = mlat(&["patterns", &n.to_string()]).done().text().to_string();
        let due = [lines[0], lines[1], lines[2], lines[3 + n]].map(|line| format!("{line}\n"));
        assert_eq!(text, due.concat());
    }
    for n in ["7", "4294967296", "4294967299"] {
        mlat(&["patterns", n]).faulted(2, "N is 0 to 6 (24): there are over six receptions");
    }
    mlat(&["patterns", "-1"]).faulted(2, "N is a whole number from 0, not -1");
    mlat(&["patterns", "1", "2"]).faulted(2, "usage: mlat patterns [N]");
}
