//! What the commands over files of records do where files, disks and pipes are not as they should be: torn, growing,
//! shrinking, full, closed, larger than 2^32 bytes; and where someone stops them.

mod mlat;

use std::fs::{self, File, OpenOptions};
use std::io::{Read, Seek, SeekFrom, Write};
use std::os::unix::fs::PermissionsExt;
use std::os::unix::process::{CommandExt, ExitStatusExt};
use std::process::{Child, Command, Stdio};
use std::time::{Duration, Instant};

use mlat::{bytes_of, command, ended, mlat, mlat_on, piped, Folder, EXAMPLES, FIXES, RECORD, RECORDS};

/// Every command that reads records, on a file.
fn readers(file: &str) -> [Vec<&str>; 8] {
    [
        vec!["archive", "-q", file, "-"],
        vec!["asterix", "-q", file, "-"],
        vec!["records", file],
        vec!["records", "--csv", file],
        vec!["records", "--json", file],
        vec!["near", file, "47.6", "9.3", "11000", "1e8"],
        vec!["check", file],
        vec!["show", file, "1"],
    ]
}

#[test]
fn pipes_are_read_as_files_are() {
    let bytes = bytes_of(RECORDS);
    let folder = Folder::new("pipes");
    let fifo = folder.path("fifo");
    assert!(Command::new("mkfifo").arg(&fifo).status().expect("mkfifo").success());
    for ((named, standard), by_name) in readers(RECORDS).iter().zip(readers("-")).zip(readers(&fifo)) {
        let due = mlat(named).done().text_without(RECORDS);
        assert_eq!(mlat_on(&bytes, &standard).done().text_without("standard input"), due);
        let (path, sent) = (fifo.clone(), bytes.clone());
        let sender = std::thread::spawn(move || fs::write(path, sent));
        assert_eq!(mlat(&by_name).done().text_without(&fifo), due);
        sender.join().expect("the sender ends").expect("the pipe takes all");
    }
}

impl mlat::Ran {
    fn text_without(&self, name: &str) -> String {
        String::from_utf8_lossy(&self.out).replace(name, "NAME")
    }
}

#[test]
fn a_torn_file_is_refused_before_anything_is_written() {
    let folder = Folder::new("torn");
    let bytes = bytes_of(RECORDS);
    let torn = folder.file("torn", &bytes[..bytes.len() - 1]);
    let words = "torn: torn file (16): 18831 bytes are not whole records of 176: record 106 has 175\n";
    for reader in readers(&torn).iter().filter(|reader| reader[0] != "check") {
        mlat(reader).faulted(3, words);
    }
    let ran = mlat(&["check", &torn]);
    assert_eq!(ran.status, Some(3));
    assert!(ran.err.ends_with(words) && ran.text().starts_with("torn file (16)"));
    assert!(ran.text().contains("\nrecords 106\n"));
    let out = folder.file("out", b"as it was");
    for command in ["archive", "unarchive", "asterix"] {
        mlat(&[command, &torn, &out]).faulted(3, "torn file (16)");
        mlat_on(&bytes[..300], &[command, "-", &out]).faulted(3, "torn file (16)");
        assert_eq!(bytes_of(&out), b"as it was");
    }
    assert_eq!(folder.names(), ["out", "torn"]);
}

#[test]
fn a_half_written_tail_is_said() {
    let bytes = bytes_of(RECORDS);
    let (whole, torn) = (&bytes[..106 * RECORD], &bytes[..bytes.len() - 1]);
    let line = "mlat: standard input: its last record has 175 bytes of 176, and is passed over\n";
    for reader in readers("-").iter().filter(|reader| reader[0] != "show") {
        let ran = mlat_on(torn, &[&reader[..], &["--tail"]].concat());
        assert_eq!((ran.status, ran.err.as_str()), (Some(0), line));
        assert_eq!(ran.out, mlat_on(whole, reader).done().out);
    }
    let (none, few) = (
        mlat_on(&[], &["records", "--tail", "-"]),
        mlat_on(&bytes[..9], &["records", "--tail", "-"]),
    );
    assert_eq!((few.status, few.out), (none.status, none.out));
}

#[test]
fn inputs_that_cannot_be_read() {
    let folder = Folder::new("unread");
    let (nowhere, here) = (folder.path("nowhere"), folder.path("."));
    for (path, words) in [
        (&nowhere, "nowhere cannot be read: No such file"),
        (&here, "cannot be read: Is a directory"),
    ] {
        for reader in readers(path) {
            mlat(&reader).faulted(4, words);
        }
        let out = folder.path("out");
        mlat(&["archive", path, &out]).faulted(4, words);
    }
    assert_eq!(folder.names(), [""; 0]);
}

#[test]
fn full_disks_are_said() {
    for reader in readers(RECORDS) {
        let full = OpenOptions::new().write(true).open("/dev/full").expect("/dev/full");
        let child = command(&reader)
            .stdout(full)
            .stderr(Stdio::piped())
            .spawn()
            .expect("mlat starts");
        ended(child).faulted(5, "standard output cannot be written: No space left on device");
    }
    for command in ["archive", "asterix"] {
        mlat(&[command, RECORDS, "/dev/full"]).faulted(5, "/dev/full cannot be written: No space left on device");
        mlat(&[command, RECORDS, "/sys/out"]).faulted(5, "/sys/out cannot be written: ");
        mlat(&[command, RECORDS, "/nowhere/out"]).faulted(5, "/nowhere/out cannot be written: No such file");
        mlat(&[command, RECORDS, "/tmp"]).faulted(5, "/tmp cannot be written: is a directory");
    }
}

#[test]
fn a_file_over_the_limit_leaves_the_old_one() {
    // a limit of eight blocks of 512 bytes or a kilobyte stands for a disk that is full
    let folder = Folder::new("limit");
    let out = folder.file("out", b"as it was");
    let limited = format!("ulimit -f 8; exec \"$0\" archive {RECORDS} {out}");
    let ran = Command::new("sh")
        .args(["-c", &limited, env!("CARGO_BIN_EXE_mlat")])
        .stdout(Stdio::piped())
        .stderr(Stdio::piped())
        .spawn()
        .expect("sh starts");
    ended(ran).faulted(5, "out cannot be written: File too large");
    assert_eq!(
        (bytes_of(&out), folder.names()),
        (b"as it was".to_vec(), vec!["out".to_string()])
    );
}

#[test]
fn a_small_file_system_that_is_full_leaves_the_old_one() {
    let folder = Folder::new("small");
    let small = folder.path("");
    let mounted = "mount -t tmpfs -o size=16k none \"$1\" 2>/dev/null || exit 99; cd \"$1\" && echo as it was >out";
    let script = format!("{mounted}; \"$0\" archive {RECORDS} out; echo $?; cat out; ls");
    let words = ["-rm", "sh", "-c", &script, env!("CARGO_BIN_EXE_mlat"), &small];
    let ran = match Command::new("unshare").args(words).output() {
        Ok(output) if output.status.success() => mlat::Ran::of(output),
        // a system may not let everyone have a file system of their own
        _ => return eprintln!("passed over: no file system can be made here"),
    };
    assert_eq!(ran.text(), "5\nas it was\nout\n");
    assert_eq!(ran.err, "mlat: out cannot be written: No space left on device\n");
}

#[test]
fn an_output_may_be_its_input_and_keeps_its_permissions() {
    let folder = Folder::new("same");
    let bytes = bytes_of(RECORDS);
    let file = folder.file("file", &bytes);
    fs::set_permissions(&file, fs::Permissions::from_mode(0o640)).expect("permissions");
    let due = mlat(&["archive", "-q", RECORDS, "-"]).done().out;
    mlat(&["archive", "-q", &file, &file]).done();
    assert_eq!(bytes_of(&file), due);
    assert_eq!(
        fs::metadata(&file).expect("it is there").permissions().mode() & 0o777,
        0o640
    );
    // a link stays a link
    let link = folder.path("link");
    std::os::unix::fs::symlink("file", &link).expect("a link");
    mlat(&["unarchive", "-q", &file, &link]).done();
    assert_eq!(bytes_of(&file), bytes);
    assert!(fs::symlink_metadata(&link).expect("a link").is_symlink());
    assert_eq!(folder.names(), ["file", "link"]);
}

/// A command that has read the first block of a file and waits for someone to read what it wrote.
fn waiting(file: &str) -> (Child, Vec<u8>) {
    let mut child = piped(&["archive", "-q", file, "-"]);
    let mut first = vec![0; 1];
    let out = child.stdout.as_mut().expect("a pipe");
    out.read_exact(&mut first).expect("the first byte");
    (child, first)
}

/// Over two blocks of a megabyte.
fn long_file(folder: &Folder) -> String {
    folder.file("long", &bytes_of(RECORDS).repeat(200))
}

#[test]
fn a_file_that_grows_is_read_to_its_end() {
    let folder = Folder::new("grows");
    let file = long_file(&folder);
    let (child, mut out) = waiting(&file);
    let mut growing = OpenOptions::new().append(true).open(&file).expect("the file");
    growing.write_all(&bytes_of(EXAMPLES)).expect("four records more");
    let ran = ended(child);
    out.extend(&ran.out);
    assert_eq!((ran.status, ran.err.as_str()), (Some(0), ""));
    assert_eq!(out, mlat(&["archive", "-q", &file, "-"]).done().out);
    assert_eq!(out.len(), (200 * 107 + 4) * 152);
    // by half a record: then it is torn
    let (child, _) = waiting(&file);
    growing.write_all(&[0; 88]).expect("half a record more");
    let ran = ended(child);
    assert_eq!(ran.status, Some(3));
    assert!(ran.err.contains("record 21404 has 88"), "{}", ran.err);
}

#[test]
fn a_file_that_shrinks_is_a_fault() {
    let folder = Folder::new("shrinks");
    let file = long_file(&folder);
    let (child, _) = waiting(&file);
    let shrinking = OpenOptions::new().write(true).open(&file).expect("the file");
    shrinking.set_len(10_000 * RECORD as u64).expect("a shorter file");
    let ran = ended(child);
    assert_eq!(ran.status, Some(4));
    let words = "of 3766400 bytes were read\n";
    assert!(ran.err.contains("long cannot be read: it became shorter meanwhile") && ran.err.ends_with(words));
}

#[test]
fn a_closed_pipe_is_a_fault() {
    let folder = Folder::new("closed");
    let file = long_file(&folder);
    for reader in [
        vec!["archive", "-q", &file, "-"],
        vec!["records", "--csv", &file],
        vec!["near", &file, "0", "0", "0", "1e8"],
    ] {
        let mut child = piped(&reader);
        drop(child.stdout.take());
        ended(child).faulted(5, "standard output cannot be written: Broken pipe");
    }
}

extern "C" {
    fn signal(number: i32, handler: usize) -> usize;
}

/// A command that waits for more records after some; this test's own callers may have it ignore signals, or not.
fn started(folder: &Folder, out: &str, number: i32, handler: usize) -> Child {
    let mut archive = command(&["archive", "-q", "-", out]);
    // SAFETY: the call is safe between fork and exec.
    unsafe {
        archive.pre_exec(move || {
            signal(number, handler);
            Ok(())
        })
    };
    let mut child = archive
        .stdin(Stdio::piped())
        .stderr(Stdio::piped())
        .spawn()
        .expect("mlat starts");
    let pipe = child.stdin.as_mut().expect("a pipe");
    pipe.write_all(&bytes_of(RECORDS).repeat(100))
        .expect("the first records");
    let begun = Instant::now();
    while folder.names().len() < 2 {
        assert!(begun.elapsed() < Duration::from_secs(10), "there is no file beside");
        std::thread::sleep(Duration::from_millis(5));
    }
    let sent = Command::new("kill")
        .args([format!("-{number}"), child.id().to_string()])
        .status();
    assert!(sent.expect("kill runs").success());
    child
}

#[test]
fn a_command_that_is_stopped_leaves_nothing() {
    let folder = Folder::new("stopped");
    let out = folder.file("out", b"as it was");
    // of a closed terminal, of Ctrl-C and Ctrl-\\, of kill
    for number in [1, 2, 3, 15] {
        let mut child = started(&folder, &out, number, 0);
        assert_eq!(child.wait().expect("it ends").signal(), Some(number));
        assert_eq!(
            (bytes_of(&out), folder.names()),
            (b"as it was".to_vec(), vec!["out".to_string()])
        );
    }
}

#[test]
fn a_signal_that_is_ignored_stays_so() {
    // as nohup does
    let folder = Folder::new("ignored");
    let out = folder.file("out", b"as it was");
    ended(started(&folder, &out, 1, 1)).done();
    assert_eq!(
        (bytes_of(&out).len(), folder.names()),
        (100 * 107 * 152, vec!["out".to_string()])
    );
}

/// The place of a record that begins past 2^32 bytes.
const FAR: u64 = (1 << 32) / RECORD as u64 + 2;

#[test]
fn a_file_beyond_two_to_the_32_bytes() {
    let folder = Folder::new("sparse");
    let path = folder.path("sparse");
    let mut file = File::create(&path).expect("a file");
    file.seek(SeekFrom::Start(FAR * RECORD as u64)).expect("a sparse file");
    file.write_all(&bytes_of(EXAMPLES)[..RECORD])
        .expect("a record at its end");
    let shown = mlat(&["show", &path, &FAR.to_string()]).done();
    let due = mlat(&["show", EXAMPLES, "0"]).done();
    let lines = |text: &str| text.lines().skip(1).map(str::to_string).collect::<Vec<_>>();
    assert_eq!(lines(shown.text()), lines(due.text()));
    // zeros are a fix of version 0
    mlat(&["archive", &path, "-"]).faulted(3, "record 0 is malformed (18): its version is 0, not 8");
}

#[test]
fn a_stream_beyond_two_to_the_32_bytes() {
    let zeros = FAR * RECORD as u64;
    let sent = format!("head -c {zeros} /dev/zero; head -c {RECORD} {EXAMPLES}");
    let mut sender = Command::new("sh")
        .args(["-c", &sent])
        .stdout(Stdio::piped())
        .spawn()
        .expect("sh starts");
    let pipe = sender.stdout.take().expect("a pipe");
    let ran = mlat::Ran::of(command(&["check", "-"]).stdin(pipe).output().expect("mlat runs"));
    assert!(sender.wait().expect("sh ends").success());
    assert_eq!(ran.status, Some(3));
    let line = format!("\nand {} more malformed records\nrecords {}\n", FAR - 20, FAR + 1);
    assert!(ran.text().contains(&line), "{}", ran.text());
    assert!(
        ran.text().contains("\nanswer  0 FIX                     1\n"),
        "{}",
        ran.text()
    );
}

#[test]
fn every_command_has_help_and_a_version() {
    let list = mlat(&["--help"]).done();
    let version = mlat(&["--version"]).done();
    assert!(version
        .text()
        .starts_with(concat!("mlat ", env!("CARGO_PKG_VERSION"), " (mlat_solver ")));
    for command in [
        "show",
        "records",
        "near",
        "archive",
        "unarchive",
        "asterix",
        "check",
        "patterns",
    ] {
        assert!(list.text().contains(&format!("\n  {command} ")));
        let help = mlat(&[command, "--help"]).done();
        assert!(help.text().starts_with(&format!("usage: mlat {command} ")));
        assert_eq!(mlat(&["help", command]).done().text(), help.text());
        // a screen has 24 lines of 120 columns
        assert!(help.text().lines().count() <= 24);
        assert!(help.text().lines().all(|line| line.chars().count() <= 120));
        assert_eq!(mlat(&[command, "x", "--version"]).done().text(), version.text());
        mlat(&[command, "--bad"]).faulted(2, "there is no option --bad");
        let many = [command, "1", "2", "3", "4", "5", "6", "7"];
        mlat(&many).faulted(2, &format!("usage: mlat {command} "));
    }
    mlat::<&str>(&[]).faulted(2, "no command is named");
    mlat(&["nothing"]).faulted(2, "there is no command nothing");
}

#[test]
fn a_name_with_a_line_end_stays_on_one_line() {
    mlat(&["check", "a\nb"]).faulted(4, "a?b cannot be read");
    mlat(&["records", "--", "--help"]).faulted(4, "--help cannot be read: No such file");
    assert!(mlat(&["records", FIXES]).done().text().starts_with("records 107\n"));
}
