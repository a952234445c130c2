//! The version of the library beside those of version.txt and of the header.

use jifrosk::version;

/// The text of a file of the repository.
fn text(name: &str) -> String {
    std::fs::read_to_string(format!("{}/../{name}", env!("CARGO_MANIFEST_DIR"))).expect("a file of the repository")
}

#[test]
fn the_library_has_this_version() {
    let shown = version().map(|number| number.to_string()).join(".");
    assert_eq!(shown, text("version.txt").trim());
    assert_eq!(shown, env!("CARGO_PKG_VERSION"));
}

#[test]
fn the_header_has_this_version() {
    let header = text("include/mlat_solver.h");
    for (name, number) in ["MAJOR", "MINOR", "PATCH"].iter().zip(version()) {
        assert!(
            header.contains(&format!("#define MLAT_VERSION_{name} {number}\n")),
            "{name}"
        );
    }
}
