//! prepare SRC OUT: copies solve.rs, linalg.rs, geo.rs, three items of clock.rs and one of obs.rs from SRC to OUT with the replacements listed here, each
//! asserted to match as often as it says.

use std::{fs, path::Path, process::exit};

/// File, what is replaced, by what, how often, and why.
type Replacement = (&'static str, &'static str, &'static str, usize, &'static str);

macro_rules! from_zero {
    () => {
        ".fold(0.0f64, |sum, value| sum + value)"
    };
}

const ZERO: &str = "sums start from plus zero; `sum` of this Rust starts from minus zero";
const MAX: &str = "`max` gives its second argument unless the first is greater";
const T: &str = "T, which the record shows";
const SINGULAR: &str = "a kept residual that is not a number ends the round in 6, before any change";
const SEEN: &str = "made visible to the comparisons";

const REPLACEMENTS: [Replacement; 18] = [
    ("linalg.rs", ".sum()", from_zero!(), 5, ZERO),
    ("linalg.rs", "    n: usize,\n    l: Vec<f64>,\n", "    pub n: usize,\n    pub l: Vec<f64>,\n", 1, SEEN),
    ("solve.rs", "* rounding)\n                .sum()", concat!("* rounding)\n                ", from_zero!()), 1, ZERO),
    ("solve.rs", ".sum::<f64>()", from_zero!(), 3, ZERO),
    ("solve.rs", ".map(|(a, b)| a * b).sum()", concat!(".map(|(a, b)| a * b)", from_zero!()), 1, ZERO),
    ("solve.rs", ".max(1e-12)", ".at_least(1e-12)", 2, MAX),
    ("solve.rs", ".max(0.0)", ".at_least(0.0)", 1, MAX),
    ("solve.rs", "use crate::modes::", "use crate::AtLeast;\nuse crate::modes::", 1, MAX),
    ("solve.rs", "    pub dof: u32,\n}", "    pub dof: u32,\n    pub t: f64,\n}", 1, T),
    ("solve.rs", "        chi2: fit.cost,\n", "        chi2: fit.cost,\n        t: fit.params[3],\n", 1, T),
    (
        "solve.rs",
        "        // Worst included above the threshold",
        "        if z.iter().any(|(_, value)| value.is_nan()) {\n            return Err(SolveError::Singular);\n        }\n        // Worst included above the threshold",
        1,
        SINGULAR,
    ),
    ("solve.rs", "pub(crate) ", "pub ", 6, SEEN),
    ("solve.rs", "\nfn isqrt(", "\npub fn isqrt(", 1, SEEN),
    ("solve.rs", "\n    fn normal(", "\n    pub fn normal(", 1, SEEN),
    ("solve.rs", "\n    fn bancroft(", "\n    pub fn bancroft(", 1, SEEN),
    ("solve.rs", "\nfn finish(", "\npub fn finish(", 1, SEEN),
    ("solve.rs", "pub struct Item {", "#[derive(Clone)]\npub struct Item {", 1, SEEN),
    ("solve.rs", "pub struct Problem {", "#[derive(Clone)]\npub struct Problem {", 1, SEEN),
];

/// What is taken of a file: from the first text to the end of the second, each asserted to stand there.
type Items = &'static [(&'static str, &'static str)];

const CLOCK: Items = &[
    ("pub const SPEC_VERSION: u16 = ", ";"),
    ("pub const PS: i128 = ", ";"),
    ("#[derive(Clone, Copy, Debug, PartialEq, Eq)]\npub struct ModelTime {", "\n}"),
];

/// With its derived order, which is the order that problems are sorted by.
const OBS: Items = &[("#[derive(Clone, Copy, Debug, PartialEq, Eq, PartialOrd, Ord, Hash)]\npub struct ObservationId {", "\n}")];

/// For `tally_wire::PublicKey`, which is not there. Document 02: "receiver 32 bytes", "bytes compared as unsigned from the first".
const PUBLIC_KEY: &str = "pub type PublicKey = [u8; 32];\n\n";

fn read(folder: &Path, name: &str) -> String {
    let path = folder.join(name);
    fs::read_to_string(&path).unwrap_or_else(|error| {
        eprintln!("oracle: {}: {error}", path.display());
        eprintln!("oracle: SRC is to be the folder of the original Rust in which solve.rs, linalg.rs, geo.rs, clock.rs and obs.rs stand");
        exit(2)
    })
}

fn found(text: &str, old: &str, times: usize, of: &str) {
    let count = text.matches(old).count();
    if count != times {
        eprintln!("oracle: {of} has {count} times, not {times}: {}", old.escape_debug());
        exit(1)
    }
}

/// The items of a file, one after the other.
fn taken(from: &Path, name: &str, items: Items) -> String {
    let text = read(from, name);
    let mut taken = String::new();
    for (first, last) in items {
        found(&text, first, 1, name);
        let rest = &text[text.find(first).expect("it is there")..];
        let end = rest.find(last).expect("it ends") + last.len();
        taken += &rest[..end];
        taken += "\n";
    }
    taken
}

fn main() {
    let paths: Vec<String> = std::env::args().skip(1).collect();
    let [from, to] = paths.as_slice() else {
        panic!("prepare SRC OUT");
    };
    let (from, to) = (Path::new(from), Path::new(to));
    for name in ["solve.rs", "linalg.rs", "geo.rs"] {
        let mut text = read(from, name);
        for (_, old, new, times, _) in REPLACEMENTS.iter().filter(|replacement| replacement.0 == name) {
            found(&text, old, *times, name);
            text = text.replace(old, new);
        }
        fs::write(to.join(name), text).expect("the copy is writable");
    }
    fs::write(to.join("clock.rs"), taken(from, "clock.rs", CLOCK)).expect("the copy is writable");
    fs::write(to.join("obs.rs"), PUBLIC_KEY.to_string() + &taken(from, "obs.rs", OBS)).expect("the copy is writable");
}
