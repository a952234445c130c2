//! prepare IN OUT: copies linalg.rs with the replacements listed here, each asserted to match as often as it says.

/// What is replaced, by what, how often, and why.
const REPLACEMENTS: [(&str, &str, usize, &str); 2] = [
    (
        ".sum()",
        ".fold(0.0f64, |sum, value| sum + value)",
        5,
        "sums start from plus zero; `sum` of this Rust starts from minus zero",
    ),
    (
        "    n: usize,\n    l: Vec<f64>,\n",
        "    pub n: usize,\n    pub l: Vec<f64>,\n",
        1,
        "the factor's entries are made visible",
    ),
];

fn main() {
    let paths: Vec<String> = std::env::args().skip(1).collect();
    if let Err(what) = prepared(&paths) {
        eprintln!("prepare: {what}");
        std::process::exit(1);
    }
}

fn prepared(paths: &[String]) -> Result<(), String> {
    let [from, to] = paths else { return Err("usage: prepare IN OUT".to_string()) };
    let mut text = std::fs::read_to_string(from).map_err(|error| format!("{from}: {error}"))?;
    for (old, new, times, why) in REPLACEMENTS {
        let found = text.matches(old).count();
        if found != times {
            let shown = old.trim().escape_debug();
            return Err(format!("{from} is not the original's: it has `{shown}` {found} times, not {times} ({why})"));
        }
        text = text.replace(old, new);
        println!("replaced {times} x `{}`: {why}", old.trim().escape_debug());
    }
    std::fs::write(to, text).map_err(|error| format!("{to}: {error}"))
}
