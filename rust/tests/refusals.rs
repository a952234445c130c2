//! The names of refusals are those of include/mlat_solver.h.

use jifrosk::Refusal;

#[test]
fn a_refusal_has_the_name_of_the_header() {
    let header = concat!(env!("CARGO_MANIFEST_DIR"), "/../include/mlat_solver.h");
    let header = std::fs::read_to_string(header).expect("the header");
    let (_, list) = header.split_once("enum mlat_refusal {").expect("the list");
    let (list, _) = list.split_once('}').expect("its end");
    let mut count = 0;
    for line in list.lines().filter_map(|line| line.trim().strip_prefix("MLAT_")) {
        let (name, number) = line.split_once(" = ").expect("a number");
        let digits: String = number.chars().take_while(char::is_ascii_digit).collect();
        let number = digits.parse().expect("a number");
        if let Some(refusal) = Refusal::of(number, 0) {
            assert_eq!((refusal.name(), refusal.number()), (name, number));
            count += 1;
        }
    }
    assert_eq!((count, Refusal::of(25, 0)), (24, None));
}
