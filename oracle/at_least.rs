/// Document 01: "`max` gives its second argument unless the first is greater".
pub trait AtLeast {
    fn at_least(self, other: Self) -> Self;
}

impl AtLeast for f64 {
    fn at_least(self, other: f64) -> f64 {
        if self > other { self } else { other }
    }
}
