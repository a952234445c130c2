//! A record as a line of a list: comma-separated, or a JSON object.

use std::ops::Range;

use jifrosk::{Altitude, Fix, Record, Refusal};

use crate::decimal::{put_float, put_signed, put_whole};

/// The columns of a record: those of a refusal end with n.
const COLUMNS: [&str; 27] = [
    "place",
    "answer",
    "name",
    "detail",
    "n",
    "used",
    "latitude_deg",
    "longitude_deg",
    "height_m",
    "transmit_ps",
    "x_m",
    "y_m",
    "z_m",
    "t_m",
    "chi2",
    "version",
    "altitude_kind",
    "altitude_m",
    "c00",
    "c01",
    "c02",
    "c10",
    "c11",
    "c12",
    "c20",
    "c21",
    "c22",
];

/// The columns of a refusal.
const REFUSED: usize = 5;

/// How lines are written.
pub struct Rows {
    /// What stands before each column.
    before: [String; COLUMNS.len()],
    quote: &'static str,
    none: &'static str,
    /// What ends a line: of a fix, and of a refusal.
    ends: [String; 2],
}

impl Rows {
    /// Comma-separated, every line with all columns.
    pub fn csv() -> Self {
        let before = std::array::from_fn(|column| if column == 0 { "" } else { "," }.to_string());
        Rows {
            before,
            quote: "",
            none: "",
            ends: ["\n".to_string(), ",".repeat(COLUMNS.len() - REFUSED) + "\n"],
        }
    }

    /// An object a line, as Python's json writes it.
    pub fn json() -> Self {
        let key = |column: usize| {
            let open = if column == 0 { "{" } else { ", " };
            format!("{open}\"{}\": ", COLUMNS[column])
        };
        Rows {
            before: std::array::from_fn(key),
            quote: "\"",
            none: "null",
            ends: ["}\n", "}\n"].map(str::to_string),
        }
    }

    /// The head of a comma-separated list.
    pub fn head() -> String {
        COLUMNS.join(",") + "\n"
    }

    /// Puts the line of a record, or of one that the library turns away.
    pub fn put(&self, out: &mut Vec<u8>, place: u64, held: &Result<Record, Refusal>) {
        let mut row = Row {
            rows: self,
            column: 0,
            out,
        };
        row.whole(place);
        let fix = match held {
            Ok(Record::Fix(fix)) => row.put_fix(fix),
            Ok(Record::Refused { refusal, n }) => row.put_refusal(refusal, *n),
            Err(refusal) => row.put_refusal(refusal, 0),
        };
        out.extend_from_slice(self.ends[usize::from(!fix)].as_bytes());
    }
}

/// A line that is being put.
struct Row<'a> {
    rows: &'a Rows,
    column: usize,
    out: &'a mut Vec<u8>,
}

impl Row<'_> {
    /// Puts what stands before the next column.
    fn begin(&mut self) {
        self.out.extend_from_slice(self.rows.before[self.column].as_bytes());
        self.column += 1;
    }

    fn text(&mut self, text: &str) {
        self.begin();
        self.out.extend_from_slice(text.as_bytes());
    }

    fn name(&mut self, name: &str) {
        self.text(self.rows.quote);
        self.out.extend_from_slice(name.as_bytes());
        self.out.extend_from_slice(self.rows.quote.as_bytes());
    }

    fn whole(&mut self, number: u64) {
        self.begin();
        put_whole(self.out, number);
    }

    /// Gives where its text stands.
    fn float(&mut self, number: f64) -> Range<usize> {
        self.begin();
        let from = self.out.len();
        put_float(self.out, number);
        from..self.out.len()
    }

    /// Whether the line is a fix's.
    fn put_refusal(&mut self, refusal: &Refusal, n: u32) -> bool {
        self.whole(refusal.number().into());
        self.name(refusal.name());
        self.whole(refusal.detail().unwrap_or_default().into());
        self.whole(n.into());
        false
    }

    fn put_fix(&mut self, fix: &Fix) -> bool {
        self.whole(0);
        self.name("FIX");
        for number in [fix.dof, fix.n, fix.used] {
            self.whole(number.into());
        }
        for number in <[f64; 3]>::from(fix.position) {
            self.float(number);
        }
        self.begin();
        put_signed(self.out, fix.transmit_ps);
        for number in fix.ecef.into_iter().chain([fix.t_m, fix.chi2]) {
            self.float(number);
        }
        self.whole(fix.spec.into());
        self.put_altitude(fix.altitude);
        self.put_covariance(&fix.covariance);
        true
    }

    fn put_altitude(&mut self, altitude: Option<Altitude>) {
        let (kind, metres) = match altitude {
            None => (0, None),
            Some(Altitude::Barometric(metres)) => (1, Some(metres)),
            Some(Altitude::Gnss(metres)) => (2, Some(metres)),
        };
        self.whole(kind);
        match metres {
            Some(metres) => _ = self.float(metres),
            None => self.text(self.rows.none),
        }
    }

    /// An entry that has the bits of its mirror has its text too.
    fn put_covariance(&mut self, covariance: &[[f64; 3]; 3]) {
        let mut texts: [Range<usize>; 9] = std::array::from_fn(|_| 0..0);
        for (place, number) in covariance.as_flattened().iter().enumerate() {
            let (row, column) = (place / 3, place % 3);
            let mirror = covariance[column][row].to_bits() == number.to_bits();
            if mirror && column < row {
                self.begin();
                self.out.extend_from_within(texts[3 * column + row].clone());
            } else {
                texts[place] = self.float(*number);
            }
        }
    }
}
