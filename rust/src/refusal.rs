use std::fmt;

/// Why a call turned its input away. Each has the number of document 01 (1 to 15) or of document 02 (16 to 24), and 1,
/// 11 and 12 the detail that a record shows.
#[derive(Clone, Copy, Debug, PartialEq, Eq)]
pub enum Refusal {
    /// Fewer receptions included than 4 (3 with an altitude).
    TooFew {
        /// How many there are.
        included: u32,
    },
    /// No start converges.
    NoConvergence,
    /// No fit is plausible, or the transmit time leaves i64.
    OutOfRange,
    /// The outlier rounds did not settle.
    NoFixedPoint,
    /// The residuals fail the chi-square test.
    Inconsistent,
    /// A covariance is not positive definite, or a residual is not a number.
    Singular,
    /// No clock covariance was given.
    Uncovered,
    /// Two places fit about as well.
    Ambiguous,
    /// A standard deviation above 1,500 m, or a covariance that is not positive definite.
    Uncertain,
    /// Over 32 receptions.
    TooMany,
    /// A reception's identity is not above the one before.
    Disorder {
        /// Its place, from 1: the first has none before it.
        index: u32,
    },
    /// A field outside its domain, or a filler that is not zero.
    BadField(Field),
    /// The clock covariance is not n × n.
    ClockSize,
    /// Less memory lent than the answer takes. No record has it.
    ShortOutput,
    /// An input has not a whole number of entries; only [`crate::solve_bytes`] and [`crate::solve_receptions`] meet it.
    TornInput,
    /// A file that is not whole records, a record of another length, or a stream that ends within a problem.
    TornFile,
    /// A place past the last record.
    NoSuchPlace,
    /// A record that breaks a rule, or a value that no record holds.
    MalformedRecord,
    /// A position beyond the limits of the wire's numbers, or no position.
    BeyondTheWire,
    /// Covariance entries that mirror each other and are not equal.
    UnequalMirror,
    /// A size over 32, or an array of another length.
    WrongSize,
    /// A point or radius that is not finite, or too large, or a negative radius.
    BadQuery,
    /// A number beyond the items of category 020, or another length than ten.
    BeyondTheItems,
    /// Over six receptions.
    OverSix,
}

/// The names of 1 to 24, as include/mlat_solver.h has them.
const NAMES: [&str; 24] = [
    "TOO_FEW",
    "NO_CONVERGENCE",
    "OUT_OF_RANGE",
    "NO_FIXED_POINT",
    "INCONSISTENT",
    "SINGULAR",
    "UNCOVERED",
    "AMBIGUOUS",
    "UNCERTAIN",
    "TOO_MANY",
    "DISORDER",
    "BAD_FIELD",
    "CLOCK_SIZE",
    "SHORT_OUTPUT",
    "TORN_INPUT",
    "TORN_FILE",
    "NO_SUCH_PLACE",
    "MALFORMED_RECORD",
    "BEYOND_THE_WIRE",
    "UNEQUAL_MIRROR",
    "WRONG_SIZE",
    "BAD_QUERY",
    "BEYOND_THE_ITEMS",
    "OVER_SIX",
];

/// Where a number lies outside its domain.
#[derive(Clone, Copy, Debug, PartialEq, Eq)]
pub enum Field {
    /// In a reception.
    Reception {
        /// Its place, from 0.
        index: u32,
    },
    /// In a row of the clock covariance.
    ClockRow {
        /// From 0.
        row: u32,
    },
    /// In the altitude.
    Altitude,
}

impl Field {
    fn of(detail: u32) -> Self {
        match detail {
            200 => Field::Altitude,
            row @ 100..=131 => Field::ClockRow { row: row - 100 },
            index => Field::Reception { index },
        }
    }

    fn detail(self) -> Option<u32> {
        match self {
            Field::Reception { index } => (index < 32).then_some(index),
            Field::ClockRow { row } => (row < 32).then(|| 100 + row),
            Field::Altitude => Some(200),
        }
    }
}

impl Refusal {
    /// The refusal of this number, with a record's detail for 1, 11 and 12; none for 0 and past 24.
    pub fn of(number: u32, detail: u32) -> Option<Self> {
        Some(match number {
            1 => Refusal::TooFew { included: detail },
            2 => Refusal::NoConvergence,
            3 => Refusal::OutOfRange,
            4 => Refusal::NoFixedPoint,
            5 => Refusal::Inconsistent,
            6 => Refusal::Singular,
            7 => Refusal::Uncovered,
            8 => Refusal::Ambiguous,
            9 => Refusal::Uncertain,
            10 => Refusal::TooMany,
            11 => Refusal::Disorder { index: detail },
            12 => Refusal::BadField(Field::of(detail)),
            13 => Refusal::ClockSize,
            14 => Refusal::ShortOutput,
            15 => Refusal::TornInput,
            16 => Refusal::TornFile,
            17 => Refusal::NoSuchPlace,
            18 => Refusal::MalformedRecord,
            19 => Refusal::BeyondTheWire,
            20 => Refusal::UnequalMirror,
            21 => Refusal::WrongSize,
            22 => Refusal::BadQuery,
            23 => Refusal::BeyondTheItems,
            24 => Refusal::OverSix,
            _ => return None,
        })
    }

    /// Its number, 1 to 24: of document 01 or 02.
    pub fn number(&self) -> u32 {
        match self {
            Refusal::TooFew { .. } => 1,
            Refusal::NoConvergence => 2,
            Refusal::OutOfRange => 3,
            Refusal::NoFixedPoint => 4,
            Refusal::Inconsistent => 5,
            Refusal::Singular => 6,
            Refusal::Uncovered => 7,
            Refusal::Ambiguous => 8,
            Refusal::Uncertain => 9,
            Refusal::TooMany => 10,
            Refusal::Disorder { .. } => 11,
            Refusal::BadField(_) => 12,
            Refusal::ClockSize => 13,
            Refusal::ShortOutput => 14,
            Refusal::TornInput => 15,
            Refusal::TornFile => 16,
            Refusal::NoSuchPlace => 17,
            Refusal::MalformedRecord => 18,
            Refusal::BeyondTheWire => 19,
            Refusal::UnequalMirror => 20,
            Refusal::WrongSize => 21,
            Refusal::BadQuery => 22,
            Refusal::BeyondTheItems => 23,
            Refusal::OverSix => 24,
        }
    }

    /// Its name in include/mlat_solver.h without MLAT_, as `TOO_FEW`.
    pub fn name(&self) -> &'static str {
        NAMES[self.number() as usize - 1]
    }

    /// The detail that a record of it shows; none for a field that no input has.
    pub fn detail(&self) -> Option<u32> {
        match *self {
            Refusal::TooFew { included } => Some(included),
            Refusal::Disorder { index } => Some(index),
            Refusal::BadField(field) => field.detail(),
            _ => Some(0),
        }
    }
}

/// What a call answered: 0, or the number of its refusal.
pub(crate) fn answered(number: u32) -> Result<(), Refusal> {
    match number {
        0 => Ok(()),
        _ => Err(Refusal::of(number, 0).expect("the library answers 0 to 24")),
    }
}

impl fmt::Display for Refusal {
    fn fmt(&self, f: &mut fmt::Formatter) -> fmt::Result {
        let words = match self {
            Refusal::TooFew { included } => return write!(f, "too few receptions are included ({included})"),
            Refusal::NoConvergence => "no start converges",
            Refusal::OutOfRange => "no fit is plausible, or the transmit time leaves 64 bits",
            Refusal::NoFixedPoint => "the outlier rounds do not settle",
            Refusal::Inconsistent => "the residuals fail the chi-square test",
            Refusal::Singular => "a covariance is not positive definite, or a residual is not a number",
            Refusal::Uncovered => "no clock covariance was given",
            Refusal::Ambiguous => "two places fit about as well",
            Refusal::Uncertain => "the position is too poorly determined",
            Refusal::TooMany => "there are over 32 receptions",
            Refusal::Disorder { index } => {
                return write!(f, "the identity of reception {index} is not above the one before");
            }
            Refusal::BadField(Field::Reception { index }) => {
                return write!(f, "reception {index} has a field outside the domain");
            }
            Refusal::BadField(Field::ClockRow { row }) => {
                return write!(f, "row {row} of the clock covariance has a field outside the domain");
            }
            Refusal::BadField(Field::Altitude) => "the altitude lies outside the domain",
            Refusal::ClockSize => "the clock covariance is not n × n",
            Refusal::ShortOutput => "the output is shorter than the answer",
            Refusal::TornInput => "an input has not a whole number of entries",
            Refusal::TornFile => "the bytes are not whole records of 176",
            Refusal::NoSuchPlace => "the file has no record at that place",
            Refusal::MalformedRecord => "it is no fix record: a field breaks the record's rules",
            Refusal::BeyondTheWire => "there is no position within the limits of the wire",
            Refusal::UnequalMirror => "the covariance is not symmetric to the bit",
            Refusal::WrongSize => "a size is over 32, or an array has another length",
            Refusal::BadQuery => "the point or the radius is not finite, too large, or the radius negative",
            Refusal::BeyondTheItems => "the position does not fit the items, or they are not ten bytes",
            Refusal::OverSix => "there are over six receptions",
        };
        f.write_str(words)
    }
}

impl std::error::Error for Refusal {}
