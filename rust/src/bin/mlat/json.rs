//! Records and refusals as JSON: an object each, its keys the columns of a list of records. A float is the shortest
//! decimal that is read back to its bits.

use std::fmt::Display;
use std::io::Write;

use jifrosk::{Altitude, Fix, Record, Refusal};

use crate::decimal::put_float;
use crate::words;

/// An object that is written to the end of a buffer, member by member.
pub struct Object<'a> {
    out: &'a mut Vec<u8>,
    empty: bool,
}

impl<'a> Object<'a> {
    pub fn begin(out: &'a mut Vec<u8>) -> Self {
        out.push(b'{');
        Object { out, empty: true }
    }

    pub fn end(self) {
        self.out.push(b'}');
    }

    pub fn whole(&mut self, key: &str, value: impl Display) {
        self.key(key);
        put(self.out, format_args!("{value}"));
    }

    /// A float that is finite; null for any other.
    pub fn float(&mut self, key: &str, value: f64) {
        self.key(key);
        match value.is_finite() {
            true => put_float(self.out, value),
            false => self.out.extend_from_slice(b"null"),
        }
    }

    pub fn float_or_null(&mut self, key: &str, value: Option<f64>) {
        self.float(key, value.unwrap_or(f64::NAN));
    }

    pub fn text(&mut self, key: &str, value: &str) {
        self.key(key);
        put_text(self.out, value);
    }

    /// An array of objects, each written by `each`.
    pub fn objects<T>(&mut self, key: &str, items: impl IntoIterator<Item = T>, each: impl Fn(&mut Object, T)) {
        self.key(key);
        self.out.push(b'[');
        for (place, item) in items.into_iter().enumerate() {
            if place > 0 {
                self.out.extend_from_slice(b", ");
            }
            let mut object = Object::begin(self.out);
            each(&mut object, item);
            object.end();
        }
        self.out.push(b']');
    }

    /// The keys of the program are plain words.
    fn key(&mut self, key: &str) {
        if !self.empty {
            self.out.extend_from_slice(b", ");
        }
        self.empty = false;
        put(self.out, format_args!("\"{key}\": "));
    }
}

fn put(out: &mut Vec<u8>, words: std::fmt::Arguments) {
    out.write_fmt(words).expect("a buffer takes every word");
}

/// A string as JSON has it: quotes, backslashes and controls escaped.
fn put_text(out: &mut Vec<u8>, text: &str) {
    out.push(b'"');
    for c in text.chars() {
        match c {
            '"' | '\\' => put(out, format_args!("\\{c}")),
            '\0'..='\x1f' | '\x7f' => put(out, format_args!("\\u{:04x}", u32::from(c))),
            _ => put(out, format_args!("{c}")),
        }
    }
    out.push(b'"');
}

/// The whole object of a record, and a line's end: its columns and what `words` tells besides.
pub fn record(record: &Record) -> Vec<u8> {
    let mut out = Vec::new();
    let mut object = Object::begin(&mut out);
    put_record(&mut object, record);
    put_told(&mut object, record);
    object.end();
    out.push(b'\n');
    out
}

/// The columns of a record: answer, name, detail and n, and those of a fix.
pub fn put_record(object: &mut Object, record: &Record) {
    match record {
        Record::Fix(fix) => put_fix(object, fix),
        Record::Refused { refusal, n } => put_refusal(object, refusal, *n),
    }
}

/// The columns of a refusal.
pub fn put_refusal(object: &mut Object, refusal: &Refusal, n: u32) {
    object.whole("answer", refusal.number());
    object.text("name", refusal.name());
    object.whole("detail", refusal.detail().unwrap_or_default());
    object.whole("n", n);
}

fn put_fix(object: &mut Object, fix: &Fix) {
    object.whole("answer", 0);
    object.text("name", "FIX");
    object.whole("detail", fix.dof);
    object.whole("n", fix.n);
    object.whole("used", fix.used);
    object.float("latitude_deg", fix.position.lat_deg);
    object.float("longitude_deg", fix.position.lon_deg);
    object.float("height_m", fix.position.height_m);
    object.whole("transmit_ps", fix.transmit_ps);
    for (key, metres) in ["x_m", "y_m", "z_m"].into_iter().zip(fix.ecef) {
        object.float(key, metres);
    }
    object.float("t_m", fix.t_m);
    object.float("chi2", fix.chi2);
    object.whole("version", fix.spec);
    let (kind, metres) = match fix.altitude {
        None => (0, None),
        Some(Altitude::Barometric(metres)) => (1, Some(metres)),
        Some(Altitude::Gnss(metres)) => (2, Some(metres)),
    };
    object.whole("altitude_kind", kind);
    object.float_or_null("altitude_m", metres);
    let keys = ["c00", "c01", "c02", "c10", "c11", "c12", "c20", "c21", "c22"];
    for (key, entry) in keys.into_iter().zip(fix.covariance.as_flattened()) {
        object.float(key, *entry);
    }
}

/// What `words` tells besides the columns: standard deviations of a fix; of a refusal what it says and what to do.
pub fn put_told(object: &mut Object, record: &Record) {
    match record {
        Record::Fix(fix) => {
            let keys = ["sigma_east_m", "sigma_north_m", "sigma_up_m"];
            for (key, metres) in keys.into_iter().zip(words::sigma(fix)) {
                object.float_or_null(key, metres);
            }
        }
        Record::Refused { refusal, .. } => {
            object.text("says", &words::says(refusal));
            object.text("advice", words::advice(refusal));
        }
    }
}
