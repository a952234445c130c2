//! `mlat many --why`: what each receiver is to the fixes of a stream.

use std::cmp::Ordering;
use std::collections::HashMap;

use jifrosk::{State, RECEPTION};

use crate::crew::{Part, Results};
use crate::fault::Fault;
use crate::frames::inputs_of;
use crate::json::Object;
use crate::many::Count;
use crate::output::Output;
use crate::progress::Progress;
use crate::why::{hexadecimal, states, KEY, SHOWN};

/// A receiver's key.
type Key = [u8; KEY];

/// Normalised residuals: how many, their sum and the greatest.
#[derive(Default)]
struct Residuals {
    count: u64,
    sum: f64,
    greatest: f64,
}

impl Residuals {
    fn add(&mut self, residual: f64) {
        self.count += 1;
        self.sum += residual;
        self.greatest = self.greatest.max(residual);
    }

    fn mean(&self) -> Option<f64> {
        (self.count > 0).then(|| self.sum / self.count as f64)
    }

    fn greatest(&self) -> Option<f64> {
        (self.count > 0).then_some(self.greatest)
    }
}

/// What became of a receiver's receptions.
#[derive(Default)]
struct Tally {
    used: Residuals,
    left_out: Residuals,
    removed: u64,
    /// The refused problems that it took part in.
    refused: u64,
}

impl Tally {
    fn add(&mut self, state: Option<State>) {
        match state {
            Some(State::Used { residual }) => self.used.add(residual),
            Some(State::LeftOut { residual }) => self.left_out.add(residual),
            Some(State::Removed { .. }) => self.removed += 1,
            None => self.refused += 1,
        }
    }

    /// Its receptions in solved problems.
    fn solved(&self) -> u64 {
        self.used.count + self.left_out.count + self.removed
    }

    /// The share of these that was not used; none where there are none.
    fn unused(&self) -> Option<f64> {
        let solved = self.solved();
        (solved > 0).then(|| (solved - self.used.count) as f64 / solved as f64)
    }
}

/// What a part of the stream says: each reception's receiver and state, of a refused problem each receiver alone.
pub struct Told {
    count: Count,
    states: Vec<(Key, Option<State>)>,
}

/// Writes a line for each receiver, those first of whose receptions the greatest share was not used.
pub fn tally(told: Results<Told>, mut progress: Progress, mut out: Output, json: bool) -> Result<(), Fault> {
    let mut count = Count::default();
    let mut tallies: HashMap<Key, Tally> = HashMap::new();
    for told in told {
        let told = told?;
        count.add(&told.count);
        for (receiver, state) in told.states {
            tallies.entry(receiver).or_default().add(state);
        }
        progress.tell(|seconds| count.line(seconds));
    }
    drop(progress);
    let mut rows: Vec<(Key, Tally)> = tallies.into_iter().collect();
    rows.sort_by(|a, b| least_used_first((&a.0, &a.1), (&b.0, &b.1)));
    match json {
        true => put_object(out.buffer(), &count, &rows),
        false => out.put(table(&count, &rows).as_bytes())?,
    }
    out.finish()
}

pub fn tell_part(part: &Part) -> Told {
    let (mut count, mut told) = (Count::default(), Vec::new());
    for problem in part.problems() {
        let inputs = inputs_of(problem);
        count.problems += 1;
        match states(&inputs) {
            Ok(heard) => {
                count.fixes += 1;
                told.extend(heard.iter().map(|heard| (heard.receiver, Some(heard.state))));
            }
            Err(_) => told.extend(
                receivers(inputs[0].unwrap_or_default())
                    .into_iter()
                    .map(|key| (key, None)),
            ),
        }
    }
    Told { count, states: told }
}

/// The receivers of a refused problem, each once: none of receptions that are torn, the first 33 of more.
fn receivers(receptions: &[u8]) -> Vec<Key> {
    if !receptions.len().is_multiple_of(RECEPTION) {
        return Vec::new();
    }
    let key = |reception: &[u8]| *reception.first_chunk().expect("a key");
    let mut keys: Vec<Key> = receptions.chunks_exact(RECEPTION).map(key).collect();
    keys.sort_unstable();
    keys.dedup();
    keys
}

/// By the share that was not used, then by how many that are, then by key; those with none in solved problems last.
fn least_used_first(a: (&Key, &Tally), b: (&Key, &Tally)) -> Ordering {
    let share = |tally: &Tally| tally.unused().unwrap_or(-1.0);
    let by_share = share(b.1).total_cmp(&share(a.1));
    by_share
        .then_with(|| b.1.solved().cmp(&a.1.solved()))
        .then_with(|| a.0.cmp(b.0))
}

/// How many bytes of the keys tell them apart, 8 at least.
fn told_apart(rows: &[(Key, Tally)]) -> usize {
    let mut keys: Vec<&Key> = rows.iter().map(|(key, _)| key).collect();
    keys.sort_unstable();
    let same = |pair: &[&Key]| pair[0].iter().zip(pair[1]).take_while(|(a, b)| a == b).count();
    keys.windows(2).map(|pair| same(pair) + 1).fold(SHOWN, usize::max)
}

fn table(count: &Count, rows: &[(Key, Tally)]) -> String {
    let shown = told_apart(rows);
    let (problems, fixes) = (count.problems, count.fixes);
    let counts = format!("{problems} problems, {fixes} fixes, {} refused", problems - fixes);
    if rows.is_empty() {
        return format!("{counts}\n");
    }
    let head = format!("{:width$}", "receiver", width = 2 * shown);
    let mut lines = format!(
        "{counts}; residuals in standard deviations\n{head}  not used      used  left out   removed   refused  \
         used: mean greatest  left out: mean greatest\n"
    );
    for (key, tally) in rows {
        lines += &line(&key[..shown], tally);
    }
    lines
}

fn line(key: &[u8], tally: &Tally) -> String {
    let share = tally.unused().map(|share| format!("{:.1} %", 100.0 * share));
    let number = |value: Option<f64>| value.map_or("-".to_string(), |value| format!("{value:.2}"));
    format!(
        "{}  {:>8}  {:>8}  {:>8}  {:>8}  {:>8}  {:>10} {:>8}  {:>14} {:>8}\n",
        hexadecimal(key),
        share.unwrap_or("-".to_string()),
        tally.used.count,
        tally.left_out.count,
        tally.removed,
        tally.refused,
        number(tally.used.mean()),
        number(tally.used.greatest()),
        number(tally.left_out.mean()),
        number(tally.left_out.greatest()),
    )
}

fn put_object(out: &mut Vec<u8>, count: &Count, rows: &[(Key, Tally)]) {
    let mut object = Object::begin(out);
    object.whole("problems", count.problems);
    object.whole("fixes", count.fixes);
    object.whole("refused", count.problems - count.fixes);
    object.objects("receivers", rows, |object, (key, tally)| {
        object.text("receiver", &hexadecimal(key));
        object.float_or_null("share_not_used", tally.unused());
        object.whole("used", tally.used.count);
        object.whole("left_out", tally.left_out.count);
        object.whole("removed", tally.removed);
        object.whole("refused", tally.refused);
        object.float_or_null("used_residual_mean", tally.used.mean());
        object.float_or_null("used_residual_greatest", tally.used.greatest());
        object.float_or_null("left_out_residual_mean", tally.left_out.mean());
        object.float_or_null("left_out_residual_greatest", tally.left_out.greatest());
    });
    object.end();
    out.push(b'\n');
}
