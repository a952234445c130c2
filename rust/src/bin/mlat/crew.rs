//! A stream's problems, shared out to threads, and what they give in the stream's order. One thread reads, those of the
//! crew solve, and the caller's writes: so none of what is solved waits for the stream to go on, and a caller that
//! cannot write ends at once, though the reader waits.

use std::sync::mpsc::{self, Receiver, Sender, SyncSender};
use std::sync::{Arc, Mutex};
use std::thread::Builder;

use crate::fault::Fault;
use crate::frames::{Frames, Whole};

/// The most problems that a thread takes at a time: some milliseconds of work.
const MOST: usize = 128;

/// How many parts for each thread wait or are being solved: what is in memory at a time.
const AHEAD: usize = 4;

/// Problems one after the other, and where each ends.
pub struct Part {
    pub bytes: Vec<u8>,
    pub ends: Vec<usize>,
}

impl Part {
    /// The problems in turn.
    pub fn problems(&self) -> impl Iterator<Item = &[u8]> {
        let starts = [0].into_iter().chain(self.ends.iter().copied());
        starts.zip(&self.ends).map(|(start, end)| &self.bytes[start..*end])
    }
}

/// A part, and where its result goes.
type Job<R> = (Part, SyncSender<R>);

/// The results of a stream's parts in its order; the fault that ended it comes last.
pub struct Results<R> {
    order: Receiver<Result<Receiver<R>, Fault>>,
}

impl<R> Iterator for Results<R> {
    type Item = Result<R, Fault>;

    fn next(&mut self) -> Option<Self::Item> {
        let turn = self.order.recv().ok()?;
        Some(turn.map(|result| result.recv().expect("a thread gives a result for each part")))
    }
}

/// Has the problems of a stream worked on by so many threads.
pub fn work<R: Send + 'static>(frames: Frames, threads: usize, solve: fn(&Part) -> R) -> Result<Results<R>, Fault> {
    let (jobs, taken) = mpsc::channel();
    let taken = Arc::new(Mutex::new(taken));
    for _ in 0..threads {
        let taken = Arc::clone(&taken);
        begin(move || solve_jobs(&taken, solve))?;
    }
    let (turns, order) = mpsc::sync_channel(AHEAD * threads);
    begin(move || read_all(frames, threads, &jobs, &turns))?;
    Ok(Results { order })
}

fn begin(run: impl FnOnce() + Send + 'static) -> Result<(), Fault> {
    match Builder::new().spawn(run) {
        Ok(_) => Ok(()),
        Err(_) => Err(Fault::Call(
            "the system gives no more threads: name fewer with -j".to_string(),
        )),
    }
}

fn solve_jobs<R>(jobs: &Mutex<Receiver<Job<R>>>, solve: fn(&Part) -> R) {
    loop {
        let job = jobs.lock().expect("no thread ends while it takes a job").recv();
        let Ok((part, result)) = job else {
            return;
        };
        // a caller that is gone needs no result
        let _ = result.send(solve(&part));
    }
}

fn read_all<R>(
    mut frames: Frames,
    threads: usize,
    jobs: &Sender<Job<R>>,
    turns: &SyncSender<Result<Receiver<R>, Fault>>,
) {
    loop {
        match frames.next() {
            Ok(None) => return,
            Ok(Some(whole)) if share_out(&whole, threads, jobs, turns) => {}
            Ok(Some(_)) => return,
            Err(fault) => {
                let _ = turns.send(Err(fault));
                return;
            }
        }
    }
}

/// Shares problems out, in small parts where they are few; whether the caller is still there.
fn share_out<R>(
    whole: &Whole,
    threads: usize,
    jobs: &Sender<Job<R>>,
    turns: &SyncSender<Result<Receiver<R>, Fault>>,
) -> bool {
    let size = (whole.ends.len() / (AHEAD * threads)).clamp(1, MOST);
    let mut start = 0;
    whole.ends.chunks(size).all(|ends| {
        let end = *ends.last().expect("a chunk is not empty");
        let part = Part {
            bytes: whole.bytes[start..end].to_vec(),
            ends: ends.iter().map(|end| end - start).collect(),
        };
        start = end;
        let (result, given) = mpsc::sync_channel(1);
        turns.send(Ok(given)).is_ok() && jobs.send((part, result)).is_ok()
    })
}
