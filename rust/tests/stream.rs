//! The recorded inputs as problems of streams: whole, one after the other, cut, too long, and with short outputs.

use jifrosk::{cut_lengths, solve_bytes, solve_next, Refusal, ABSENT, RECEPTION, RECORD};

const RECORDED: &str = concat!(env!("CARGO_MANIFEST_DIR"), "/../crates/replay/stdin");
const CALLS: &str = concat!(env!("CARGO_MANIFEST_DIR"), "/tests/data/streams/cuts.bin");

/// The inputs of a problem, receptions first.
type Inputs<'a> = [Option<&'a [u8]>; 4];

/// The recorded inputs with their records: crates/replay/RECORDING.md has the form.
fn recorded(mut bytes: &[u8]) -> Vec<(Inputs<'_>, &[u8])> {
    let mut all = Vec::new();
    while !bytes.is_empty() {
        let (head, mut rest) = bytes.split_at(8);
        let length = |k: usize| usize::from(u16::from_le_bytes([head[k], head[k + 1]]));
        let files = [length(0), length(2), usize::from(head[4]), usize::from(head[5])].map(|length| {
            let (file, more) = rest.split_at(length);
            rest = more;
            file
        });
        let there = [3, 0, 1, 2].map(|bit: u8| head[6] >> bit & 1 == 1);
        let inputs = [0, 1, 2, 3].map(|k| there[k].then_some(files[k]));
        let (record, more) = rest.split_at(RECORD);
        all.push((inputs, record));
        bytes = more;
    }
    all
}

/// A problem of a stream (docs/GUIDE.md, 'Many problems at once').
fn framed(inputs: &Inputs) -> Vec<u8> {
    let lengths = inputs.map(|input| input.map_or(ABSENT, |bytes| bytes.len() as u32));
    let mut problem: Vec<u8> = lengths.iter().flat_map(|length| length.to_le_bytes()).collect();
    inputs.iter().flatten().for_each(|bytes| problem.extend(*bytes));
    problem
}

fn answer_of(record: &[u8]) -> u32 {
    u32::from_le_bytes(record[..4].try_into().expect("four bytes"))
}

#[test]
fn problems_of_a_stream_give_their_records_in_turn() {
    let bytes = std::fs::read(RECORDED).expect("the recording of crates/replay");
    let recorded = recorded(&bytes);
    let problems: Vec<Vec<u8>> = recorded.iter().map(|(inputs, _)| framed(inputs)).collect();
    let stream = problems.concat();
    let mut left = stream.as_slice();
    for (k, (_, record)) in recorded.iter().enumerate() {
        let mut out = [0xA5; RECORD + 7];
        let told = solve_next(left, &mut out);
        assert_eq!(told, Ok((answer_of(record), problems[k].len())), "problem {k}");
        assert_eq!(&out[..RECORD], *record, "problem {k}");
        assert_eq!(out[RECORD..], [0xA5; 7], "problem {k}");
        left = &left[problems[k].len()..];
    }
    assert_eq!(solve_next(left, &mut [0; RECORD]), Err(Refusal::TornFile));
}

#[test]
fn a_stream_that_ends_within_a_problem_is_torn() {
    let bytes = std::fs::read(RECORDED).expect("the recording of crates/replay");
    for (k, (inputs, _)) in recorded(&bytes).iter().enumerate().step_by(50) {
        let problem = framed(inputs);
        for end in (0..problem.len()).step_by(13).chain([problem.len() - 1]) {
            let mut out = [0xA5; RECORD];
            let told = solve_next(&problem[..end], &mut out);
            assert_eq!(told, Err(Refusal::TornFile), "problem {k}, {end} bytes");
            assert_eq!(out, [0xA5; RECORD], "problem {k}, {end} bytes");
        }
    }
    // lengths that no memory holds
    let huge = [ABSENT - 1; 4].map(u32::to_le_bytes).concat();
    assert_eq!(solve_next(&huge, &mut [0; RECORD]), Err(Refusal::TornFile));
}

#[test]
fn short_outputs_are_left_alone() {
    let problem = framed(&[None; 4]);
    for length in 0..RECORD {
        let mut out = vec![0x5A; length];
        for stream in [&problem[..], &problem[..5], &[]] {
            assert_eq!(solve_next(stream, &mut out), Err(Refusal::ShortOutput));
        }
        assert!(out.iter().all(|byte| *byte == 0x5A));
    }
}

/// The start of an input that is left of a length.
fn start(input: Option<&[u8]>, length: u32) -> Option<&[u8]> {
    input.map(|bytes| &bytes[..length as usize])
}

#[test]
fn what_is_cut_off_moves_no_answer() {
    let bytes = std::fs::read(RECORDED).expect("the recording of crates/replay");
    let mut cut = 0;
    for (k, (inputs, _)) in recorded(&bytes).iter().enumerate().step_by(7) {
        let longer = inputs.map(|input| input.map(|bytes| [bytes, &[0x11; 9_000]].concat()));
        for (part, more) in longer.iter().enumerate() {
            let mut whole = *inputs;
            whole[part] = more.as_deref();
            let lengths = whole.map(|input| input.map_or(ABSENT, |bytes| bytes.len() as u32));
            let enough = cut_lengths(&lengths);
            let starts = [0, 1, 2, 3].map(|k| start(whole[k], enough[k]));
            cut += usize::from(enough != lengths);
            let [r, c, a, f] = whole;
            let (mut expected, mut out) = ([0; RECORD], [0; RECORD]);
            let answer = solve_bytes(r.unwrap_or(&[]), c, a, f, &mut expected);
            let told = solve_next(&framed(&starts), &mut out);
            assert_eq!(told.map(|(number, _)| number), Ok(answer), "problem {k}, input {part}");
            assert_eq!(out, expected, "problem {k}, input {part}");
        }
    }
    assert!(cut > 1_000, "{cut} were cut");
}

#[test]
fn lengths_are_cut_as_recorded() {
    let bytes = std::fs::read(CALLS).expect("the recorded cuts");
    let word = |call: &[u8], at: usize| u64::from_le_bytes(call[8 * at..8 * at + 8].try_into().expect("eight bytes"));
    let four = |call: &[u8], at: usize| [0, 1, 2, 3].map(|k| word(call, at + k) as u32);
    let calls: Vec<&[u8]> = bytes.chunks(176).filter(|call| word(call, 0) == 10).collect();
    for call in &calls {
        assert_eq!(cut_lengths(&four(call, 1)), four(call, 13), "{:?}", four(call, 1));
    }
    assert!(calls.len() >= 100, "{} are recorded", calls.len());
}

#[test]
fn lengths_of_whole_inputs_stay() {
    let most = [32 * RECEPTION as u32, 8 * 32 * 32, 16, 8];
    assert_eq!(cut_lengths(&most), most);
    assert_eq!(cut_lengths(&[ABSENT; 4]), [ABSENT; 4]);
    assert_eq!(cut_lengths(&[ABSENT - 1; 4]), [4_355, 8_193, 17, 9]);
}
