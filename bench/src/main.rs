//! Times the proved library and the second program on the same interchanges, in one process: the best of many runs, in ns a byte.

mod inputs;

use acknowledgment::Numbers;
use inputs::Input;
use std::hint::black_box;
use std::time::{Duration, Instant};

const DATE: u32 = 20240315;
const TIME: u32 = 930;

/// How long both sides run on one input.
const DURATION: Duration = Duration::from_secs(2);

fn time(run: &mut impl FnMut()) -> Duration {
    let start = Instant::now();
    run();
    start.elapsed()
}

/// The shortest of many runs of each side, in ns. They take turns, so that a slow
/// while of the machine is one for both.
fn best(mut first: impl FnMut(), mut second: impl FnMut()) -> (f64, f64) {
    let start = Instant::now();
    let mut best = (Duration::MAX, Duration::MAX);
    while start.elapsed() < DURATION {
        best.0 = best.0.min(time(&mut first));
        best.1 = best.1.min(time(&mut second));
    }
    (best.0.as_nanos() as f64, best.1.as_nanos() as f64)
}

fn library(input: &Input, buffer: &mut [u8]) -> (u32, usize) {
    let numbers = Numbers {
        date: DATE,
        time: TIME,
        control: input.control,
    };
    let room = &mut buffer[..input.room];
    (input.entry.library)(&input.interchange, room, numbers)
}

fn second(input: &Input) -> second::Answer {
    (input.entry.second)(&input.interchange, input.room, DATE, TIME, input.control)
}

/// A time says nothing where the answers differ, or are not what they are meant to be.
fn assert_answers(input: &Input, buffer: &mut [u8]) {
    let (number, length) = library(input, buffer);
    let answer = second(input);
    assert_eq!(answer.number(), input.number, "{}", input.name);
    assert_eq!(number, u32::from(input.number), "{}", input.name);
    assert_eq!(length, answer.length(), "{}", input.name);
    assert!(buffer.starts_with(answer.response()), "{}", input.name);
}

fn row(input: &Input, buffer: &mut [u8]) {
    assert_answers(input, buffer);
    let bytes = input.interchange.len() as f64;
    let (library, second) = best(
        || {
            black_box(library(black_box(input), buffer));
        },
        || {
            black_box(second(black_box(input)));
        },
    );
    println!(
        "| {} | {bytes} | {:.2} | {:.2} | {:.2} |",
        input.name,
        library / bytes,
        second / bytes,
        library / second
    );
}

/// One call of the library, for a tool that counts.
fn once(kind: &str, sets: &str, buffer: &mut [u8]) {
    let input = inputs::sets_of(kind, sets.parse().expect("a number of sets"));
    black_box(library(&input, buffer));
}

fn main() {
    let mut buffer = vec![0; inputs::ROOM];
    let words: Vec<String> = std::env::args().skip(1).collect();
    if let [kind, sets] = words.as_slice() {
        return once(kind, sets, &mut buffer);
    }
    println!("| Interchange | bytes | library, ns a byte | second, ns a byte | ratio |");
    println!("|---|---|---|---|---|");
    let inputs = [inputs::answered(), inputs::refused(), inputs::envelopes()];
    for input in inputs.iter().flatten() {
        row(input, &mut buffer);
    }
}
