//! Compares the proved call with the second implementation, and times both.

mod reference;
mod texts;

use std::hint::black_box;
use std::time::{Duration, Instant};
use texts::Random;

extern "C" {
    fn dolzhivar_margin(text: *const u8, text_length: usize, answer: *mut u8, answer_length: usize) -> i64;
}

/// The proved call.
fn proved(text: &[u8], memory: &mut [u8]) -> i64 {
    // SAFETY: both slices are valid for their lengths and do not overlap.
    unsafe { dolzhivar_margin(text.as_ptr(), text.len(), memory.as_mut_ptr(), memory.len()) }
}

fn differs(text: &[u8], memory_length: usize, counts: &mut [u64; 256]) -> bool {
    let filled: Vec<u8> = (0..memory_length).map(|i| (i * 7 + 3) as u8).collect();
    let (mut ours, mut theirs) = (filled.clone(), filled);
    let told = proved(text, &mut ours);
    let expected = reference::margin(text, &mut theirs);
    let refusal = match (told, theirs.first()) {
        (n, _) if n < 0 => -n as usize,
        (_, Some(b'4')) if theirs[1] == b'6' => {
            let digit = |c: u8| if c < b'A' { c - b'0' } else { c - b'A' + 10 };
            usize::from(digit(theirs[2]) * 16 + digit(theirs[3]))
        }
        _ => 0,
    };
    counts[refusal] += 1;
    told != expected || ours != theirs
}

fn compare(seed: u64, count: u64, limit: Duration) -> bool {
    let start = Instant::now();
    let mut random = Random::new(seed);
    let mut counts = [0; 256];
    let (mut done, mut bytes, mut differences) = (0, 0, 0);
    while done < count && start.elapsed() < limit {
        let text = texts::any(&mut random);
        let memory = match random.below(60) {
            0 => random.below(5_500) as usize,
            1 => 5_499 + random.below(3) as usize,
            _ => 5_500 + random.below(100) as usize,
        };
        bytes += text.len();
        done += 1;
        if differs(&text, memory, &mut counts) {
            differences += 1;
            if differences <= 3 {
                println!("differs, memory {memory}: {}", String::from_utf8_lossy(&text));
            }
        }
    }
    println!("seed {seed}: {done} texts, {bytes} bytes, {differences} differences");
    let told: Vec<String> = (1..256).filter(|n| counts[*n] > 0).map(|n| format!("{n} ({})", counts[n])).collect();
    println!("answered with a deposit: {}; refusals met: {}", counts[0], told.join(", "));
    differences == 0 && done == count
}

fn nanoseconds(call: fn(&[u8], &mut [u8]) -> i64, text: &[u8]) -> f64 {
    let mut memory = vec![0; 5_500];
    let mut best = f64::MAX;
    for _ in 0..15 {
        let start = Instant::now();
        for _ in 0..40 {
            black_box(call(black_box(text), black_box(&mut memory)));
        }
        best = best.min(start.elapsed().as_nanos() as f64 / 40.0);
    }
    best
}

/// The texts that are timed: a whole text of 64 KiB, and the rows and positions of a full deposit.
fn timed() -> [(&'static str, Vec<u8>); 3] {
    let mut no_deposit = texts::full(256);
    no_deposit.extend_from_slice(b"X\n");
    [
        ("whole text of 64 KiB", texts::full(3_739)),
        ("256 securities held, 64 classes, 32 pairs", texts::full(256)),
        ("the same, refused at its last line", no_deposit),
    ]
}

fn speed() {
    let mut times = [(0.0, 0.0); 3];
    for (at, (name, text)) in timed().iter().enumerate() {
        let (ours, theirs) = (nanoseconds(proved, text), nanoseconds(reference::margin, text));
        times[at] = (ours, theirs);
        println!("{name}, {} bytes: proved {ours:.0} ns, plain Rust {theirs:.0} ns, ratio {:.2}", text.len(), ours / theirs);
    }
    let (ours, theirs) = (times[1].0 - times[2].0, times[1].1 - times[2].1);
    println!("the deposit alone, as the difference: proved {ours:.0} ns, plain Rust {theirs:.0} ns, ratio {:.2}", ours / theirs);
}

/// One call, for a count of instructions.
fn once(which: &str, at: usize) {
    let (_, text) = &timed()[at];
    let mut memory = vec![0; 5_500];
    let call = if which == "proved" { proved } else { reference::margin };
    println!("{}", black_box(call(black_box(text), &mut memory)));
}

fn main() {
    let args: Vec<String> = std::env::args().skip(1).collect();
    let words: Vec<&str> = args.iter().map(String::as_str).collect();
    match words[..] {
        ["compare", seed, count] => {
            let (seed, count) = (seed.parse().expect("a seed"), count.parse().expect("a count"));
            std::process::exit(i32::from(!compare(seed, count, Duration::from_secs(600))));
        }
        ["speed"] => speed(),
        ["once", which, at] => once(which, at.parse().expect("a number")),
        _ => println!("bench compare SEED COUNT | bench speed | bench once proved|plain 0|1|2"),
    }
}
