//! Works on the same inputs in several ways, interleaved, and prints for each class of inputs and
//! each way the nanoseconds per plan and, where valgrind is there, the instructions per plan, with
//! their ratios to those of the first way.
//!
//! The first set of lines plans, from lines in memory to words. The others begin with the text of
//! plans that the planning program accepts: the parts of the baseline, then the way from text to
//! words and the whole way from text to listing, by the baseline and, if it is built, by our
//! archive. The last two check printed listings by our archive alone: reading one, and the whole
//! check against its parts.
//!
//! For each input the least time over all rounds counts; a class's number is the mean over its
//! inputs. Instructions are counted by valgrind on this program itself, called with the words
//! `repeat SET CLASS WAY TIMES`: twice as many rounds less as many rounds.

mod classes;
mod sets;

use std::process::Command;
use std::time::{Duration, Instant};

use classes::{Class, CLASSES};
use sets::{compare, inputs, Input, Set, Way, SETS, UNCOUNTED};

/// How long the rounds of a class go on; the last one is finished.
const TIME_PER_CLASS: Duration = Duration::from_millis(1_200);

/// A way is gone again until this much time is measured.
const LEAST_TIME: Duration = Duration::from_micros(20);

fn main() {
    let words: Vec<String> = std::env::args().skip(1).collect();
    match words.as_slice() {
        [] => print_all(),
        [word, set, class, way, times] if word == "repeat" => repeat(set, class, way, times),
        _ => {
            eprintln!("usage: bench [repeat SET CLASS WAY TIMES]");
            std::process::exit(2);
        }
    }
}

/// Measures and prints everything.
fn print_all() {
    let counted = Command::new("valgrind").arg("--version").output().is_ok();
    println!("nanoseconds per plan; instructions per plan (each with its ratio to the first)");
    if !cfg!(have_archive) {
        println!("our archive is not built, so it is not measured");
    }
    for set in &SETS {
        println!("{}: {}", set.name, set.about);
        for class in &CLASSES {
            print_class(set, class, counted);
        }
    }
}

/// Measures and prints a class of inputs.
fn print_class(set: &Set, class: &Class, counted: bool) {
    let mut ways = (set.ways)();
    if ways.is_empty() {
        return;
    }
    let inputs = inputs(set, class);
    compare(set, &inputs);
    let times = measure(&mut ways, &inputs);
    let name = class.name();
    let counts: Vec<Option<u64>> = ways
        .iter()
        .map(|(way, _)| {
            let counted = counted && *way != UNCOUNTED;
            counted.then(|| instructions(set, &name, way) / inputs.len() as u64)
        })
        .collect();
    print!("{name:<16}");
    if set.listings {
        let bytes: usize = inputs.iter().map(|input| input.listing.len()).sum();
        print!("  listing of {} bytes", bytes / inputs.len());
    }
    for (number, (way, _)) in ways.iter().enumerate() {
        print!("  {way} {}", with_ratio(set, times[number], times[0]));
        if let (Some(count), Some(first)) = (counts[number], counts[0]) {
            print!("; {}", with_ratio(set, count, first));
        }
    }
    println!();
}

/// A number and, where ways are compared, its ratio to that of the first way.
fn with_ratio(set: &Set, number: u64, first: u64) -> String {
    if set.compared {
        let ratio = number as f64 / first.max(1) as f64;
        format!("{number} ({ratio:.2})")
    } else {
        number.to_string()
    }
}

/// Goes a way with the inputs of a class so many times over, for valgrind to count.
fn repeat(set: &str, class: &str, way: &str, times: &str) {
    let set = SETS.iter().find(|s| s.name == set).expect("a set");
    let class = CLASSES
        .iter()
        .find(|c| c.name() == class)
        .expect("a class of inputs");
    let mut ways = (set.ways)();
    let (_, go) = ways
        .iter_mut()
        .find(|(name, _)| *name == way)
        .expect("a way");
    let inputs = inputs(set, class);
    for _ in 0..times.parse().expect("a number of times") {
        for input in &inputs {
            go(std::hint::black_box(input));
        }
    }
}

/// The instructions of one round over the inputs of a class.
fn instructions(set: &Set, class: &str, way: &str) -> u64 {
    let counted = |times: &str| {
        let program = std::env::current_exe().expect("this program");
        let out = Command::new("valgrind")
            .args(["--tool=callgrind", "--callgrind-out-file=/dev/null"])
            .arg(program)
            .args(["repeat", set.name, class, way, times])
            .output()
            .expect("valgrind");
        let said = String::from_utf8_lossy(&out.stderr).into_owned();
        let line = said.lines().find(|line| line.contains("Collected"));
        let number = line.and_then(|line| line.split_whitespace().last());
        number.and_then(|n| n.parse().ok()).expect("a count")
    };
    let twice: u64 = counted("2");
    twice - counted("1")
}

/// The mean over the inputs of each way's least time, in nanoseconds.
fn measure(ways: &mut [Way], inputs: &[Input]) -> Vec<u64> {
    let mut least = vec![vec![u64::MAX; inputs.len()]; ways.len()];
    let begin = Instant::now();
    while begin.elapsed() < TIME_PER_CLASS {
        for (number, input) in inputs.iter().enumerate() {
            for (way, (_, go)) in ways.iter_mut().enumerate() {
                let time = time_once(go, input);
                least[way][number] = least[way][number].min(time);
            }
        }
    }
    let mean = |times: Vec<u64>| times.iter().sum::<u64>() / times.len() as u64;
    least.into_iter().map(mean).collect()
}

/// The nanoseconds of one input: the mean of as many calls as it takes to measure.
fn time_once(go: &mut Box<dyn FnMut(&Input)>, input: &Input) -> u64 {
    let begin = Instant::now();
    let mut calls = 0;
    loop {
        go(std::hint::black_box(input));
        calls += 1;
        let time = begin.elapsed();
        if time >= LEAST_TIME {
            return time.as_nanos() as u64 / calls;
        }
    }
}
