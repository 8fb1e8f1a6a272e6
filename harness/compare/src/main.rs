//! Compares the library with the second program on random and damaged offices, byte blocks, district files and texts.
//!
//!     compare [--seed S]                  the fixed rounds
//!     compare --seed S --seconds N        rounds for N seconds
//!     compare --mutants [--seed S]        wrong programs in the library's place: each must be noticed
//!     compare --itself ..                 the second program in the library's place
//!
//! The last line is 'N passed, M failed'.

mod areas;
mod comparison;
mod counts;
mod districts;
mod rounds;

use comparison::Comparison;
use counts::Counts;
use library::{port_or_exit, Library};
use offices::Random;
use second::{Second, Wrong};
use std::panic::resume_unwind;
use std::process::exit;
use std::sync::Mutex;
use std::thread;
use std::time::{Duration, Instant};

const ROUNDS: u64 = 120;
const LARGE: u64 = 60;

struct Asked {
    seed: u64,
    seconds: Option<u64>,
    mutants: bool,
    itself: bool,
}

fn asked() -> Asked {
    let mut asked = Asked { seed: 1, seconds: None, mutants: false, itself: false };
    let mut words = std::env::args().skip(1);
    let usage = || -> ! {
        eprintln!("compare [--seed S] [--seconds N] [--mutants] [--itself]");
        exit(2)
    };
    while let Some(word) = words.next() {
        let mut number = || words.next().and_then(|w| w.parse().ok()).unwrap_or_else(|| usage());
        match word.as_str() {
            "--seed" => asked.seed = number(),
            "--seconds" => asked.seconds = Some(number()),
            "--mutants" => asked.mutants = true,
            "--itself" => asked.itself = true,
            _ => usage(),
        }
    }
    asked
}

/// Rounds until there are enough, or time is up, or a comparison has seen enough differences. Each round has random numbers of
/// its own, so how many threads take rounds changes nothing; the largest offices come once in so many rounds.
fn run(library: &dyn Library, seed: u64, seconds: Option<u64>, quiet: bool, threads: usize) -> (u64, Counts) {
    let start = Instant::now();
    let enough = |round: u64| seconds.map_or(round >= ROUNDS, |s| round > 0 && start.elapsed() >= Duration::from_secs(s));
    let next = Mutex::new((0, Random::seeded(seed), false));
    let take = || {
        let mut next = next.lock().unwrap();
        let round = next.0;
        if next.2 || enough(round) {
            return None;
        }
        next.0 += 1;
        Some((round, next.1.branch()))
    };
    let rounds = || {
        let mut comparison = Comparison { library, second: Second::right(), counts: Counts::default(), random: Random::seeded(seed), quiet };
        while let Some((round, random)) = take() {
            comparison.random = random;
            if round % LARGE == LARGE / 2 {
                comparison.large();
            }
            comparison.round(round);
            if comparison.over() {
                next.lock().unwrap().2 = true;
            }
        }
        comparison.counts
    };
    let counts = thread::scope(|scope| {
        let running: Vec<_> = (1..threads).map(|_| scope.spawn(rounds)).collect();
        let mut counts = rounds();
        for thread in running {
            counts.add(thread.join().unwrap_or_else(|panic| resume_unwind(panic)));
        }
        counts
    });
    let rounds = next.lock().unwrap().0;
    (rounds, counts)
}

/// Whether a wrong program is noticed, and what is said of it.
fn tried(way: Wrong, seed: u64) -> (bool, String) {
    let (rounds, counts) = run(&Second::wrong(way), seed, None, true, 1);
    if counts.failed > 0 {
        (true, format!("noticed  {way:?}: after {} comparisons that agree, in round {rounds}", counts.passed))
    } else {
        (false, format!("MISSED   {way:?}: {} comparisons agree", counts.passed))
    }
}

fn mutants(seed: u64) -> (u64, u64) {
    let said = Mutex::new(Vec::new());
    let next = Mutex::new(Wrong::ALL.into_iter().enumerate());
    thread::scope(|scope| {
        for _ in 0..threads() {
            scope.spawn(|| loop {
                let Some((place, way)) = next.lock().unwrap().next() else { break };
                let (noticed, line) = tried(way, seed);
                said.lock().unwrap().push((place, noticed, line));
            });
        }
    });
    let mut said = said.into_inner().unwrap();
    said.sort();
    for (_, _, line) in &said {
        println!("{line}");
    }
    let noticed = said.iter().filter(|(_, noticed, _)| *noticed).count() as u64;
    (noticed, said.len() as u64 - noticed)
}

fn threads() -> usize {
    thread::available_parallelism().map_or(1, |processors| processors.get())
}

fn main() {
    let asked = asked();
    let (passed, failed) = if asked.mutants {
        mutants(asked.seed)
    } else {
        let library = if asked.itself { Box::new(Second::right()) } else { port_or_exit() };
        let start = Instant::now();
        let (rounds, counts) = run(&*library, asked.seed, asked.seconds, false, threads());
        counts.print();
        let missing = counts.missing();
        for line in &missing {
            println!("not enough: {line}");
        }
        println!(
            "seed {}: {rounds} rounds, {} offices of up to {} points, {:.1} s",
            asked.seed,
            counts.offices,
            counts.largest,
            start.elapsed().as_secs_f64()
        );
        (counts.passed, counts.failed + missing.len() as u64)
    };
    println!("{passed} passed, {failed} failed");
    exit((failed > 0) as i32)
}
