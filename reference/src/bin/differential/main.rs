//! Holds the C archive against the reference on random cases of every service.
//!
//! `differential N SEED [FIRST]` runs the cases FIRST to FIRST + N - 1 of that seed. Each case has
//! its own generator, so a case that was reported runs again alone as `differential 1 SEED CASE`.

mod case;
mod outcome;

use std::process::exit;

use case::Case;
use vlodenka_reference::random::Random;

const SERVICES: usize = 4;
const REFUSALS: usize = 9;

fn main() {
    let numbers: Vec<u64> =
        std::env::args().skip(1).filter_map(|argument| argument.parse().ok()).collect();
    let (cases, seed, first) = match numbers[..] {
        [cases, seed] => (cases, seed, 0),
        [cases, seed, first] => (cases, seed, first),
        _ => {
            eprintln!("differential N SEED [FIRST]");
            exit(2);
        }
    };
    // An archive that crashes leaves no report; with this set the last number printed is the case.
    let trace = std::env::var_os("DIFFERENTIAL_TRACE").is_some();
    let mut counts = [[0u64; REFUSALS]; SERVICES];
    for (name, case) in case::at_the_limit() {
        compare(&case, name, &mut counts);
    }
    for number in first..first + cases {
        if trace {
            eprintln!("{number}");
        }
        let case = Case::random(&mut Random::for_case(seed, number));
        compare(&case, &format!("case {number} of seed {seed}"), &mut counts);
    }
    report(&counts);
}

/// Counts the case by its refusal, or reports the difference and ends the program.
fn compare(case: &Case, name: &str, counts: &mut [[u64; REFUSALS]; SERVICES]) {
    let wanted = outcome::of_reference(case);
    let found = outcome::of_archive(case);
    if wanted == found {
        counts[case.service()][wanted.refusal as usize] += 1;
        return;
    }
    println!("DIFFERENCE at {name}");
    println!("{}", case.in_hex());
    println!("{}", outcome::difference(&wanted, &found));
    exit(1);
}

fn report(counts: &[[u64; REFUSALS]; SERVICES]) {
    for (name, by_refusal) in case::SERVICE_NAMES.iter().zip(counts) {
        let all: u64 = by_refusal.iter().sum();
        print!("{name:<7}{all:>9} equal; by refusal");
        for (refusal, count) in by_refusal.iter().enumerate().filter(|(_, &count)| count > 0) {
            print!("  {refusal}: {count}");
        }
        println!();
    }
    let all: u64 = counts.iter().flatten().sum();
    println!("all    {all:>9} equal, no difference");
}
