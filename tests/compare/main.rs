//! Compares the proved library with a second implementation, written from the standards and from documents
//! 01 and 02 alone, on many inputs. One line a group; the last line is 'N passed, M failed', N and M counting groups.
//!
//! compare SEED COUNT         so many cases at random, each of any public operation; a group is an operation
//! compare SEED COUNT groups  these, and before them the groups on chosen kinds of input
//! compare fuzz SECONDS       cases at random with fresh seeds for so long

mod accounts;
mod brute;
mod cases;
mod chacha20_poly1305;
mod deriving;
mod envelope;
mod files;
mod fingerprints;
mod group;
mod growing;
mod growth;
mod issuing;
mod library;
mod ours;
mod plans;
mod policy;
mod random;
mod reading;
mod records;
mod rostering;
mod rosters;
mod sealing;
mod sha256;
mod ties;
mod tree;

use cases::Cases;
use random::Random;
use std::time::{Duration, Instant, UNIX_EPOCH};

/// The groups on chosen kinds of input.
fn groups(random: &mut Random, second: &sha256::Sha256) -> Vec<bool> {
    let counts = &mut plans::Counts::default();
    let issued = &mut issuing::Counts::default();
    let results = [
        reading::groups(random, second),
        plans::groups(random, counts),
        growing::groups(random),
        issuing::groups(random, second, issued),
        deriving::groups(random, second, issued),
        fingerprints::groups(random, second),
        sealing::groups(random, second),
        rostering::groups(random, second),
        ties::groups(random, second),
    ];
    let plans::Counts { plans, trees, texts } = counts;
    println!("compare: in all {plans} policies planned, {trees} trees weighed, {texts} texts written");
    let issuing::Counts { keys, envelopes, derived } = issued;
    println!("compare: in all {keys} keys asked for, {envelopes} envelopes issued, {derived} names derived");
    results.concat()
}

/// Prints the last line, and says whether all passed.
fn summed(results: &[bool]) -> bool {
    let passed = results.iter().filter(|passed| **passed).count();
    println!("{} passed, {} failed", passed, results.len() - passed);
    passed == results.len()
}

/// Each seed is the time at which it is taken, and names as many cases as are enough.
fn fuzz(seconds: u64, second: &sha256::Sha256) -> bool {
    let (mut cases, mut seeds, mut passed) = (Cases::new(second), 0, true);
    let end = Instant::now() + Duration::from_secs(seconds);
    while Instant::now() < end && !cases.differ() {
        let seed = UNIX_EPOCH.elapsed().expect("a time after 1970").as_nanos() as u64;
        println!("fuzz: seed {seed}");
        cases.run(seed, cases::ENOUGH, Some(end));
        seeds += 1;
    }
    let count = cases.count;
    cases.report().into_iter().for_each(|operation| passed &= operation);
    let found = if passed { "no difference" } else { "FAILED" };
    println!("fuzz: {seconds} seconds, {seeds} seeds, {count} cases: {found}");
    passed
}

fn main() {
    let arguments: Vec<String> = std::env::args().skip(1).collect();
    let arguments: Vec<&str> = arguments.iter().map(String::as_str).collect();
    let number = |text: &str| text.parse().expect("a number was expected");
    let second = &sha256::Sha256::new();
    let passed = match arguments[..] {
        ["fuzz", seconds] => fuzz(number(seconds), second),
        [seed, count] | [seed, count, "groups"] => {
            println!("compare: seed {seed}");
            let mut results = match arguments.len() {
                3 => groups(&mut Random::new(number(seed)), second),
                _ => Vec::new(),
            };
            let mut cases = Cases::new(second);
            cases.run(number(seed), number(count) as usize, None);
            results.extend(cases.report());
            summed(&results)
        }
        _ => panic!("compare SEED COUNT [groups], or compare fuzz SECONDS"),
    };
    std::process::exit(if passed { 0 } else { 1 });
}
