//! Compares the library with an independent implementation.
//!
//!     compare [--cases N] [--seed S]     N cases of a seed (100,000 cases of seed 1)
//!     compare --seed S --only K          scenario K of a seed again
//!     compare --seconds T [--seed S]     seed after seed, for at least T seconds
//!     compare --forever [--seed S]       seed after seed
//!     compare --explore [--large]        every order of messages of small books
//!     compare --gate                     400,000 cases of seed 1, and the exploration

use compare::families::explore_all;
use compare::runner::Runner;
use compare::scenarios;
use std::process::ExitCode;
use std::time::Instant;

/// Cases of the gate.
const GATE_CASES: u64 = 400_000;

/// Cases from which on every answer of every call, every size of a journal, sets and checkpoints with and without a fault, moves
/// with and without messages on their way, and lists of all lengths must have been met.
const ENOUGH_CASES: u64 = 100_000;

/// What the command line asks for.
struct Options {
    cases: u64,
    seed: u64,
    only: Option<u64>,
    seconds: Option<f64>,
    explore: bool,
    large: bool,
    differential: bool,
}

fn main() -> ExitCode {
    let options = match parse(std::env::args().skip(1)) {
        Ok(options) => options,
        Err(what) => {
            eprintln!("compare: {what}");
            return ExitCode::from(2);
        }
    };
    let mut good = true;
    if options.differential {
        good &= match (options.only, options.seconds) {
            (Some(scenario), _) => replay(options.seed, scenario),
            (None, Some(seconds)) => run_seeds(options.seed, options.cases, seconds),
            (None, None) => run_seed(options.seed, options.cases),
        };
    }
    if options.explore {
        good &= explore(options.large, options.seed);
    }
    ExitCode::from(u8::from(!good))
}

fn parse(mut arguments: impl Iterator<Item = String>) -> Result<Options, String> {
    let mut options = Options {
        cases: ENOUGH_CASES,
        seed: 1,
        only: None,
        seconds: None,
        explore: false,
        large: false,
        differential: true,
    };
    while let Some(argument) = arguments.next() {
        let mut number = || {
            let text = arguments.next().ok_or(format!("{argument} needs a number"))?;
            text.parse::<u64>().map_err(|_| format!("{text} is no number"))
        };
        match argument.as_str() {
            "--cases" => options.cases = number()?,
            "--seed" => options.seed = number()?,
            "--only" => options.only = Some(number()?),
            "--seconds" => options.seconds = Some(number()? as f64),
            "--forever" => options.seconds = Some(f64::INFINITY),
            "--explore" => (options.explore, options.differential) = (true, false),
            "--large" => options.large = true,
            "--gate" => (options.explore, options.cases) = (true, GATE_CASES),
            _ => return Err(format!("{argument} is no option; see the head of bin/compare.rs")),
        }
    }
    Ok(options)
}

/// Runs scenarios of a seed until the cases are done or a difference is found.
fn run_scenarios(seed: u64, cases: u64) -> Runner {
    let mut runner = Runner::new(seed, cases);
    let mut number = 0;
    while runner.tally.cases < cases && runner.difference.is_none() {
        scenarios::run(&mut runner, number);
        number += 1;
    }
    runner
}

fn run_seed(seed: u64, cases: u64) -> bool {
    println!("seed {seed}");
    let runner = run_scenarios(seed, cases);
    report(&runner)
}

/// Prints the counts and the verdict.
fn report(runner: &Runner) -> bool {
    runner.tally.print();
    println!();
    let (sessions, ended, claims) = (runner.claimed_sessions, runner.ended_sessions, runner.claims);
    println!("demand 3: {sessions} sessions, {ended} of them to their end, {claims} times asserted");
    println!("journals: {}", runner.journals);
    println!("pairs: {}", runner.pairs);
    println!("moves: {}", runner.moves);
    println!("lists: {}", runner.lists);
    let missing = runner.missing();
    if runner.tally.cases >= ENOUGH_CASES && !missing.is_empty() {
        println!("what no case had: {}", missing.join(", "));
    }
    if let Some(difference) = &runner.difference {
        println!("{difference}");
        println!("{} cases, 1 difference", runner.tally.cases + 1);
        return false;
    }
    println!("{} cases, 0 differences", runner.tally.cases);
    missing.is_empty() || runner.tally.cases < ENOUGH_CASES
}

/// Runs seed after seed, with a line for each.
fn run_seeds(first: u64, cases: u64, seconds: f64) -> bool {
    let start = Instant::now();
    let mut total = Runner::new(first, u64::MAX);
    let mut seed = first;
    while start.elapsed().as_secs_f64() < seconds {
        let runner = run_scenarios(seed, cases);
        total.tally.merge(&runner.tally);
        total.claimed_sessions += runner.claimed_sessions;
        total.ended_sessions += runner.ended_sessions;
        total.claims += runner.claims;
        total.journals.merge(&runner.journals);
        total.pairs.merge(&runner.pairs);
        total.moves.merge(&runner.moves);
        total.lists.merge(&runner.lists);
        total.difference = runner.difference;
        if total.difference.is_some() {
            break;
        }
        println!(
            "{:.0} s: seed {seed}, {} cases so far",
            start.elapsed().as_secs_f64(),
            total.tally.cases
        );
        seed += 1;
    }
    report(&total)
}

fn replay(seed: u64, scenario: u64) -> bool {
    println!("seed {seed}, scenario {scenario}");
    let mut runner = Runner::new(seed, u64::MAX);
    scenarios::run(&mut runner, scenario);
    report(&runner)
}

fn explore(large: bool, seed: u64) -> bool {
    let start = Instant::now();
    let explored = explore_all(large, seed);
    if let Err(what) = &explored {
        println!("DIFFERENCE: {what}");
    }
    println!("explored in {:.1} s", start.elapsed().as_secs_f64());
    explored.is_ok()
}
