//! Compares the product with the twin on random sheets and letters.
//!
//! `compare [SEED [CASES]]`: CASES is the number of cases of each call; the
//! programs get a fortieth of it. `compare last-clock` makes one run of the
//! programs to the greatest clock and beyond. The first difference is
//! reported, with status 1.

mod coverage;
mod difference;
mod in_process;
mod last_clock;
mod letters;
mod programs;
mod random;
mod sheets;
mod tables;

use std::env;
use std::num::ParseIntError;
use std::path::{Path, PathBuf};
use std::process::ExitCode;
use std::time::Instant;

use twin::product;

use coverage::Coverage;
use difference::Failure;
use programs::Programs;
use random::Random;

const DEFAULT_SEED: u64 = 1;
const DEFAULT_CASES: u64 = 500_000;
const CASES_TO_A_PROGRAM_RUN: u64 = 40;

/// What is compared. The number goes into the random cases.
#[derive(Debug, Clone, Copy)]
enum Kind {
    Rewrite = 1,
    Verdict = 2,
    End = 3,
    Programs = 4,
}

impl Kind {
    fn name(self) -> &'static str {
        match self {
            Kind::Rewrite => "sheets read and written again",
            Kind::Verdict => "verdicts",
            Kind::End => "end lines of runs",
            Kind::Programs => "whole logs of the programs",
        }
    }
}

/// What was asked for.
enum Order {
    Random { seed: u64, cases: u64 },
    LastClock,
}

fn main() -> ExitCode {
    let result = match order() {
        Ok(Order::Random { seed, cases }) => compare_all(seed, cases),
        Ok(Order::LastClock) => compare_to_last_clock(),
        Err(_) => {
            eprintln!("usage: compare [SEED [CASES]], or compare last-clock");
            return ExitCode::from(2);
        }
    };
    match result {
        Ok(()) => {
            println!("no difference");
            ExitCode::SUCCESS
        }
        Err(Failure::Difference(difference)) => {
            print!("{difference}");
            ExitCode::from(1)
        }
        Err(Failure::Trouble(error)) => {
            eprintln!("compare: {error}");
            ExitCode::from(2)
        }
    }
}

fn order() -> Result<Order, ParseIntError> {
    let mut arguments = env::args().skip(1).peekable();
    if arguments.next_if_eq("last-clock").is_some() {
        return Ok(Order::LastClock);
    }
    let mut number = |default| arguments.next().map_or(Ok(default), |text| text.parse());
    Ok(Order::Random {
        seed: number(DEFAULT_SEED)?,
        cases: number(DEFAULT_CASES)?,
    })
}

fn compare_to_last_clock() -> Result<(), Failure> {
    let programs = Programs::new(&product_program())?;
    let started = Instant::now();
    let bytes = last_clock::compare(&programs)?;
    let seconds = started.elapsed().as_secs_f64();
    println!("a run to the last clock: logs of {bytes} bytes ({seconds:.1} s)");
    Ok(())
}

fn compare_all(seed: u64, cases: u64) -> Result<(), Failure> {
    println!("seed {seed}");
    if product::LINKED {
        compare(Kind::Rewrite, seed, cases, |_, random, coverage| {
            in_process::rewrite(random, coverage)
        })?;
        compare(Kind::Verdict, seed, cases, |_, random, coverage| {
            in_process::verdict(random, coverage)
        })?;
        compare(Kind::End, seed, cases, |_, random, coverage| {
            in_process::end(random, coverage)
        })?;
    } else {
        println!("calls of the static library: left out, built without DUTY_LIB_DIR");
    }
    let programs = Programs::new(&product_program())?;
    programs.compare_troubles()?;
    println!("a sheet that cannot be read, an output that is full: status 1 of both programs");
    let cases = cases / CASES_TO_A_PROGRAM_RUN;
    compare(Kind::Programs, seed, cases, |case, random, coverage| {
        programs.compare(case, random, coverage)
    })?;
    Ok(())
}

/// Compares so many cases of one kind and says what they covered.
fn compare<C: Coverage>(
    kind: Kind,
    seed: u64,
    cases: u64,
    mut compare_one: impl FnMut(u64, &mut Random, &mut C) -> Result<(), Failure>,
) -> Result<(), Failure> {
    let name = kind.name();
    let mut coverage = C::default();
    let started = Instant::now();
    for case in 0..cases {
        let mut random = Random::of_case(seed, kind as u64, case);
        compare_one(case, &mut random, &mut coverage)
            .inspect_err(|_| println!("{name}: DIFFERENCE at seed {seed}, case {case}"))?;
    }
    let seconds = started.elapsed().as_secs_f64();
    println!("{name}: {coverage} ({seconds:.1} s)");
    let not_reached = coverage.not_reached();
    if !not_reached.is_empty() {
        println!("    not reached: {}", not_reached.join(", "));
    }
    Ok(())
}

fn product_program() -> PathBuf {
    match env::var_os("DUTY_BENCH") {
        Some(path) => path.into(),
        None => Path::new(env!("CARGO_MANIFEST_DIR")).join("../crates/bench/out/bench"),
    }
}
