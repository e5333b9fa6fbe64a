//! Measures product and twin side by side on the same inputs, in turn, and
//! takes the best of several rounds of each. Times are processor times, so that
//! other work on the machine disturbs them little.

mod cpu;
mod programs;
mod report;
mod workloads;

use std::env;
use std::hint::black_box;
use std::io;
use std::path::{Path, PathBuf};
use std::process::ExitCode;
use std::time::Duration;

use twin::{calls, product};

use programs::Programs;
use report::{Pair, Report};
use workloads::Workload;

/// Many short rounds: the best of them is one that nothing else disturbed.
const ROUNDS: usize = 25;
const PROGRAM_ROUNDS: usize = 7;
const LONG_ROUNDS: usize = 5;
const LETTERS: usize = 250_000;
const PROGRAM_LETTERS: usize = 2_000_000;
const LONG_RUN: usize = 10_000_000;
/// The sheets of a round have so many rows in all.
const ROWS_A_ROUND: usize = 200_000;
const LINE: usize = 64;

fn main() -> ExitCode {
    match measure_all() {
        Ok(()) => ExitCode::SUCCESS,
        Err(error) => {
            eprintln!("speed: {error}");
            ExitCode::FAILURE
        }
    }
}

fn measure_all() -> io::Result<()> {
    println!(
        "best of {ROUNDS} rounds, of {PROGRAM_ROUNDS} for programs; the ratio is product's time to twin's time: above 1 the product is slower"
    );
    let mut report = Report::default();
    let ticks: Vec<Workload> = workloads::of_ticks()
        .into_iter()
        .chain(workloads::of_refusals())
        .collect();
    if product::LINKED {
        report.heading("ticks per second, log off (duty_end)");
        for workload in &ticks {
            ticks_without_log(&mut report, workload)?;
        }
    } else {
        println!("calls of the static library: left out, built without DUTY_LIB_DIR");
    }

    let programs = Programs::new(&product_program())?;
    report.heading("ticks per second, log on (the programs)");
    for workload in &ticks {
        ticks_with_log(&mut report, &programs, workload)?;
    }

    if product::LINKED {
        let sheets = workloads::of_sheets();
        report.heading("sheets judged per second (duty_verdict)");
        for workload in &sheets {
            sheets_judged(&mut report, workload)?;
        }
        report.heading("sheet bytes rewritten per second (duty_rewrite)");
        for workload in &sheets {
            bytes_rewritten(&mut report, workload)?;
        }
        report.heading("time of a tick, log off, as the run grows");
        growth(&report)?;
    }

    report.heading("peak memory of the programs");
    peak_memory(&mut report, &programs)?;
    report.close();
    Ok(())
}

fn ticks_without_log(report: &mut Report, workload: &Workload) -> io::Result<()> {
    let letters = workload.letters.make(LETTERS);
    let times = time_of_runs(ROUNDS, &workload.sheet, &letters)?;
    report.rate(workload.name, LETTERS, times);
    Ok(())
}

fn ticks_with_log(report: &mut Report, programs: &Programs, workload: &Workload) -> io::Result<()> {
    let letters = workload.letters.make(PROGRAM_LETTERS);
    programs.place(&workload.sheet, &letters)?;
    let times = best_of(
        PROGRAM_ROUNDS,
        || programs.time(&programs.product),
        || programs.time(&programs.twin),
    )?;
    report.rate(workload.name, PROGRAM_LETTERS, times);
    Ok(())
}

fn sheets_judged(report: &mut Report, workload: &Workload) -> io::Result<()> {
    let sheet = workload.sheet.as_slice();
    let count = sheets_a_round(sheet);
    let times = time_of_calls(
        ROUNDS,
        count,
        LINE,
        |out| product::verdict(black_box(sheet), out),
        |out| calls::verdict(black_box(sheet), out),
    )?;
    report.rate(workload.name, count, times);
    Ok(())
}

fn bytes_rewritten(report: &mut Report, workload: &Workload) -> io::Result<()> {
    let sheet = workload.sheet.as_slice();
    let count = sheets_a_round(sheet);
    let times = time_of_calls(
        ROUNDS,
        count,
        sheet.len(),
        |out| product::rewrite(black_box(sheet), out),
        |out| calls::rewrite(black_box(sheet), out),
    )?;
    report.rate(workload.name, count * sheet.len(), times);
    Ok(())
}

fn sheets_a_round(sheet: &[u8]) -> usize {
    ROWS_A_ROUND * twin::sheet::ROW_LENGTH / sheet.len()
}

/// Whether a tick costs more at a late clock: a run and one ten times as long.
fn growth(report: &Report) -> io::Result<()> {
    let workload = workloads::of_long_runs();
    let letters = workload.letters.make(LONG_RUN);
    let costs = |count: usize| {
        let times = time_of_runs(LONG_ROUNDS, &workload.sheet, &letters[..count])?;
        let nanoseconds = times.map(|time| time.as_secs_f64() * 1e9 / count as f64);
        let name = format!("{}, {count} letters", workload.name);
        report.side_by_side(&name, nanoseconds.map(|cost| format!("{cost:.2} ns")));
        io::Result::Ok(nanoseconds)
    };
    let short = costs(LONG_RUN / 10)?;
    let long = costs(LONG_RUN)?;
    let growth = Pair {
        product: long.product / short.product,
        twin: long.twin / short.twin,
    };
    report.side_by_side(
        "the longer to the shorter",
        growth.map(|times| format!("{times:.2}")),
    );
    Ok(())
}

fn peak_memory(report: &mut Report, programs: &Programs) -> io::Result<()> {
    let workload = workloads::of_long_runs();
    let letters = workload.letters.make(LONG_RUN);
    programs.place(&workload.sheet, &[])?;
    let kib = Pair {
        product: programs.peak_memory(&programs.product, &letters)?,
        twin: programs.peak_memory(&programs.twin, &letters)?,
    };
    report.memory(&format!("{}, {LONG_RUN} letters", workload.name), kib);
    Ok(())
}

/// Times whole runs without a log.
fn time_of_runs(rounds: usize, sheet: &[u8], letters: &[u8]) -> io::Result<Pair<Duration>> {
    time_of_calls(
        rounds,
        1,
        LINE,
        |out| product::end(sheet, letters, out),
        |out| calls::end(sheet, letters, out),
    )
}

/// Times so many calls a round, with a buffer of so many bytes for the answer,
/// and sees to it that both give the same answer.
fn time_of_calls(
    rounds: usize,
    calls: usize,
    room: usize,
    by_product: impl Fn(&mut [u8]) -> usize,
    by_twin: impl Fn(&mut [u8]) -> usize,
) -> io::Result<Pair<Duration>> {
    let mut of_product = vec![0; room];
    let mut of_twin = vec![0; room];
    let times = best_of(
        rounds,
        || Ok(time(calls, || by_product(&mut of_product))),
        || Ok(time(calls, || by_twin(&mut of_twin))),
    )?;
    assert_eq!(of_product, of_twin, "both give the same answer");
    Ok(times)
}

fn time<T>(times: usize, mut work: impl FnMut() -> T) -> Duration {
    let started = cpu::time_of_this_thread();
    for _ in 0..times {
        black_box(work());
    }
    cpu::time_of_this_thread() - started
}

/// Both in turn, the best time of each.
fn best_of(
    rounds: usize,
    mut by_product: impl FnMut() -> io::Result<Duration>,
    mut by_twin: impl FnMut() -> io::Result<Duration>,
) -> io::Result<Pair<Duration>> {
    let mut best = Pair {
        product: Duration::MAX,
        twin: Duration::MAX,
    };
    for _ in 0..rounds {
        best.product = best.product.min(by_product()?);
        best.twin = best.twin.min(by_twin()?);
    }
    Ok(best)
}

fn product_program() -> PathBuf {
    match env::var_os("DUTY_BENCH") {
        Some(path) => path.into(),
        None => Path::new(env!("CARGO_MANIFEST_DIR")).join("../crates/bench/out/bench"),
    }
}
