//! Tables and letters to measure with.

use twin::bench::{Bench, Judged};
use twin::draft::{Draft, Figures};
use twin::periods::{CYCLE, PERIODS};
use twin::sheet;
use twin::verdict::Verdict;

/// Letters of one style, over and over.
#[derive(Debug, Clone, Copy)]
pub enum Letters {
    Run,
    /// r, h and f in no simple order.
    Mixed,
    /// A byte that is no letter.
    Unknown,
}

impl Letters {
    pub fn make(self, count: usize) -> Vec<u8> {
        match self {
            Letters::Run => vec![b'r'; count],
            Letters::Unknown => vec![b'x'; count],
            Letters::Mixed => {
                let mut state: u32 = 1;
                let letter = || {
                    state = state.wrapping_mul(1_664_525).wrapping_add(1_013_904_223);
                    b"rrhf"[(state >> 30) as usize]
                };
                std::iter::repeat_with(letter).take(count).collect()
            }
        }
    }
}

#[derive(Debug)]
pub struct Workload {
    pub name: &'static str,
    pub sheet: Vec<u8>,
    pub letters: Letters,
}

/// What a workload is to show, and is checked to show.
#[derive(Debug, Clone, Copy, PartialEq, Eq)]
enum Kind {
    Admitted,
    /// The test fails it, and yet it misses nothing.
    FailingWithoutMiss,
    Missing,
}

/// Ticks on tables of 1, 8 and 32 rows. (A table of one row is always admitted.)
pub fn of_ticks() -> Vec<Workload> {
    use Kind::{Admitted, FailingWithoutMiss as Failing};
    use Letters::{Mixed, Run};
    vec![
        workload("1 row, admitted, busy", at_period(1, 60, 99), Run, Admitted),
        workload("1 row, admitted, idle", at_period(1, 720, 0), Run, Admitted),
        workload(
            "8 rows, admitted, busy",
            at_period(8, 10, 99),
            Run,
            Admitted,
        ),
        workload(
            "8 rows, admitted, idle",
            at_period(8, 1000, 0),
            Run,
            Admitted,
        ),
        workload(
            "8 rows, admitted, mixed letters",
            holding(8, 20),
            Mixed,
            Admitted,
        ),
        workload("8 rows, failing, busy", staggered(8, 16), Run, Failing),
        workload("8 rows, failing, idle", staggered(8, 720), Run, Failing),
        workload(
            "32 rows, admitted, busy",
            at_period(32, 40, 99),
            Run,
            Admitted,
        ),
        workload(
            "32 rows, admitted, idle",
            at_period(32, 3000, 0),
            Run,
            Admitted,
        ),
        workload(
            "32 rows, admitted, mixed letters",
            holding(32, 60),
            Mixed,
            Admitted,
        ),
        workload("32 rows, failing, busy", staggered(32, 65), Run, Failing),
        workload("32 rows, failing, idle", staggered(32, 5040), Run, Failing),
    ]
}

/// Steps that are refused.
pub fn of_refusals() -> Vec<Workload> {
    use Letters::{Run, Unknown};
    let twice = vec![(0, 1, 1, 1, 0); 2];
    vec![
        workload("refused steps, bench stopped", twice, Run, Kind::Missing),
        workload(
            "refused steps, no such letter",
            at_period(8, 10, 99),
            Unknown,
            Kind::Admitted,
        ),
    ]
}

/// One admitted busy table of each size.
pub fn of_sheets() -> Vec<Workload> {
    use {Kind::Admitted, Letters::Run};
    vec![
        workload("1 row", at_period(1, 60, 99), Run, Admitted),
        workload("8 rows", at_period(8, 10, 99), Run, Admitted),
        workload("32 rows", at_period(32, 40, 99), Run, Admitted),
    ]
}

/// The workload on which long runs are looked at.
pub fn of_long_runs() -> Workload {
    workload(
        "8 rows, admitted, busy",
        at_period(8, 10, 99),
        Letters::Run,
        Kind::Admitted,
    )
}

/// D = P with rising periods from some least one on; E is 1, and is raised
/// while the load stays at or below the percentage.
fn at_period(rows: usize, least: u32, load_percent: u32) -> Vec<Figures> {
    let first = PERIODS.partition_point(|period| *period < least);
    let periods = &PERIODS[first..first + rows];
    let limit = u64::from(CYCLE) * u64::from(load_percent) / 100;
    let mut units = vec![1; rows];
    let mut load: u64 = periods.iter().map(|period| u64::from(CYCLE / period)).sum();
    let mut raised = true;
    while raised {
        raised = false;
        for (units, period) in units.iter_mut().zip(periods) {
            let more = u64::from(CYCLE / period);
            if load + more <= limit && *units < *period {
                *units += 1;
                load += more;
                raised = true;
            }
        }
    }
    let figures = |(period, units): (&u32, u32)| (0, *period, units, *period, 0);
    periods.iter().zip(units).map(figures).collect()
}

/// A table at three quarters of the processor whose jobs may hold it for two ticks.
fn holding(rows: usize, least: u32) -> Vec<Figures> {
    let hold = |(phase, period, units, deadline, _): Figures| {
        (phase, period, units, deadline, units.min(2))
    };
    at_period(rows, least, 75).into_iter().map(hold).collect()
}

/// Jobs of two units that come one after the other, each due when it is done.
fn staggered(rows: u32, period: u32) -> Vec<Figures> {
    (0..rows).map(|row| (2 * row, period, 2, 2, 0)).collect()
}

fn workload(name: &'static str, rows: Vec<Figures>, letters: Letters, kind: Kind) -> Workload {
    let sheet = Draft::of_figures(&rows).bytes();
    assert_eq!(kind_of(&sheet), kind, "{name}");
    Workload {
        name,
        sheet,
        letters,
    }
}

fn kind_of(sheet: &[u8]) -> Kind {
    const LONG_ENOUGH: usize = 20_000;
    let judged = Judged::new(sheet::read(sheet).expect("the rows are lawful"));
    let verdict = judged.verdict();
    let mut bench = Bench::open(judged);
    let missed = (0..LONG_ENOUGH).any(|_| bench.step(b'r').is_err());
    match (verdict, missed) {
        (Verdict::Admitted, false) => Kind::Admitted,
        (Verdict::FailsAt(_), false) => Kind::FailingWithoutMiss,
        (_, true) => Kind::Missing,
    }
}
