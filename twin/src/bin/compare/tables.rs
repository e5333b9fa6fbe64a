//! Random lawful tables, from light load to overload.

use twin::draft::{Draft, DraftRow};
use twin::periods::{CYCLE, PERIODS};
use twin::sheet;
use twin::verdict::{Verdict, judge};

use crate::random::Random;

/// More than enough for any table to become admitted.
const MOST_TRIMS: usize = 5000;

/// How the deadlines of a table lie to its periods.
#[derive(Debug, Clone, Copy)]
enum Deadlines {
    AtPeriod,
    WithinPeriod,
    Any,
    BeyondThreePeriods,
    FourPeriods,
    Mixed,
}

#[derive(Debug, Clone, Copy)]
enum Holds {
    None,
    Short,
    Any,
    Full,
}

#[derive(Debug, Clone, Copy)]
enum Phases {
    Together,
    WithinPeriod,
    /// One row after the other.
    Staggered,
    Any,
}

/// A lawful table.
pub fn lawful(random: &mut Random) -> Draft {
    let count = row_count(random);
    let mut rows = rows(random, count);
    if random.percent(40) {
        rows = trimmed(random, rows);
    }
    Draft::new(rows)
}

/// A lawful table of the most rows.
pub fn of_32_rows(random: &mut Random) -> Draft {
    Draft::new(rows(random, 32))
}

fn row_count(random: &mut Random) -> usize {
    let (least, greatest) = random.pick(&[(1, 1), (2, 4), (2, 4), (5, 12), (5, 12), (13, 32)]);
    random.between(least, greatest) as usize
}

fn rows(random: &mut Random, count: usize) -> Vec<DraftRow> {
    use {Deadlines as D, Holds as H, Phases as F};
    let periods = period_range(random, count);
    let load_percent = random.pick(&[20, 60, 90, 100, 130, 160, 200, 300, 500]);
    let deadlines = random.pick(&[
        D::AtPeriod,
        D::WithinPeriod,
        D::Any,
        D::BeyondThreePeriods,
        D::FourPeriods,
        D::Mixed,
    ]);
    let holds = random.pick(&[H::None, H::None, H::Short, H::Short, H::Any, H::Full]);
    let phases = random.pick(&[F::Together, F::Together, F::WithinPeriod, F::Staggered]);
    let phases = if random.percent(4) { F::Any } else { phases };

    let mut start = 0;
    let mut rows: Vec<DraftRow> = (0..count)
        .map(|_| {
            let place = random.between(periods.0, periods.1);
            let period = PERIODS[place as usize];
            let deadline = deadline(random, deadlines, period);
            let fair_share = u64::from(period) * load_percent / (100 * count as u64);
            let wished = random.between(0, 2 * fair_share as u32);
            let execution = wished.clamp(1, period.min(deadline));
            let phase = phase(random, phases, period, start);
            start += execution;
            DraftRow {
                label: label(random),
                phase,
                execution,
                deadline,
                hold: hold(random, holds, execution),
                code: place as u16 + 1,
                closing: [0; 2],
            }
        })
        .collect();
    rows.sort_by_key(|row| row.deadline);
    rows
}

/// The first and last place in the period list that a table may use: mostly
/// small periods, in half of the tables none that are small for so many rows.
fn period_range(random: &mut Random, count: usize) -> (u32, u32) {
    let least = if random.percent(50) { count as u32 } else { 1 };
    let greatest = match random.between(1, 100) {
        1..=10 => 12,
        11..=75 => 60,
        76..=90 => 1000,
        _ => CYCLE,
    };
    let greatest = greatest.max(4 * least);
    let first = PERIODS.partition_point(|period| *period < least);
    let after = PERIODS.partition_point(|period| *period <= greatest);
    (first as u32, after as u32 - 1)
}

fn deadline(random: &mut Random, deadlines: Deadlines, period: u32) -> u32 {
    match deadlines {
        Deadlines::AtPeriod => period,
        Deadlines::WithinPeriod => random.between(period.div_ceil(2), period),
        Deadlines::Any => random.between(1, 4 * period),
        Deadlines::BeyondThreePeriods => random.between(3 * period, 4 * period),
        Deadlines::FourPeriods => 4 * period,
        Deadlines::Mixed => {
            let chosen = random.pick(&[
                Deadlines::AtPeriod,
                Deadlines::WithinPeriod,
                Deadlines::Any,
                Deadlines::FourPeriods,
            ]);
            deadline(random, chosen, period)
        }
    }
}

fn hold(random: &mut Random, holds: Holds, execution: u32) -> u32 {
    match holds {
        Holds::None => 0,
        Holds::Short => random.between(0, execution.min(2)),
        Holds::Any => random.between(0, execution),
        Holds::Full => execution,
    }
}

fn phase(random: &mut Random, phases: Phases, period: u32, start: u32) -> u32 {
    match phases {
        Phases::Together => 0,
        Phases::WithinPeriod => random.between(0, period - 1),
        Phases::Staggered => start.min(CYCLE),
        Phases::Any if random.percent(20) => CYCLE,
        Phases::Any => random.between(0, CYCLE),
    }
}

fn label(random: &mut Random) -> [u8; 8] {
    let mut label = [b' '; 8];
    for byte in &mut label[..random.pick(&[0, 4, 8])] {
        *byte = random.between(32, 126) as u8;
    }
    label
}

/// Takes a little from a table at a time until it is admitted, so that it is
/// admitted only just; sometimes adds one unit again.
fn trimmed(random: &mut Random, mut rows: Vec<DraftRow>) -> Vec<DraftRow> {
    for _ in 0..MOST_TRIMS {
        let Verdict::FailsAt(row) = verdict(&rows) else {
            break;
        };
        let failing = row as usize - 1;
        let place = random.below(rows.len());
        let row = &mut rows[place];
        if place > failing && row.hold > 0 {
            row.hold -= row.hold.div_ceil(4);
        } else if place <= failing && row.execution > 1 {
            row.execution -= (row.execution / 8).max(1);
            row.hold = row.hold.min(row.execution);
        } else if random.percent(30) && rows.len() > 1 {
            rows.remove(failing);
        }
    }
    if random.percent(30) {
        add_one_unit(random, &mut rows);
    }
    rows
}

fn add_one_unit(random: &mut Random, rows: &mut [DraftRow]) {
    let place = random.below(rows.len());
    let row = &mut rows[place];
    let period = PERIODS[usize::from(row.code) - 1];
    if row.hold < row.execution && random.percent(50) {
        row.hold += 1;
    } else if row.execution < period.min(row.deadline) {
        row.execution += 1;
    }
}

fn verdict(rows: &[DraftRow]) -> Verdict {
    let bytes = Draft::new(rows.to_vec()).bytes();
    let table = sheet::read(&bytes).expect("the rows are lawful");
    judge(&table)
}
