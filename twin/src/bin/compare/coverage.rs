//! What the cases of a comparison cover, as far as the twin can tell.

use std::fmt;

use twin::bench::{Bench, Event, Judged, Step, StepRefusal};
use twin::log::Log;
use twin::sheet;
use twin::table::{MOST_ROWS, Row};
use twin::verdict::Verdict;

/// Refusals of a sheet, by number.
const SHEET_REFUSALS: usize = 10;

/// Counts of what the cases of one comparison had.
pub trait Coverage: Default + fmt::Display {
    /// What no case had, though a comparison of full size has it.
    fn not_reached(&self) -> Vec<String>;
}

#[derive(Debug, Default)]
pub struct Sheets {
    cases: u64,
    accepted: u64,
    refused: [u64; SHEET_REFUSALS],
    /// Accepted sheets by the number of their rows.
    row_counts: [u64; MOST_ROWS],
    admitted: u64,
    beyond_period: u64,
}

/// Runs that had at least one of a thing.
#[derive(Debug, Default)]
pub struct Runs {
    sheets: Sheets,
    steps: u64,
    missed: u64,
    failing_without_miss: u64,
    idle: u64,
    held: u64,
    ended_early: u64,
    interrupted: u64,
    four_pending: u64,
    refused_stopped: u64,
    refused_letter: u64,
}

impl Sheets {
    /// Notes a sheet, and gives its judged table where it is accepted.
    pub fn note(&mut self, bytes: &[u8]) -> Option<Judged> {
        self.cases += 1;
        let table = match sheet::read(bytes) {
            Ok(table) => table,
            Err(refusal) => {
                self.refused[refusal.number() as usize - 1] += 1;
                return None;
            }
        };
        self.accepted += 1;
        self.row_counts[table.rows().len() - 1] += 1;
        let beyond_period = |row: &Row| row.deadline > row.period;
        self.beyond_period += u64::from(table.rows().iter().any(beyond_period));
        let judged = Judged::new(table);
        self.admitted += u64::from(judged.verdict() == Verdict::Admitted);
        Some(judged)
    }
}

impl Coverage for Sheets {
    fn not_reached(&self) -> Vec<String> {
        let refusals = (1..).zip(self.refused).filter(|(_, count)| *count == 0);
        let sizes = (1..).zip(self.row_counts).filter(|(_, count)| *count == 0);
        let mut missing: Vec<String> = refusals
            .map(|(number, _)| format!("refusal {number}"))
            .collect();
        missing.extend(sizes.map(|(rows, _)| format!("a table of {rows} rows")));
        for (count, what) in [
            (self.admitted, "an admitted table"),
            (self.accepted - self.admitted, "a failing table"),
            (self.beyond_period, "D above P"),
        ] {
            if count == 0 {
                missing.push(what.to_string());
            }
        }
        missing
    }
}

impl Runs {
    /// Runs the letters on the sheet, notes what happens, and gives the log.
    /// Says which law of a run was broken, if any was.
    pub fn note(&mut self, bytes: &[u8], letters: &[u8]) -> Result<Log, BrokenLaw> {
        let mut log = Log::default();
        let Some(judged) = self.sheets.note(bytes) else {
            if let Err(refusal) = sheet::read(bytes) {
                log.no_sheet(refusal);
            }
            return Ok(log);
        };
        log.heading();
        log.verdict(judged.verdict());
        let verdict = judged.verdict();
        let rows = judged.table().rows().to_vec();
        let far: Vec<u32> = (1..)
            .zip(&rows)
            .filter(|(_, row)| row.deadline > 3 * row.period)
            .map(|(task, _)| task)
            .collect();
        let mut seen = Seen::default();
        let mut bench = Bench::open(judged);
        for &letter in letters {
            let answer = bench.step(letter);
            log.step(answer);
            seen.note(answer);
            if !seen.four_pending {
                seen.four_pending = far.iter().any(|task| pending(&bench, *task) == 4);
            }
        }
        self.steps += letters.len() as u64;
        self.add(&seen);
        let closing = bench.close();
        self.missed += u64::from(closing.miss.is_some());
        let failing = verdict != Verdict::Admitted;
        self.failing_without_miss += u64::from(failing && closing.miss.is_none());
        self.interrupted += u64::from(closing.counts.interruptions > 0);
        log.end(&closing);
        laws::check(&rows, verdict, &closing)?;
        Ok(log)
    }

    fn add(&mut self, seen: &Seen) {
        self.idle += u64::from(seen.idle);
        self.held += u64::from(seen.held);
        self.ended_early += u64::from(seen.ended_early);
        self.four_pending += u64::from(seen.four_pending);
        self.refused_stopped += u64::from(seen.refused_stopped);
        self.refused_letter += u64::from(seen.refused_letter);
    }
}

impl Coverage for Runs {
    fn not_reached(&self) -> Vec<String> {
        let mut missing = self.sheets.not_reached();
        for (count, what) in [
            (self.missed, "a miss"),
            (self.failing_without_miss, "a failing table without a miss"),
            (self.idle, "an idle tick"),
            (self.held, "a hold"),
            (self.ended_early, "an early end"),
            (self.interrupted, "an interruption"),
            (self.four_pending, "four pending jobs of a task"),
            (self.refused_stopped, "refusal 12"),
            (self.refused_letter, "refusal 14"),
        ] {
            if count == 0 {
                missing.push(what.to_string());
            }
        }
        missing
    }
}

/// What one run had.
#[derive(Debug, Default)]
struct Seen {
    idle: bool,
    held: bool,
    ended_early: bool,
    four_pending: bool,
    refused_stopped: bool,
    refused_letter: bool,
}

impl Seen {
    fn note(&mut self, answer: Result<Step, StepRefusal>) {
        match answer {
            Ok(step) => match step.tick.event {
                Event::Idle => self.idle = true,
                Event::ToHand => self.held = true,
                Event::Done if step.tick.left > 0 => self.ended_early = true,
                Event::Done | Event::PutBack => {}
            },
            Err(StepRefusal::Stopped) => self.refused_stopped = true,
            Err(StepRefusal::NoSuchLetter) => self.refused_letter = true,
            Err(StepRefusal::LastClock) => {}
        }
    }
}

fn pending(bench: &Bench, task: u32) -> u32 {
    bench
        .task_counts(task)
        .map_or(0, |counts| counts.released - counts.done)
}

impl fmt::Display for Sheets {
    fn fmt(&self, f: &mut fmt::Formatter) -> fmt::Result {
        let sizes = self.row_counts.iter().filter(|count| **count > 0).count();
        write!(
            f,
            "{} cases: {} accepted (of {sizes} sizes from 1 to 32 rows; {} admitted, {} failing; {} with D above P); refused by",
            self.cases,
            self.accepted,
            self.admitted,
            self.accepted - self.admitted,
            self.beyond_period,
        )?;
        for (number, count) in (1..).zip(self.refused) {
            let comma = if number == 1 { "" } else { "," };
            write!(f, "{comma} {number}: {count}")?;
        }
        Ok(())
    }
}

impl fmt::Display for Runs {
    fn fmt(&self, f: &mut fmt::Formatter) -> fmt::Result {
        write!(
            f,
            "{}; {} letters; runs stopped by a miss: {}, failing without a miss: {}, with idle ticks: {}, holds: {}, early ends: {}, interruptions: {}, four pending jobs of a task: {}, refusal 12: {}, refusal 14: {}",
            self.sheets,
            self.steps,
            self.missed,
            self.failing_without_miss,
            self.idle,
            self.held,
            self.ended_early,
            self.interrupted,
            self.four_pending,
            self.refused_stopped,
            self.refused_letter,
        )
    }
}

pub use laws::BrokenLaw;

/// Laws that the documentation states of every run, held against the twin's
/// own runs.
mod laws {
    use twin::bench::Closing;
    use twin::table::Row;
    use twin::verdict::Verdict;

    #[derive(Debug)]
    pub struct BrokenLaw(pub &'static str);

    pub fn check(rows: &[Row], verdict: Verdict, closing: &Closing) -> Result<(), BrokenLaw> {
        let clock = closing.clock;
        let counts = closing.counts;
        let tasks = || rows.iter().zip(&closing.tasks);
        let given: u32 = closing.tasks.iter().map(|task| task.ticks).sum();
        let holds = |held: bool, law| if held { Ok(()) } else { Err(BrokenLaw(law)) };

        holds(clock == counts.idle + given, "idle and given ticks")?;
        let few = counts.interruptions == 0 || counts.interruptions < counts.begun;
        holds(few, "few interruptions")?;
        let releases = tasks().all(|(row, task)| task.released == releases_before(row, clock));
        holds(releases, "periodic releases")?;
        if verdict == Verdict::Admitted {
            holds(closing.miss.is_none(), "punctual")?;
            let met = tasks().all(|(row, task)| task.done >= deadlines_up_to(row, clock));
            holds(met, "deadlines met")?;
        }
        Ok(())
    }

    fn releases_before(row: &Row, clock: u32) -> u32 {
        match clock.checked_sub(row.phase + 1) {
            Some(since_first) => 1 + since_first / row.period,
            None => 0,
        }
    }

    fn deadlines_up_to(row: &Row, clock: u32) -> u32 {
        match clock.checked_sub(row.phase + row.deadline) {
            Some(since_first) => 1 + since_first / row.period,
            None => 0,
        }
    }
}
