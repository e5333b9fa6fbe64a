//! The bench: runs a judged table step by step.

use std::cmp::Reverse;
use std::collections::BinaryHeap;
use std::collections::binary_heap::PeekMut;

use crate::ready::{Job, JobName, ReadyQueue};
use crate::table::Table;
use crate::verdict::{Verdict, judge};

/// At this clock no further step is made.
pub const LAST_CLOCK: u32 = 1_000_000_000;

/// A task never has more pending jobs, since D is at most 4 × P.
const MOST_PENDING: usize = 4;

/// A table with its verdict.
#[derive(Debug)]
pub struct Judged {
    table: Table,
    verdict: Verdict,
}

impl Judged {
    pub fn new(table: Table) -> Self {
        let verdict = judge(&table);
        Self { table, verdict }
    }

    pub fn table(&self) -> &Table {
        &self.table
    }

    pub fn verdict(&self) -> Verdict {
        self.verdict
    }
}

/// What the running job is asked to do with the processor.
#[derive(Debug, Clone, Copy, PartialEq, Eq)]
pub enum Letter {
    Run,
    Hold,
    Finish,
}

impl Letter {
    fn of(byte: u8) -> Option<Self> {
        match byte {
            b'r' => Some(Letter::Run),
            b'h' => Some(Letter::Hold),
            b'f' => Some(Letter::Finish),
            _ => None,
        }
    }
}

/// What became of the job that ran.
#[derive(Debug, Clone, Copy, PartialEq, Eq)]
pub enum Event {
    PutBack,
    ToHand,
    Done,
    Idle,
}

/// One tick: the clock before it, the job that ran and its units left after it.
/// An idle tick has 0 for task, job number and units.
#[derive(Debug, Clone, Copy, PartialEq, Eq)]
pub struct Tick {
    pub clock: u32,
    pub task: u32,
    pub number: u32,
    pub left: u32,
    pub event: Event,
}

/// The answer of a step that was made. With a miss the bench is stopped.
#[derive(Debug, Clone, Copy, PartialEq, Eq)]
pub struct Step {
    pub tick: Tick,
    pub miss: Option<JobName>,
}

/// Why a step is refused. Nothing is altered then.
#[derive(Debug, Clone, Copy, PartialEq, Eq)]
pub enum StepRefusal {
    Stopped = 12,
    LastClock = 13,
    NoSuchLetter = 14,
}

/// Refusal 15: the task is 0 or beyond the rows.
#[derive(Debug, Clone, Copy, PartialEq, Eq)]
pub struct NoSuchTask;

#[derive(Debug, Clone, Copy, Default, PartialEq, Eq)]
pub struct Counts {
    pub idle: u32,
    pub begun: u32,
    pub interruptions: u32,
}

#[derive(Debug, Clone, Copy, Default, PartialEq, Eq)]
pub struct TaskCounts {
    pub released: u32,
    pub done: u32,
    pub ticks: u32,
}

/// What is left of a bench when it is closed.
#[derive(Debug, PartialEq, Eq)]
pub struct Closing {
    pub clock: u32,
    pub counts: Counts,
    pub tasks: Vec<TaskCounts>,
    pub miss: Option<JobName>,
}

/// The next release of a task; ordered by time, then task.
#[derive(Debug, Clone, Copy, PartialEq, Eq, PartialOrd, Ord)]
struct Release {
    time: u32,
    task: u32,
}

/// The job that keeps the processor, with its holds in a row.
#[derive(Debug, Clone, Copy)]
struct Held {
    job: Job,
    holds: u32,
}

/// The figures of a row that a run needs, with the task's counts.
#[derive(Debug)]
struct Task {
    period: u32,
    execution: u32,
    deadline: u32,
    hold: u32,
    counts: TaskCounts,
}

#[derive(Debug)]
pub struct Bench {
    clock: u32,
    tasks: Vec<Task>,
    coming: BinaryHeap<Reverse<Release>>,
    waiting: ReadyQueue,
    hand: Option<Held>,
    /// The job that ran in the tick before and is not done.
    previous: Option<JobName>,
    counts: Counts,
    miss: Option<JobName>,
}

impl Bench {
    /// A bench at clock 0.
    pub fn open(judged: Judged) -> Self {
        let rows = judged.table.rows();
        let tasks: Vec<Task> = rows
            .iter()
            .map(|row| Task {
                period: row.period,
                execution: row.execution,
                deadline: row.deadline,
                hold: row.hold,
                counts: TaskCounts::default(),
            })
            .collect();
        let coming = rows
            .iter()
            .zip(1..)
            .map(|(row, task)| {
                Reverse(Release {
                    time: row.phase,
                    task,
                })
            })
            .collect();
        Self {
            clock: 0,
            coming,
            waiting: ReadyQueue::with_capacity(MOST_PENDING * tasks.len()),
            tasks,
            hand: None,
            previous: None,
            counts: Counts::default(),
            miss: None,
        }
    }

    /// One step with a letter.
    #[inline]
    pub fn step(&mut self, letter: u8) -> Result<Step, StepRefusal> {
        if self.miss.is_some() {
            return Err(StepRefusal::Stopped);
        }
        if self.clock == LAST_CLOCK {
            return Err(StepRefusal::LastClock);
        }
        let letter = Letter::of(letter).ok_or(StepRefusal::NoSuchLetter)?;
        self.release_jobs();
        let tick = self.tick(letter);
        self.clock += 1;
        self.miss = self.overdue();
        Ok(Step {
            tick,
            miss: self.miss,
        })
    }

    pub fn clock(&self) -> u32 {
        self.clock
    }

    pub fn counts(&self) -> Counts {
        self.counts
    }

    pub fn task_counts(&self, task: u32) -> Result<TaskCounts, NoSuchTask> {
        let place = (task as usize).checked_sub(1).ok_or(NoSuchTask)?;
        let task = self.tasks.get(place).ok_or(NoSuchTask)?;
        Ok(task.counts)
    }

    /// The most urgent job of the waiting list; the hand is not looked at.
    pub fn first_waiting(&self) -> Option<Job> {
        self.waiting.first().copied()
    }

    pub fn close(self) -> Closing {
        Closing {
            clock: self.clock,
            counts: self.counts,
            tasks: self.tasks.into_iter().map(|task| task.counts).collect(),
            miss: self.miss,
        }
    }

    /// Puts each job whose release is the clock into the waiting list.
    fn release_jobs(&mut self) {
        while let Some(mut next) = self.coming.peek_mut()
            && next.0.time == self.clock
        {
            let Reverse(release) = &mut *next;
            let task = &mut self.tasks[release.task as usize - 1];
            task.counts.released += 1;
            self.waiting.put(Job {
                key: self.clock + task.deadline,
                task: release.task,
                number: task.counts.released,
                left: task.execution,
            });
            release.time += task.period;
            // Letting go of the entry moves it to its new place in the heap.
            drop::<PeekMut<_>>(next);
        }
    }

    fn tick(&mut self, letter: Letter) -> Tick {
        let next = self
            .hand
            .take()
            .or_else(|| self.waiting.take().map(|job| Held { job, holds: 0 }));
        let Some(Held { mut job, holds }) = next else {
            return self.idle_tick();
        };
        let name = job.name();
        let task = &mut self.tasks[job.task as usize - 1];
        if job.left == task.execution {
            self.counts.begun += 1;
        }
        if self.previous.is_some_and(|previous| previous != name) {
            self.counts.interruptions += 1;
        }
        job.left -= 1;
        task.counts.ticks += 1;

        let event = if job.left == 0 || letter == Letter::Finish {
            task.counts.done += 1;
            self.previous = None;
            Event::Done
        } else {
            self.previous = Some(name);
            if letter == Letter::Hold && holds < task.hold {
                let holds = holds + 1;
                self.hand = Some(Held { job, holds });
                Event::ToHand
            } else {
                self.waiting.put(job);
                Event::PutBack
            }
        };
        Tick {
            clock: self.clock,
            task: job.task,
            number: job.number,
            left: job.left,
            event,
        }
    }

    fn idle_tick(&mut self) -> Tick {
        self.counts.idle += 1;
        self.previous = None;
        Tick {
            clock: self.clock,
            task: 0,
            number: 0,
            left: 0,
            event: Event::Idle,
        }
    }

    /// The most urgent pending job, if its key is at or below the clock.
    fn overdue(&self) -> Option<JobName> {
        let held = self.hand.as_ref().map(|held| &held.job);
        let most_urgent = match (held, self.waiting.first()) {
            (Some(held), Some(first)) => held.min(first),
            (held, first) => held.or(first)?,
        };
        (most_urgent.key <= self.clock).then(|| most_urgent.name())
    }
}

#[cfg(test)]
mod tests {
    use super::*;
    use crate::draft::{Draft, Figures};
    use crate::sheet;

    const EXAMPLE: [Figures; 2] = [(0, 4, 1, 3, 0), (2, 6, 3, 6, 1)];

    fn bench_on(rows: &[Figures]) -> Bench {
        let sheet = Draft::of_figures(rows).bytes();
        Bench::open(Judged::new(sheet::read(&sheet).unwrap()))
    }

    #[test]
    fn questions_alter_nothing_and_know_their_tasks() {
        let mut bench = bench_on(&EXAMPLE);
        assert_eq!(bench.first_waiting(), None);
        for _ in 0..3 {
            bench.step(b'r').unwrap();
        }
        let first = bench.first_waiting().unwrap();
        assert_eq!((first.key, first.task, first.left), (8, 2, 2));
        assert_eq!(bench.task_counts(0), Err(NoSuchTask));
        assert_eq!(bench.task_counts(3), Err(NoSuchTask));
        let counts = TaskCounts {
            released: 1,
            done: 0,
            ticks: 1,
        };
        assert_eq!(bench.task_counts(2), Ok(counts));
        assert_eq!(bench.clock(), 3);
    }

    #[test]
    fn a_stopped_bench_refuses_every_letter_with_12() {
        let mut bench = bench_on(&[(0, 1, 1, 1, 0), (0, 1, 1, 1, 0)]);
        assert_eq!(bench.step(b'x'), Err(StepRefusal::NoSuchLetter));
        let miss = JobName { task: 2, number: 1 };
        assert_eq!(bench.step(b'r').unwrap().miss, Some(miss));
        for letter in [b'r', b'x'] {
            assert_eq!(bench.step(letter), Err(StepRefusal::Stopped));
        }
        assert_eq!(bench.clock(), 1);
        assert_eq!(bench.close().miss, Some(miss));
    }

    #[test]
    fn the_last_clock_comes_before_the_letter() {
        let mut bench = bench_on(&EXAMPLE);
        bench.clock = LAST_CLOCK;
        assert_eq!(bench.step(b'r'), Err(StepRefusal::LastClock));
        assert_eq!(bench.step(b'x'), Err(StepRefusal::LastClock));
    }

    #[test]
    fn a_held_job_keeps_the_processor_as_often_as_its_row_allows() {
        let mut bench = bench_on(&[(1, 6, 1, 6, 0), (0, 12, 6, 12, 2)]);
        let events: Vec<_> = (0..4)
            .map(|_| bench.step(b'h').unwrap().tick)
            .map(|tick| (tick.task, tick.event))
            .collect();
        let expected = [
            (2, Event::ToHand),
            (2, Event::ToHand),
            (2, Event::PutBack),
            (1, Event::Done),
        ];
        assert_eq!(events, expected);
        assert_eq!(bench.counts().interruptions, 1);
    }
}
