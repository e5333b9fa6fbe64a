//! Jobs and the list of those that wait.

/// A job's task, counted from 1, and its number among the task's jobs, from 1.
#[derive(Debug, Clone, Copy, PartialEq, Eq)]
pub struct JobName {
    pub task: u32,
    pub number: u32,
}

/// A job that is released and not done. The order is urgency: the smaller key,
/// then the smaller task, then the smaller number. No two pending jobs agree in
/// all three, so the units left never decide.
#[derive(Debug, Clone, Copy, PartialEq, Eq, PartialOrd, Ord)]
pub struct Job {
    /// The clock at which the job is due.
    pub key: u32,
    pub task: u32,
    pub number: u32,
    /// Units left.
    pub left: u32,
}

impl Job {
    pub fn name(&self) -> JobName {
        JobName {
            task: self.task,
            number: self.number,
        }
    }
}

/// The ready queue: a sorted array with the most urgent job at its end, where
/// taking it and putting it back cost nothing.
#[derive(Debug)]
pub struct ReadyQueue {
    jobs: Vec<Job>,
}

impl ReadyQueue {
    pub fn with_capacity(jobs: usize) -> Self {
        Self {
            jobs: Vec::with_capacity(jobs),
        }
    }

    /// The most urgent job.
    pub fn first(&self) -> Option<&Job> {
        self.jobs.last()
    }

    pub fn take(&mut self) -> Option<Job> {
        self.jobs.pop()
    }

    /// Inlined, so that a job which is put back at once stays in registers.
    #[inline(always)]
    pub fn put(&mut self, job: Job) {
        match self.first() {
            Some(first) if *first < job => {
                let place = self.jobs.partition_point(|waiting| *waiting > job);
                self.jobs.insert(place, job);
            }
            _ => self.jobs.push(job),
        }
    }
}

#[cfg(test)]
mod tests {
    use super::*;

    #[test]
    fn jobs_come_out_by_key_task_and_number() {
        let job = |key, task, number| Job {
            key,
            task,
            number,
            left: 1,
        };
        let mut queue = ReadyQueue::with_capacity(4);
        for job in [job(7, 2, 1), job(9, 1, 1), job(7, 1, 2), job(7, 1, 1)] {
            queue.put(job);
        }
        let order: Vec<_> = std::iter::from_fn(|| queue.take())
            .map(|job| (job.key, job.task, job.number))
            .collect();
        assert_eq!(order, [(7, 1, 1), (7, 1, 2), (7, 2, 1), (9, 1, 1)]);
    }
}
