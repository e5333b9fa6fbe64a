//! Rows and tables.

/// The most rows of a table.
pub const MOST_ROWS: usize = 32;

/// The greatest phase.
pub const GREATEST_PHASE: u32 = crate::periods::CYCLE;

pub type Label = [u8; 8];

/// One duty. Times are whole ticks.
#[derive(Debug, Clone, PartialEq, Eq)]
pub struct Row {
    pub label: Label,
    /// F: when the first job is released.
    pub phase: u32,
    /// E: the longest run of a job.
    pub execution: u32,
    /// D: from a job's release to its deadline.
    pub deadline: u32,
    /// H: the most ticks in a row for which a job may hold the processor.
    pub hold: u32,
    /// The period's place in the period list.
    pub code: u16,
    /// P: from one release to the next.
    pub period: u32,
}

/// 1 to 32 rows in their ranges, with deadlines that never fall.
/// Task i is row i, counted from 1. A table comes only from [`crate::sheet::read`].
#[derive(Debug, PartialEq, Eq)]
pub struct Table {
    rows: Vec<Row>,
}

impl Table {
    pub(crate) fn from_checked_rows(rows: Vec<Row>) -> Self {
        Self { rows }
    }

    pub fn rows(&self) -> &[Row] {
        &self.rows
    }
}
