//! A sheet before it is bytes, with any values in its fields, lawful or not.

use crate::periods::{CYCLE, PERIODS};
use crate::sheet::{HEADER_LENGTH, length_of};

/// (F, P, E, D, H) of a row.
pub type Figures = (u32, u32, u32, u32, u32);

#[derive(Debug, Clone)]
pub struct DraftHeader {
    pub row_count: u16,
    pub row_offset: u16,
    pub handler_count: u16,
    pub handler_offset: u16,
    pub cycle: u32,
    pub length: u32,
}

#[derive(Debug, Clone)]
pub struct DraftRow {
    pub label: [u8; 8],
    pub phase: u32,
    pub execution: u32,
    pub deadline: u32,
    pub hold: u32,
    pub code: u16,
    pub closing: [u8; 2],
}

#[derive(Debug, Clone)]
pub struct Draft {
    pub header: DraftHeader,
    pub rows: Vec<DraftRow>,
}

impl DraftHeader {
    /// The lawful header of a sheet of so many rows.
    pub fn of(rows: usize) -> Self {
        Self {
            row_count: rows as u16,
            row_offset: HEADER_LENGTH as u16,
            handler_count: 0,
            handler_offset: 0,
            cycle: CYCLE,
            length: length_of(rows) as u32,
        }
    }
}

impl Draft {
    pub fn new(rows: Vec<DraftRow>) -> Self {
        let header = DraftHeader::of(rows.len());
        Self { header, rows }
    }

    /// Rows with blank labels.
    ///
    /// # Panics
    /// Where a period is not in the period list.
    pub fn of_figures(rows: &[Figures]) -> Self {
        let draft_row = |&(phase, period, execution, deadline, hold): &Figures| DraftRow {
            label: [b' '; 8],
            phase,
            execution,
            deadline,
            hold,
            code: code_of(period),
            closing: [0; 2],
        };
        Self::new(rows.iter().map(draft_row).collect())
    }

    pub fn bytes(&self) -> Vec<u8> {
        let header = &self.header;
        let mut bytes = Vec::with_capacity(length_of(self.rows.len()));
        bytes.extend(header.row_count.to_be_bytes());
        bytes.extend(header.row_offset.to_be_bytes());
        bytes.extend(header.handler_count.to_be_bytes());
        bytes.extend(header.handler_offset.to_be_bytes());
        bytes.extend(header.cycle.to_be_bytes());
        bytes.extend(header.length.to_be_bytes());
        for row in &self.rows {
            bytes.extend(row.label);
            bytes.extend(row.phase.to_be_bytes());
            bytes.extend(row.execution.to_be_bytes());
            bytes.extend(row.deadline.to_be_bytes());
            bytes.extend(row.hold.to_be_bytes());
            bytes.extend(row.code.to_be_bytes());
            bytes.extend(row.closing);
        }
        bytes
    }
}

fn code_of(period: u32) -> u16 {
    let place = PERIODS
        .binary_search(&period)
        .expect("a period is a divisor of the cycle");
    place as u16 + 1
}
