//! Devi's test with blocking, in whole numbers.

use crate::periods::CYCLE;
use crate::table::{MOST_ROWS, Row, Table};

/// What the test says of a table.
#[derive(Debug, Clone, Copy, PartialEq, Eq)]
pub enum Verdict {
    Admitted,
    /// The first row, counted from 1, that does not pass.
    FailsAt(u32),
}

impl Verdict {
    pub fn number(self) -> u32 {
        match self {
            Verdict::Admitted => 0,
            Verdict::FailsAt(row) => row,
        }
    }
}

/// Row k passes if D × S + G + B × C is at most C × D.
pub fn judge(table: &Table) -> Verdict {
    let rows = table.rows();
    let blocking = greatest_holds_after(rows);
    let cycle = u64::from(CYCLE);
    let mut load = 0;
    let mut shortfall = 0;
    for ((row, blocking), number) in rows.iter().zip(blocking).zip(1..) {
        let share = u64::from(row.execution) * u64::from(CYCLE / row.period);
        let gap = row.period.saturating_sub(row.deadline);
        load += share;
        shortfall += u64::from(gap) * share;
        let deadline = u64::from(row.deadline);
        if deadline * load + shortfall + u64::from(blocking) * cycle > cycle * deadline {
            return Verdict::FailsAt(number);
        }
    }
    Verdict::Admitted
}

/// For each row the greatest hold of the rows after it, and 0 for the last row.
fn greatest_holds_after(rows: &[Row]) -> [u32; MOST_ROWS] {
    let mut after = [0; MOST_ROWS];
    let mut greatest = 0;
    for (row, place) in rows.iter().zip(&mut after).rev() {
        *place = greatest;
        greatest = greatest.max(row.hold);
    }
    after
}

#[cfg(test)]
mod tests {
    use super::*;
    use crate::draft::{Draft, Figures};
    use crate::sheet;

    fn verdict_of(rows: &[Figures]) -> u32 {
        judge(&sheet::read(&Draft::of_figures(rows).bytes()).unwrap()).number()
    }

    #[test]
    fn the_worked_example() {
        let with_hold = |hold| [(0, 4, 1, 3, 0), (2, 6, 3, 6, hold)];
        assert_eq!(verdict_of(&with_hold(1)), 0);
        assert_eq!(verdict_of(&with_hold(2)), 0);
        assert_eq!(verdict_of(&with_hold(3)), 1);
    }

    #[test]
    fn a_table_that_fails_and_misses_nothing() {
        assert_eq!(verdict_of(&[(0, 4, 2, 2, 0), (2, 4, 2, 2, 0)]), 2);
    }

    #[test]
    fn the_largest_numbers_fit() {
        let full = |hold| [(0, CYCLE, CYCLE, 4 * CYCLE, hold); MOST_ROWS];
        assert_eq!(verdict_of(&full(CYCLE)), 1);
        assert_eq!(verdict_of(&full(0)), 2);
        assert_eq!(verdict_of(&[(0, CYCLE, 1, 1, 1); MOST_ROWS]), 1);
        assert_eq!(verdict_of(&[(0, CYCLE, 1, 1, 0); MOST_ROWS]), 2);
    }
}
