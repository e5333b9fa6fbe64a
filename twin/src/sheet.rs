//! The sheet: a table as bytes, big-endian.
//!
//! A header of 16 bytes is followed by 28 bytes for each row.

use crate::periods::{self, CYCLE};
use crate::table::{GREATEST_PHASE, Label, MOST_ROWS, Row, Table};

pub const HEADER_LENGTH: usize = 16;
pub const ROW_LENGTH: usize = 28;

/// No sheet is longer than this.
pub const LONGEST: usize = length_of(MOST_ROWS);

/// The bytes of a sheet of so many rows.
pub const fn length_of(rows: usize) -> usize {
    HEADER_LENGTH + ROW_LENGTH * rows
}

/// Where in a sheet a reading failed.
#[derive(Debug, Clone, Copy, PartialEq, Eq)]
pub enum Layer {
    Bytes = 1,
    Header = 2,
    Row = 3,
}

/// Why bytes are no sheet: refusals 1 to 10.
#[derive(Debug, Clone, Copy, PartialEq, Eq)]
pub enum NoSheet {
    /// Fewer bytes than a header has.
    ShorterThanHeader,
    /// The row count is 0 or above 32.
    RowCount,
    /// Another header field differs from its layout.
    HeaderField,
    /// The bytes are not as many as the length field says.
    Length,
    /// A row, counted from 1, has a flaw.
    InRow(u32, Flaw),
}

/// What is wrong with a row.
#[derive(Debug, Clone, Copy, PartialEq, Eq)]
pub enum Flaw {
    LabelOrClosing = 5,
    PeriodCode = 6,
    Deadline = 7,
    Phase = 8,
    Execution = 9,
    Hold = 10,
}

impl NoSheet {
    pub fn number(self) -> u32 {
        match self {
            NoSheet::ShorterThanHeader => 1,
            NoSheet::RowCount => 2,
            NoSheet::HeaderField => 3,
            NoSheet::Length => 4,
            NoSheet::InRow(_, flaw) => flaw as u32,
        }
    }

    pub fn layer(self) -> Layer {
        match self {
            NoSheet::ShorterThanHeader | NoSheet::Length => Layer::Bytes,
            NoSheet::RowCount | NoSheet::HeaderField => Layer::Header,
            NoSheet::InRow(..) => Layer::Row,
        }
    }

    pub fn row(self) -> u32 {
        match self {
            NoSheet::InRow(row, _) => row,
            _ => 0,
        }
    }
}

/// Refusal 11: the buffer is shorter than the sheet.
#[derive(Debug, Clone, Copy, PartialEq, Eq)]
pub struct BufferTooShort;

/// The table that the bytes say, or the first refusal that fits.
pub fn read(bytes: &[u8]) -> Result<Table, NoSheet> {
    let (header, body) = bytes
        .split_first_chunk()
        .ok_or(NoSheet::ShorterThanHeader)?;
    let count = read_header(header)?;
    if bytes.len() != length_of(count) {
        return Err(NoSheet::Length);
    }
    let mut rows = Vec::with_capacity(count);
    let mut least_deadline = 1;
    for (number, bytes) in (1..).zip(body.as_chunks().0) {
        let row = read_row(bytes, least_deadline).map_err(|flaw| NoSheet::InRow(number, flaw))?;
        least_deadline = row.deadline;
        rows.push(row);
    }
    Ok(Table::from_checked_rows(rows))
}

/// Writes the table to the front of the buffer and gives the number of bytes.
pub fn write(table: &Table, buffer: &mut [u8]) -> Result<usize, BufferTooShort> {
    let rows = table.rows();
    let length = length_of(rows.len());
    let sheet = buffer.get_mut(..length).ok_or(BufferTooShort)?;
    let (header, body) = sheet.split_at_mut(HEADER_LENGTH);
    header.copy_from_slice(&header_of(rows.len()));
    for (row, bytes) in rows.iter().zip(body.as_chunks_mut().0) {
        write_row(row, bytes);
    }
    Ok(length)
}

/// The one lawful header of a sheet of so many rows.
fn header_of(rows: usize) -> [u8; HEADER_LENGTH] {
    let mut header = [0; HEADER_LENGTH];
    header[0..2].copy_from_slice(&(rows as u16).to_be_bytes());
    header[2..4].copy_from_slice(&(HEADER_LENGTH as u16).to_be_bytes());
    header[8..12].copy_from_slice(&CYCLE.to_be_bytes());
    header[12..16].copy_from_slice(&(length_of(rows) as u32).to_be_bytes());
    header
}

/// The row count that the header says.
fn read_header(header: &[u8; HEADER_LENGTH]) -> Result<usize, NoSheet> {
    let count = usize::from(u16_at(header, 0));
    if count == 0 || count > MOST_ROWS {
        return Err(NoSheet::RowCount);
    }
    if *header != header_of(count) {
        return Err(NoSheet::HeaderField);
    }
    Ok(count)
}

fn read_row(bytes: &[u8; ROW_LENGTH], least_deadline: u32) -> Result<Row, Flaw> {
    let label: Label = bytes_at(bytes, 0);
    let closing = u16_at(bytes, 26);
    if !label.iter().all(|byte| (32..=126).contains(byte)) || closing != 0 {
        return Err(Flaw::LabelOrClosing);
    }
    let code = u16_at(bytes, 24);
    let period = periods::period(code).ok_or(Flaw::PeriodCode)?;
    let deadline = u32_at(bytes, 16);
    if deadline < least_deadline || deadline > 4 * period {
        return Err(Flaw::Deadline);
    }
    let phase = u32_at(bytes, 8);
    if phase > GREATEST_PHASE {
        return Err(Flaw::Phase);
    }
    let execution = u32_at(bytes, 12);
    if execution == 0 || execution > period.min(deadline) {
        return Err(Flaw::Execution);
    }
    let hold = u32_at(bytes, 20);
    if hold > execution {
        return Err(Flaw::Hold);
    }
    Ok(Row {
        label,
        phase,
        execution,
        deadline,
        hold,
        code,
        period,
    })
}

fn write_row(row: &Row, bytes: &mut [u8; ROW_LENGTH]) {
    bytes[0..8].copy_from_slice(&row.label);
    bytes[8..12].copy_from_slice(&row.phase.to_be_bytes());
    bytes[12..16].copy_from_slice(&row.execution.to_be_bytes());
    bytes[16..20].copy_from_slice(&row.deadline.to_be_bytes());
    bytes[20..24].copy_from_slice(&row.hold.to_be_bytes());
    bytes[24..26].copy_from_slice(&row.code.to_be_bytes());
    bytes[26..28].fill(0);
}

fn bytes_at<const N: usize>(bytes: &[u8], at: usize) -> [u8; N] {
    let mut field = [0; N];
    field.copy_from_slice(&bytes[at..at + N]);
    field
}

fn u16_at(bytes: &[u8], at: usize) -> u16 {
    u16::from_be_bytes(bytes_at(bytes, at))
}

fn u32_at(bytes: &[u8], at: usize) -> u32 {
    u32::from_be_bytes(bytes_at(bytes, at))
}

#[cfg(test)]
mod tests {
    use super::*;
    use crate::draft::{Draft, Figures};

    const EXAMPLE: [Figures; 2] = [(0, 4, 1, 3, 0), (2, 6, 3, 6, 1)];

    fn example() -> Vec<u8> {
        Draft::of_figures(&EXAMPLE).bytes()
    }

    /// The example's sheet with some bytes replaced, read: number, layer, row;
    /// or nothing where it is accepted.
    fn refusal_with(at: usize, bytes: &[u8]) -> Option<(u32, u32, u32)> {
        let mut sheet = example();
        sheet[at..at + bytes.len()].copy_from_slice(bytes);
        refusal_of(&sheet)
    }

    fn refusal_of(sheet: &[u8]) -> Option<(u32, u32, u32)> {
        let refusal = read(sheet).err()?;
        Some((refusal.number(), refusal.layer() as u32, refusal.row()))
    }

    #[test]
    fn a_sheet_is_written_again_to_the_byte() {
        let sheet = example();
        let table = read(&sheet).unwrap();
        let mut buffer = vec![0xAA; sheet.len() + 3];
        assert_eq!(write(&table, &mut buffer), Ok(72));
        assert_eq!(buffer[..72], sheet);
        assert_eq!(buffer[72..], [0xAA; 3]);
        let mut short = [0xAA; 71];
        assert_eq!(write(&table, &mut short), Err(BufferTooShort));
        assert_eq!(short, [0xAA; 71]);
    }

    #[test]
    fn bytes_and_header() {
        let sheet = example();
        assert_eq!(refusal_of(&[]), Some((1, 1, 0)));
        assert_eq!(refusal_of(&sheet[..15]), Some((1, 1, 0)));
        assert_eq!(refusal_of(&sheet[..16]), Some((4, 1, 0)));
        assert_eq!(refusal_of(&sheet[..71]), Some((4, 1, 0)));
        assert_eq!(refusal_of(&[&sheet[..], &[0]].concat()), Some((4, 1, 0)));
        for count in [0, 33, u16::MAX] {
            assert_eq!(refusal_with(0, &count.to_be_bytes()), Some((2, 2, 0)));
        }
        for at in 2..16 {
            assert_eq!(refusal_with(at, &[0xEE]), Some((3, 2, 0)));
        }
        assert_eq!(refusal_with(0, &1u16.to_be_bytes()), Some((3, 2, 0)));
    }

    #[test]
    fn row_edges() {
        const FIRST: usize = 16;
        const SECOND: usize = 44;
        for byte in [0, 31, 127, 255] {
            assert_eq!(refusal_with(FIRST, &[byte]), Some((5, 3, 1)));
            assert_eq!(refusal_with(SECOND + 7, &[byte]), Some((5, 3, 2)));
        }
        for byte in [32, 126] {
            assert_eq!(refusal_with(SECOND + 7, &[byte]), None);
        }
        for at in [26, 27] {
            assert_eq!(refusal_with(SECOND + at, &[1]), Some((5, 3, 2)));
        }
        for code in [0, 241, u16::MAX] {
            assert_eq!(
                refusal_with(SECOND + 24, &code.to_be_bytes()),
                Some((6, 3, 2))
            );
        }
        let field =
            |at: usize, value: u32| refusal_with(SECOND + at, &value.to_be_bytes()).map(|r| r.0);
        for (deadline, expected) in [(0, 7), (2, 7), (25, 7), (u32::MAX, 7)] {
            assert_eq!(field(16, deadline), Some(expected));
        }
        for deadline in [3, 24] {
            assert_eq!(field(16, deadline), None);
        }
        assert_eq!(field(8, 720_720), None);
        assert_eq!(field(8, 720_721), Some(8));
        assert_eq!(field(12, 0), Some(9));
        assert_eq!(field(12, 6), None);
        assert_eq!(field(12, 7), Some(9));
        assert_eq!(field(20, 3), None);
        assert_eq!(field(20, 4), Some(10));
    }
}
