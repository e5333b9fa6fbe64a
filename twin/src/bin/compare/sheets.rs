//! Random sheets: lawful ones, damaged ones, and bytes that are none.

use twin::draft::{Draft, DraftHeader};
use twin::periods::{CYCLE, PERIODS};
use twin::sheet::{HEADER_LENGTH, length_of};

use crate::random::Random;
use crate::tables;

/// Lawful in most cases.
pub fn any(random: &mut Random) -> Vec<u8> {
    match random.between(1, 100) {
        1..=55 => tables::lawful(random).bytes(),
        56..=94 => damaged(random),
        _ => noise(random),
    }
}

/// A lawful sheet with one or two flaws at the edges of what is accepted.
fn damaged(random: &mut Random) -> Vec<u8> {
    let mut draft = tables::lawful(random);
    for _ in 0..random.pick(&[1, 1, 1, 2]) {
        match random.between(1, 100) {
            1..=20 => damage_header(random, &mut draft),
            _ => damage_row(random, &mut draft),
        }
    }
    let mut bytes = draft.bytes();
    if random.percent(12) {
        damage_bytes(random, &mut bytes);
    }
    bytes
}

fn damage_header(random: &mut Random, draft: &mut Draft) {
    let count = draft.rows.len() as u16;
    let header = &mut draft.header;
    let any = random.number();
    match random.between(1, 9) {
        1 => header.row_count = random.pick(&[0, 33, 256, 512, count << 8, u16::MAX]),
        2 => header.row_count = random.pick(&[count.wrapping_sub(1), count + 1, 1, 32]),
        3 => header.row_offset = random.pick(&[0, 15, 17, 28, 4096, any as u16]),
        4 => header.handler_count = random.pick(&[1, 256, any as u16]),
        5 => header.handler_offset = random.pick(&[1, 16, 256, any as u16]),
        6 => header.cycle = random.pick(&[0, CYCLE - 1, CYCLE + 1, CYCLE.swap_bytes(), any]),
        7 => {
            let off = random.pick(&[u32::MAX, 1, 28, any]);
            header.length = random.pick(&[0, 16, header.length.wrapping_add(off)]);
        }
        // A header that agrees with itself and not with the rows that follow.
        8 => *header = DraftHeader::of(random.between(1, 34) as usize),
        // Rows are left out or doubled, the header is not told.
        _ => match random.percent(50) {
            true => draft.rows.truncate(usize::from(count) / 2),
            false => draft.rows.extend_from_within(..),
        },
    }
}

fn damage_row(random: &mut Random, draft: &mut Draft) {
    if draft.rows.is_empty() {
        return;
    }
    let place = random.below(draft.rows.len());
    let before = match place {
        0 => 0,
        _ => draft.rows[place - 1].deadline,
    };
    let row = &mut draft.rows[place];
    let period = match usize::from(row.code) {
        code @ 1..=240 => PERIODS[code - 1],
        _ => 1,
    };
    let most_units = period.min(row.deadline);
    let any = random.number();
    match random.between(1, 8) {
        1 => {
            let byte = random.pick(&[0, 10, 31, 31, 32, 126, 127, 127, 128, 255]);
            row.label[random.below(8)] = byte;
        }
        2 => row.closing[random.below(2)] = random.pick(&[0, 1, 32, 128, 255]),
        3 => row.code = random.pick(&[0, 1, 240, 241, 256, row.code << 8, any as u16]),
        4 => {
            let edges = [0, 1, 4 * period, 4 * period + 1, any];
            row.deadline = random.pick(&edges);
        }
        5 => {
            let edges = [before.saturating_sub(1), before, before.saturating_add(1)];
            row.deadline = random.pick(&edges);
        }
        6 => row.phase = random.pick(&[0, CYCLE, CYCLE, CYCLE + 1, CYCLE + 1, any]),
        7 => {
            let above = most_units.saturating_add(1);
            row.execution = random.pick(&[0, 1, most_units, above, period, any]);
        }
        _ => {
            let above = row.execution.saturating_add(1);
            row.hold = random.pick(&[0, row.execution, above, above, any]);
        }
    }
}

fn damage_bytes(random: &mut Random, bytes: &mut Vec<u8>) {
    match random.between(1, 5) {
        1 => {
            let edges = [0, 1, 15, 16, 17, bytes.len().saturating_sub(1)];
            bytes.truncate(random.pick(&edges));
        }
        2 => bytes.truncate(random.below(bytes.len() + 1)),
        3 => {
            let more = random.pick(&[1, 2, 28, 100]);
            bytes.extend(random.bytes(more));
        }
        4 if !bytes.is_empty() => {
            let place = random.below(bytes.len());
            bytes[place] = random.byte();
        }
        5 if !bytes.is_empty() => {
            let place = random.below(bytes.len());
            bytes[place] ^= 1 << random.between(0, 7);
        }
        _ => {}
    }
}

/// Random bytes, some of them after a lawful header.
fn noise(random: &mut Random) -> Vec<u8> {
    match random.between(1, 3) {
        1 => {
            let count = random.below(1000);
            random.bytes(count)
        }
        2 => {
            let count = random.below(HEADER_LENGTH + 2);
            random.bytes(count)
        }
        _ => {
            let rows = random.between(1, 32) as usize;
            let mut bytes = header_bytes(rows);
            let count = length_of(rows) - HEADER_LENGTH;
            bytes.extend(random.bytes(count));
            bytes
        }
    }
}

/// The lawful header of a sheet of so many rows, or an unlawful one for 0 rows
/// or more than 32.
pub fn header_bytes(rows: usize) -> Vec<u8> {
    let header = DraftHeader::of(rows);
    let rows = Vec::new();
    Draft { header, rows }.bytes()
}
