//! The lines of the log.

use crate::bench::{Closing, Event, Step, StepRefusal, Tick};
use crate::ready::JobName;
use crate::sheet::NoSheet;
use crate::verdict::Verdict;

const HEADING: &[u8] = b"tick task job left event\n";

/// More than the longest line has: a word, four numbers of up to ten digits,
/// spaces and the closing byte.
const ROOM: usize = 64;

/// Log lines as bytes, one after the other.
#[derive(Debug, Default)]
pub struct Log {
    bytes: Vec<u8>,
}

impl Log {
    pub fn with_capacity(bytes: usize) -> Self {
        Self {
            bytes: Vec::with_capacity(bytes),
        }
    }

    pub fn bytes(&self) -> &[u8] {
        &self.bytes
    }

    pub fn clear(&mut self) {
        self.bytes.clear();
    }

    pub fn heading(&mut self) {
        self.bytes.extend_from_slice(HEADING);
    }

    pub fn verdict(&mut self, verdict: Verdict) {
        self.line(|line| line.word(b"verdict").numbers([verdict.number()]));
    }

    /// The lines of a step, made or refused.
    pub fn step(&mut self, answer: Result<Step, StepRefusal>) {
        match answer {
            Ok(Step { tick, miss }) => {
                self.tick(tick);
                if let Some(job) = miss {
                    self.miss(job);
                }
            }
            Err(refusal) => self.line(|line| line.word(b"refused").numbers([refusal as u32])),
        }
    }

    pub fn end(&mut self, closing: &Closing) {
        let counts = closing.counts;
        let fields = [
            closing.clock,
            counts.idle,
            counts.begun,
            counts.interruptions,
        ];
        self.line(|line| line.word(b"end").numbers(fields));
    }

    pub fn no_sheet(&mut self, refusal: NoSheet) {
        let fields = [refusal.number(), refusal.layer() as u32, refusal.row()];
        self.line(|line| line.word(b"sheet").numbers(fields));
    }

    fn tick(&mut self, tick: Tick) {
        let event = match tick.event {
            Event::PutBack => b'r',
            Event::ToHand => b'h',
            Event::Done => b'd',
            Event::Idle => b'i',
        };
        let fields = [tick.clock, tick.task, tick.number, tick.left];
        self.line(|line| line.numbers(fields).byte(b' ').byte(event));
    }

    fn miss(&mut self, job: JobName) {
        self.line(|line| line.word(b"miss").numbers([job.task, job.number]));
    }

    fn line(&mut self, fill: impl FnOnce(&mut Line) -> &mut Line) {
        let mut line = Line::new();
        fill(&mut line).byte(b'\n');
        self.bytes.extend_from_slice(line.bytes());
    }
}

/// A line while it is made.
struct Line {
    bytes: [u8; ROOM],
    length: usize,
}

impl Line {
    fn new() -> Self {
        Self {
            bytes: [0; ROOM],
            length: 0,
        }
    }

    fn bytes(&self) -> &[u8] {
        &self.bytes[..self.length]
    }

    fn byte(&mut self, byte: u8) -> &mut Self {
        self.bytes[self.length] = byte;
        self.length += 1;
        self
    }

    /// A word and the space after it.
    fn word(&mut self, word: &[u8]) -> &mut Self {
        self.bytes[self.length..][..word.len()].copy_from_slice(word);
        self.length += word.len();
        self.byte(b' ')
    }

    /// Numbers in decimal, parted by spaces.
    fn numbers<const N: usize>(&mut self, numbers: [u32; N]) -> &mut Self {
        for (place, number) in numbers.into_iter().enumerate() {
            if place > 0 {
                self.byte(b' ');
            }
            self.number(number);
        }
        self
    }

    fn number(&mut self, number: u32) {
        let end = self.length + digits(number);
        let mut rest = number;
        for digit in self.bytes[self.length..end].iter_mut().rev() {
            *digit = b'0' + (rest % 10) as u8;
            rest /= 10;
        }
        self.length = end;
    }
}

/// How many decimal digits a number has; 0 has one.
fn digits(number: u32) -> usize {
    number.checked_ilog10().unwrap_or(0) as usize + 1
}

#[cfg(test)]
mod tests {
    use super::*;

    #[test]
    fn numbers_are_decimal_without_leading_zeros() {
        for number in [0, 1, 9, 10, 99, 100, 999_999_999, 1_000_000_000, u32::MAX] {
            let mut line = Line::new();
            line.numbers([number]);
            assert_eq!(line.bytes(), number.to_string().as_bytes());
        }
    }

    #[test]
    fn the_longest_line_has_room() {
        let mut line = Line::new();
        line.word(b"end").numbers([u32::MAX; 4]).byte(b'\n');
        assert_eq!(line.bytes().len(), 48);
    }
}
