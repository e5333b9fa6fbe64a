//! Random letters.

use crate::random::Random;

/// Bytes that resemble a letter or often come with text.
const NEAR_MISSES: &[u8] = b"RHFqsgieo \n\r\t\0\x7f\xf2\xe8\xe6\xff";

#[derive(Debug, Clone, Copy)]
enum Style {
    OnlyRun,
    MostlyRun,
    MostlyHold,
    MostlyFinish,
    Even,
    /// The same letter many times in a row.
    Bursts,
    /// Lawful letters with others among them.
    Littered,
    AnyBytes,
}

/// So many letters of one style.
pub fn any(random: &mut Random, count: usize) -> Vec<u8> {
    use Style::*;
    let style = random.pick(&[
        OnlyRun,
        OnlyRun,
        OnlyRun,
        MostlyRun,
        MostlyRun,
        MostlyHold,
        MostlyHold,
        MostlyFinish,
        Even,
        Bursts,
        Bursts,
        Littered,
        Littered,
        AnyBytes,
    ]);
    if let Bursts = style {
        return bursts(random, count);
    }
    (0..count).map(|_| letter(random, style)).collect()
}

fn letter(random: &mut Random, style: Style) -> u8 {
    match style {
        Style::OnlyRun => b'r',
        Style::MostlyRun => random.pick(b"rrrrrrrrrrrrhf"),
        Style::MostlyHold => random.pick(b"hhhhhhhhhhhhrf"),
        Style::MostlyFinish => random.pick(b"ffffffrh"),
        Style::Even | Style::Bursts => random.pick(b"rhf"),
        Style::Littered if random.percent(90) => random.pick(b"rrrhhf"),
        Style::Littered if random.percent(70) => random.pick(NEAR_MISSES),
        Style::Littered | Style::AnyBytes => random.byte(),
    }
}

fn bursts(random: &mut Random, count: usize) -> Vec<u8> {
    let mut letters = Vec::with_capacity(count);
    while letters.len() < count {
        let letter = letter(random, Style::Even);
        let burst = random.between(1, 20) as usize;
        let length = letters.len();
        letters.resize(count.min(length + burst), letter);
    }
    letters
}
