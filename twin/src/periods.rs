//! The period list: every divisor of the cycle, rising.

/// The cycle C, in ticks.
pub const CYCLE: u32 = 720_720;

/// How many divisors the cycle has.
pub const COUNT: usize = count_divisors();

/// Every divisor of the cycle, rising. The code of a period is its place,
/// counted from 1.
pub static PERIODS: [u32; COUNT] = list_divisors();

/// The period of a code, if the code is a place in the list.
pub fn period(code: u16) -> Option<u32> {
    let place = usize::from(code).checked_sub(1)?;
    PERIODS.get(place).copied()
}

/// Divisors come in pairs, a small one and its cofactor, except for a square root.
const fn count_divisors() -> usize {
    let mut count = 0;
    let mut small = 1;
    while small * small <= CYCLE {
        if CYCLE.is_multiple_of(small) {
            count += if small * small == CYCLE { 1 } else { 2 };
        }
        small += 1;
    }
    count
}

/// The small divisors fill the list from its front, their cofactors from its back.
const fn list_divisors() -> [u32; COUNT] {
    let mut list = [0; COUNT];
    let mut found = 0;
    let mut small = 1;
    while small * small <= CYCLE {
        if CYCLE.is_multiple_of(small) {
            list[found] = small;
            list[COUNT - 1 - found] = CYCLE / small;
            found += 1;
        }
        small += 1;
    }
    list
}

#[cfg(test)]
mod tests {
    use super::*;

    #[test]
    fn the_list_is_every_divisor_rising() {
        let by_trial: Vec<u32> = (1..=CYCLE).filter(|n| CYCLE.is_multiple_of(*n)).collect();
        assert_eq!(by_trial, PERIODS);
        assert_eq!(COUNT, 240);
    }

    #[test]
    fn a_code_is_a_place_counted_from_one() {
        assert_eq!(period(0), None);
        assert_eq!(period(1), Some(1));
        assert_eq!(period(17), Some(18));
        assert_eq!(period(240), Some(720_720));
        assert_eq!(period(241), None);
    }
}
