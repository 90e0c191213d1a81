//! A small generator of cases (splitmix64): the same seed gives the same cases on every machine.

/// The environment variable that gives the seed, in decimal or, after `0x`, in hexadecimal.
pub const SEED_VARIABLE: &str = "HOENGTILA_SEED";

/// The seed where none is given: a run that nobody steers is the same each time.
const DEFAULT_SEED: u64 = 0x0266_0807;

pub struct Random {
    state: u64,
}

impl Random {
    pub fn new(seed: u64) -> Random {
        Random { state: seed }
    }

    pub fn bits(&mut self) -> u64 {
        self.state = self.state.wrapping_add(0x9E37_79B9_7F4A_7C15);
        let mut z = self.state;
        z = (z ^ (z >> 30)).wrapping_mul(0xBF58_476D_1CE4_E5B9);
        z = (z ^ (z >> 27)).wrapping_mul(0x94D0_49BB_1331_11EB);
        z ^ (z >> 31)
    }

    /// A number from `low` to `high`, both in it.
    pub fn between(&mut self, low: i64, high: i64) -> i64 {
        assert!(low <= high, "an empty range: {low}..={high}");
        let span = (high as i128 - low as i128 + 1) as u128;
        // the product keeps the high bits, which are the better ones
        (low as i128 + ((self.bits() as u128 * span) >> 64) as i128) as i64
    }

    /// A place below `count`.
    pub fn below(&mut self, count: usize) -> usize {
        self.between(0, count as i64 - 1) as usize
    }

    pub fn choose<T: Copy>(&mut self, from: &[T]) -> T {
        from[self.below(from.len())]
    }

    /// True once in `times` calls, in the mean.
    pub fn once_in(&mut self, times: usize) -> bool {
        self.below(times) == 0
    }

    /// `count` numbers from `low` to `high`.
    pub fn numbers(&mut self, count: usize, low: i64, high: i64) -> Vec<i64> {
        (0..count).map(|_| self.between(low, high)).collect()
    }
}

/// The seed that the environment gives, or the default. A seed that is not a number is an error, not
/// the default: whoever gave it wants that one.
pub fn seed() -> u64 {
    match std::env::var(SEED_VARIABLE) {
        Ok(text) => parse(&text).unwrap_or_else(|| panic!("{SEED_VARIABLE}={text} is no number")),
        Err(_) => DEFAULT_SEED,
    }
}

/// The generator of a test, its seed printed to standard error, so that a failing run can be repeated.
pub fn seeded() -> Random {
    let seed = seed();
    eprintln!("{SEED_VARIABLE}={seed}");
    Random::new(seed)
}

fn parse(text: &str) -> Option<u64> {
    match text.strip_prefix("0x") {
        Some(digits) => u64::from_str_radix(digits, 16).ok(),
        None => text.parse().ok(),
    }
}

#[cfg(test)]
mod tests {
    use super::*;

    #[test]
    fn the_generator_is_splitmix64() {
        // the first numbers of the published generator at seed 0
        let mut random = Random::new(0);
        assert_eq!(random.bits(), 0xE220_A839_7B1D_CDAF);
        assert_eq!(random.bits(), 0x6E78_9E6A_A1B9_65F4);
    }

    #[test]
    fn both_ends_of_a_range_are_met_and_nothing_beyond() {
        let numbers = Random::new(1).numbers(1000, -2, 2);
        for wanted in -2..=2 {
            assert!(numbers.contains(&wanted));
        }
        assert!(numbers.iter().all(|z| (-2..=2).contains(z)));
    }

    #[test]
    fn a_seed_is_read_in_both_notations() {
        assert_eq!(parse("17"), Some(17));
        assert_eq!(parse("0x11"), Some(17));
        assert_eq!(parse("seventeen"), None);
    }
}
