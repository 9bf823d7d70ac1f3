//! Latencies as figures.

/// The latencies in ascending order.
pub fn sorted(micros: &mut [u32]) -> &[u32] {
    micros.sort_unstable();
    micros
}

/// How latencies are spread, in milliseconds.
#[derive(Clone, Copy, Debug, Default, PartialEq)]
pub struct Spread {
    /// Half of them are not above this one.
    pub p50: f64,
    /// Nine in ten are not.
    pub p90: f64,
    /// 99 in a hundred are not.
    pub p99: f64,
    /// The longest.
    pub max: f64,
}

impl Spread {
    /// The figures of latencies in microseconds, in ascending order; without any all are 0.
    pub fn of(sorted: &[u32]) -> Spread {
        Spread {
            p50: percentile(sorted, 50),
            p90: percentile(sorted, 90),
            p99: percentile(sorted, 99),
            max: percentile(sorted, 100),
        }
    }
}

/// The least of the numbers that so many in a hundred are not above.
fn percentile(sorted: &[u32], part: usize) -> f64 {
    let at = (sorted.len() * part).div_ceil(100).max(1) - 1;
    let micros = sorted.get(at).copied().unwrap_or(0);
    f64::from(micros) / 1000.0
}

#[cfg(test)]
mod tests {
    use super::*;

    #[test]
    fn figures_are_those_of_the_definition() {
        let mut micros: Vec<u32> = (1..=200).rev().map(|n| n * 1000).collect();
        let spread = Spread::of(sorted(&mut micros));
        let figures = (spread.p50, spread.p90, spread.p99, spread.max);
        assert_eq!(figures, (100.0, 180.0, 198.0, 200.0));
        assert_eq!(Spread::of(&[7000]).p99, 7.0);
        assert_eq!(Spread::of(&[]), Spread::default());
    }
}
