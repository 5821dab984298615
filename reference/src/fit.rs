//! Fit rules and the layers over them (docs/RULES.md, 'Fit rules').

use crate::sheet::{Fit, Preference};

/// From start up to, but not including, end.
#[derive(Clone, Copy, Debug, PartialEq, Eq)]
pub struct Gap {
    pub start: u64,
    pub end: u64,
}

/// A place and the bytes left over behind the object.
pub type Answer = Option<(u64, u64)>;

pub fn round_up(n: u64, grain: u64) -> u64 {
    n.div_ceil(grain) * grain
}

/// The answer that this gap alone allows.
fn within(gap: &Gap, size: u64, grain: u64) -> Answer {
    let place = round_up(gap.start, grain);
    let left = gap.end.checked_sub(place + size)?;
    Some((place, left))
}

/// The fit under those layers, of which the last is the outermost.
pub fn ask(fit: Fit, layers: &[Preference], gaps: &[Gap], size: u64, grain: u64) -> Answer {
    let Some((outer, below)) = layers.split_last() else {
        return choose(fit, gaps, size, grain);
    };
    let preferred: Vec<Gap> = gaps
        .iter()
        .filter(|gap| match *outer {
            Preference::Low(line) => gap.end <= u64::from(line),
            Preference::Snug(limit) => within(gap, size, grain).is_some_and(|(_, left)| left <= u64::from(limit)),
        })
        .copied()
        .collect();
    ask(fit, below, &preferred, size, grain).or_else(|| ask(fit, below, gaps, size, grain))
}

/// First or best fit, the lowest of equals.
fn choose(fit: Fit, gaps: &[Gap], size: u64, grain: u64) -> Answer {
    let mut chosen: Option<(&Gap, Answer)> = None;
    for gap in gaps {
        let answer = within(gap, size, grain);
        if answer.is_none() {
            continue;
        }
        let better = match (&chosen, fit) {
            (None, _) => true,
            (Some(_), Fit::First) => false,
            (Some((best, _)), Fit::Best) => gap.end - gap.start < best.end - best.start,
        };
        if better {
            chosen = Some((gap, answer));
        }
    }
    chosen.and_then(|(_, answer)| answer)
}

#[cfg(test)]
mod tests {
    use super::*;
    use Fit::{Best, First};
    use Preference::{Low, Snug};

    fn gaps(pairs: &[(u64, u64)]) -> Vec<Gap> {
        pairs.iter().map(|&(start, end)| Gap { start, end }).collect()
    }

    #[test]
    fn first_and_best() {
        let gaps = gaps(&[(0, 10), (20, 26), (40, 100)]);
        assert_eq!(ask(First, &[], &gaps, 5, 1), Some((0, 5)));
        assert_eq!(ask(Best, &[], &gaps, 5, 1), Some((20, 1)));
        for fit in [First, Best] {
            assert_eq!(ask(fit, &[], &gaps, 60, 1), Some((40, 0)));
            assert_eq!(ask(fit, &[], &gaps, 61, 1), None);
            assert_eq!(ask(fit, &[], &[], 1, 1), None);
        }
    }

    #[test]
    fn the_grain_counts() {
        assert_eq!(ask(Best, &[], &gaps(&[(1, 16), (32, 44)]), 8, 8), Some((32, 4)));
        assert_eq!(ask(First, &[], &gaps(&[(10, 16)]), 1, 8), None);
        assert_eq!(ask(First, &[], &gaps(&[(10, 12)]), 1, 4096), None);
        assert_eq!(ask(First, &[], &gaps(&[(4_294_967_290, 4_294_967_295)]), 1, 4096), None);
    }

    #[test]
    fn the_lowest_of_equals() {
        assert_eq!(ask(Best, &[], &gaps(&[(0, 6), (10, 16)]), 5, 1), Some((0, 1)));
        // The width counts, not the bytes left over.
        assert_eq!(ask(Best, &[], &gaps(&[(1, 16), (16, 30)]), 4, 16), Some((16, 10)));
    }

    #[test]
    fn the_later_layer_is_outside() {
        let gaps = gaps(&[(0, 10), (40, 46)]);
        assert_eq!(ask(First, &[Snug(1), Low(20)], &gaps, 5, 1), Some((0, 5)));
        assert_eq!(ask(First, &[Low(20), Snug(1)], &gaps, 5, 1), Some((40, 1)));
        assert_eq!(ask(Best, &[Low(10)], &gaps, 5, 1), Some((0, 5)));
        assert_eq!(ask(Best, &[Low(9)], &gaps, 5, 1), Some((40, 1)));
        assert_eq!(ask(First, &[Snug(0)], &gaps, 6, 1), Some((40, 0)));
        assert_eq!(ask(First, &[Snug(0)], &gaps, 11, 1), None);
    }
}
