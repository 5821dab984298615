//! Placing objects in banks (docs/RULES.md, 'Gaps', 'Placing', 'Footprint').

use crate::fabric::{capacities, homes};
use crate::fault::Fault;
use crate::fit::{ask, Gap};
use crate::objects::{exclude, objects};
use crate::order::Order;
use crate::sheet::Sheet;

#[derive(Clone, Debug, PartialEq, Eq)]
pub struct Bank {
    pub capacity: u32,
    pub footprint: u64,
    /// Object and place, by object.
    pub places: Vec<(usize, u64)>,
}

#[derive(Clone, Debug, PartialEq, Eq)]
pub struct Layout {
    pub banks: Vec<Bank>,
}

/// Places the sheet's objects in its banks, or names the first object without space.
pub fn place(sheet: &Sheet) -> Result<Layout, Fault> {
    let order = Order::of(sheet);
    let objects = objects(sheet);
    let grain = u64::from(sheet.machine.grain);
    let mut members = vec![Vec::new(); capacities(&sheet.machine).len()];
    for (x, object) in objects.iter().enumerate() {
        for home in homes(sheet.machine.kind, &object.cores) {
            members[home].push(x);
        }
    }
    let mut banks = Vec::new();
    for (bank, (mut turns, capacity)) in members.into_iter().zip(capacities(&sheet.machine)).enumerate() {
        // A stable sort: equal sizes stay by number.
        turns.sort_by_key(|&x| std::cmp::Reverse(objects[x].size));
        let mut placed: Vec<(usize, u64)> = Vec::new();
        for x in turns {
            let taken = placed
                .iter()
                .filter(|&&(y, _)| exclude(&order, &objects[x], &objects[y]))
                .map(|&(y, at)| Gap { start: at, end: at + u64::from(objects[y].size) })
                .collect();
            let gaps = free(capacity, taken);
            let size = u64::from(objects[x].size);
            let (at, _) = ask(sheet.fit, &sheet.preferences, &gaps, size, grain).ok_or(Fault::no_gap(x, bank))?;
            placed.push((x, at));
        }
        placed.sort_unstable();
        let footprint = placed.iter().map(|&(x, at)| at + u64::from(objects[x].size)).max().unwrap_or(0);
        banks.push(Bank { capacity, footprint, places: placed });
    }
    Ok(Layout { banks })
}

/// The maximal stretches of a bank outside the taken ones, which may overlap.
fn free(capacity: u32, mut taken: Vec<Gap>) -> Vec<Gap> {
    taken.sort_unstable_by_key(|stretch| stretch.start);
    let mut gaps = Vec::new();
    let mut covered = 0;
    for stretch in taken {
        if stretch.start > covered {
            gaps.push(Gap { start: covered, end: stretch.start });
        }
        covered = covered.max(stretch.end);
    }
    let end = u64::from(capacity);
    if covered < end {
        gaps.push(Gap { start: covered, end });
    }
    gaps
}

#[cfg(test)]
mod tests {
    use super::*;

    #[test]
    fn free_stretches() {
        let gaps = |capacity, taken: &[(u64, u64)]| -> Vec<(u64, u64)> {
            let taken = taken.iter().map(|&(start, end)| Gap { start, end }).collect();
            free(capacity, taken).into_iter().map(|gap| (gap.start, gap.end)).collect()
        };
        assert_eq!(gaps(0, &[]), []);
        assert_eq!(gaps(10, &[]), [(0, 10)]);
        assert_eq!(gaps(10, &[(0, 10)]), []);
        assert_eq!(gaps(10, &[(7, 9), (0, 2), (1, 4), (2, 3)]), [(4, 7), (9, 10)]);
        assert_eq!(gaps(10, &[(4, 6), (6, 8)]), [(0, 4), (8, 10)]);
    }
}
