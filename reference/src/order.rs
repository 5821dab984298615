//! Which actor is before which (docs/RULES.md, 'Order').

use crate::sheet::Sheet;

/// Whether a chain of one or more steps leads from a to b, by depth-first search.
pub fn leads(next: &[Vec<usize>], a: usize, b: usize) -> bool {
    let mut seen = vec![false; next.len()];
    let mut open = vec![a];
    while let Some(at) = open.pop() {
        for &to in &next[at] {
            if to == b {
                return true;
            }
            if !seen[to] {
                seen[to] = true;
                open.push(to);
            }
        }
    }
    false
}

/// The order of a sheet's actors.
pub struct Order {
    before: Vec<Vec<bool>>,
}

impl Order {
    /// By Floyd and Warshall: after round k, chains through the actors up to k are known.
    pub fn of(sheet: &Sheet) -> Order {
        let n = sheet.actors.len();
        let mut before = vec![vec![false; n]; n];
        for (a, b) in sheet.links.iter().filter_map(|link| link.orders()) {
            before[a][b] = true;
        }
        for k in 0..n {
            let from_k = before[k].clone();
            for row in before.iter_mut().filter(|row| row[k]) {
                for (known, &more) in row.iter_mut().zip(&from_k) {
                    *known |= more;
                }
            }
        }
        Order { before }
    }

    pub fn before(&self, a: usize, b: usize) -> bool {
        self.before[a][b]
    }
}

#[cfg(test)]
mod tests {
    use super::*;
    use crate::sheet::read;

    #[test]
    fn chains_of_fifos_and_sequences() {
        let sheet = read(b"LGM 1\nM U 2 64 0 1\nP F\nA 0 0\nA 0 0\nA 1 0\nA 1 0\nS 2 3\nF 1 2 1\nD 3 0 1\nS 0 1\n").unwrap();
        let order = Order::of(&sheet);
        for a in 0..4 {
            for b in 0..4 {
                assert_eq!(order.before(a, b), a < b, "{a} {b}");
            }
        }
    }
}
