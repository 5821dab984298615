//! Banks and homes (docs/RULES.md, 'Fabrics').

use crate::sheet::{Kind, Machine};

/// The capacity of each bank, by number.
pub fn capacities(machine: &Machine) -> Vec<u32> {
    let private = vec![machine.private; machine.cores as usize];
    match machine.kind {
        Kind::U => vec![machine.shared],
        Kind::V => private,
        Kind::H => [vec![machine.shared], private].concat(),
    }
}

/// The banks, ascending, in which an object with these touching cores has a home.
pub fn homes(kind: Kind, cores: &[u32]) -> Vec<usize> {
    match (kind, cores) {
        (Kind::U, _) => vec![0],
        (Kind::V, _) => cores.iter().map(|&core| core as usize).collect(),
        (Kind::H, &[core]) => vec![core as usize + 1],
        (Kind::H, _) => vec![0],
    }
}

#[cfg(test)]
mod tests {
    use super::*;

    #[test]
    fn banks() {
        let machine = |kind| Machine { kind, cores: 3, shared: 7, private: 9, grain: 1 };
        assert_eq!(capacities(&machine(Kind::U)), [7]);
        assert_eq!(capacities(&machine(Kind::V)), [9, 9, 9]);
        assert_eq!(capacities(&machine(Kind::H)), [7, 9, 9, 9]);
    }

    #[test]
    fn homes_of_one_and_two_cores() {
        assert_eq!(homes(Kind::U, &[2]), [0]);
        assert_eq!(homes(Kind::U, &[0, 2]), [0]);
        assert_eq!(homes(Kind::V, &[2]), [2]);
        assert_eq!(homes(Kind::V, &[0, 2]), [0, 2]);
        assert_eq!(homes(Kind::H, &[2]), [3]);
        assert_eq!(homes(Kind::H, &[0, 2]), [0]);
    }
}
