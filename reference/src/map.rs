//! What is printed for a sheet (docs/FORMAT.md, 'Map', 'Fault line').

use crate::fault::Fault;
use crate::place::{place, Layout};
use crate::sheet::read;
use std::fmt::Write;

/// The map of a text, or why it is refused.
pub fn map(text: &[u8]) -> Result<String, Fault> {
    let layout = place(&read(text)?)?;
    Ok(print(&layout))
}

/// The map, or the fault line, and whether the text is accepted.
pub fn answer(text: &[u8]) -> (String, bool) {
    match map(text) {
        Ok(map) => (map, true),
        Err(fault) => (format!("{fault}\n"), false),
    }
}

fn print(layout: &Layout) -> String {
    let mut out = String::from("LGM 1\n");
    let mut homes: Vec<(usize, usize, u64)> = Vec::new();
    for (number, bank) in layout.banks.iter().enumerate() {
        let _ = writeln!(out, "B {number} {} {}", bank.footprint, bank.capacity);
        homes.extend(bank.places.iter().map(|&(object, at)| (object, number, at)));
    }
    homes.sort_unstable();
    for (object, bank, at) in homes {
        let _ = writeln!(out, "O {object} {bank} {at}");
    }
    out
}

#[cfg(test)]
pub mod tests {
    use super::*;

    pub const SAMPLE_A: &str = include_str!("../../sheets/sample-a.sheet");
    pub const SAMPLE_B: &str = include_str!("../../sheets/sample-b.sheet");

    fn with_machine(sample: &str, machine: &str) -> String {
        sample.replace("M U 2 64 0 1", machine)
    }

    fn printed(text: &str) -> String {
        answer(text.as_bytes()).0
    }

    #[test]
    fn sample_a() {
        assert_eq!(answer(SAMPLE_A.as_bytes()), (String::from("LGM 1\nB 0 21 64\nO 0 0 8\nO 1 0 0\nO 2 0 10\nO 3 0 0\nO 4 0 16\n"), true));
    }

    #[test]
    fn sample_a_in_a_tight_bank() {
        assert_eq!(printed(&with_machine(SAMPLE_A, "M U 2 21 0 1")), printed(SAMPLE_A).replace("B 0 21 64", "B 0 21 21"));
        assert_eq!(answer(with_machine(SAMPLE_A, "M U 2 20 0 1").as_bytes()), (String::from("E 11 3 - 4 0\n"), false));
        assert_eq!(printed(&with_machine(SAMPLE_A, "M U 2 0 0 1")), "E 11 3 - 1 0\n");
    }

    #[test]
    fn sample_a_on_a_grain() {
        assert_eq!(printed(&with_machine(SAMPLE_A, "M U 2 64 0 8")), "LGM 1\nB 0 29 64\nO 0 0 8\nO 1 0 0\nO 2 0 16\nO 3 0 0\nO 4 0 24\n");
    }

    #[test]
    fn sample_a_in_other_fabrics() {
        assert_eq!(
            printed(&with_machine(SAMPLE_A, "M H 2 64 64 1")),
            "LGM 1\nB 0 11 64\nB 1 10 64\nB 2 12 64\nO 0 2 8\nO 1 1 0\nO 2 0 0\nO 3 2 0\nO 4 0 6\n"
        );
        assert_eq!(
            printed(&with_machine(SAMPLE_A, "M V 3 0 64 1")),
            "LGM 1\nB 0 21 64\nB 1 19 64\nB 2 0 64\nO 0 1 8\nO 1 0 0\nO 2 0 10\nO 2 1 8\nO 3 1 0\nO 4 0 16\nO 4 1 14\n"
        );
    }

    #[test]
    fn sample_a_with_initial_tokens() {
        let map = printed(&format!("{SAMPLE_A}D 3 0 2\n"));
        assert_eq!(map, "LGM 1\nB 0 23 64\nO 0 0 8\nO 1 0 0\nO 2 0 10\nO 3 0 0\nO 4 0 16\nO 5 0 21\n");
    }

    #[test]
    fn sample_b() {
        assert_eq!(printed(SAMPLE_B), "LGM 1\nB 0 10 64\nO 0 0 6\nO 1 0 0\n");
        assert_eq!(printed(&format!("{SAMPLE_B}S 0 1\n")), "LGM 1\nB 0 6 64\nO 0 0 0\nO 1 0 0\n");
    }

    #[test]
    fn equal_sizes_go_by_number() {
        let map = printed(&SAMPLE_B.replace("A 0 6", "A 0 4"));
        assert_eq!(map, "LGM 1\nB 0 8 64\nO 0 0 0\nO 1 0 4\n");
    }

    #[test]
    fn no_objects() {
        assert_eq!(printed("LGM 1\nM H 2 0 0 4096\nP B\nA 1 0\n"), "LGM 1\nB 0 0 0\nB 1 0 0\nB 2 0 0\n");
    }

    #[test]
    fn sample_sheets_have_their_maps() {
        let folder = concat!(env!("CARGO_MANIFEST_DIR"), "/../sheets");
        let mut count = 0;
        for entry in std::fs::read_dir(folder).unwrap() {
            let sheet = entry.unwrap().path();
            if sheet.extension().is_some_and(|name| name == "sheet") {
                let expected = std::fs::read_to_string(sheet.with_extension("map")).unwrap();
                let (printed, accepted) = answer(&std::fs::read(&sheet).unwrap());
                assert_eq!(printed, expected, "{}", sheet.display());
                assert_eq!(accepted, !expected.starts_with('E'), "{}", sheet.display());
                count += 1;
            }
        }
        assert!(count >= 10);
    }

    #[test]
    fn a_bank_of_nearly_four_gigabytes() {
        let sheet = |last: u32| {
            let actors = "A 0 16777216\n".repeat(64);
            let fifos = "D 0 1 16777216\n".repeat(191);
            format!("LGM 1\nM U 1 4294967295 0 4096\nP B\n{actors}{fifos}D 0 1 {last}\n")
        };
        assert_eq!(printed(&sheet(16_777_216)), "E 11 3 - 255 0\n");
        assert!(printed(&sheet(16_777_215)).starts_with("LGM 1\nB 0 4294967295 4294967295\n"));
    }
}
