//! The lean order and its peak (docs/RULES.md, 'Lean order', 'Peak'), and how they are printed (docs/FORMAT.md, 'Lean order').

use crate::objects::objects;
use crate::run::{Call, Run};
use crate::sheet::{read, Link, Sheet};
use std::collections::BTreeSet;
use std::fmt::Write;

/// An actor in its turn, with the bytes of all live objects after its start and after its finish.
#[derive(Clone, Debug, PartialEq, Eq)]
pub struct Turn {
    pub actor: usize,
    pub net: i64,
    pub running: u64,
    pub finished: u64,
}

/// The bytes of the `F` objects that each actor produces, less those that it consumes.
fn net_changes(sheet: &Sheet) -> Vec<i64> {
    let mut net = vec![0; sheet.actors.len()];
    for link in &sheet.links {
        if let Link::Fifo { from, to, size } = *link {
            net[from] += i64::from(size);
            net[to] -= i64::from(size);
        }
    }
    net
}

/// All actors: at each step the least by net change, then number, of those that no unlisted one is right before.
fn listed(sheet: &Sheet, net: &[i64]) -> Vec<usize> {
    let pairs: Vec<(usize, usize)> = sheet.links.iter().filter_map(Link::orders).collect();
    let mut missing = vec![0; sheet.actors.len()];
    for &(_, b) in &pairs {
        missing[b] += 1;
    }
    let mut ready: BTreeSet<(i64, usize)> = (0..missing.len()).filter(|&a| missing[a] == 0).map(|a| (net[a], a)).collect();
    let mut listed = Vec::new();
    while let Some((_, least)) = ready.pop_first() {
        listed.push(least);
        for &(_, b) in pairs.iter().filter(|&&(a, _)| a == least) {
            missing[b] -= 1;
            if missing[b] == 0 {
                ready.insert((net[b], b));
            }
        }
    }
    listed
}

/// The lean order: each actor starts and then finishes, in a fresh run.
pub fn turns(sheet: &Sheet) -> Vec<Turn> {
    let objects = objects(sheet);
    let net = net_changes(sheet);
    let mut run = Run::of(sheet);
    let mut bytes_after = |call| {
        run.call(call).expect("the lean order keeps the order");
        objects.iter().filter(|object| run.is_live(object)).map(|object| u64::from(object.size)).sum()
    };
    let mut turn = |actor| Turn {
        actor,
        net: net[actor],
        running: bytes_after(Call::Start(actor as u32)),
        finished: bytes_after(Call::Finish(actor as u32)),
    };
    listed(sheet, &net).into_iter().map(&mut turn).collect()
}

pub fn peak(turns: &[Turn]) -> u64 {
    turns.iter().flat_map(|turn| [turn.running, turn.finished]).max().unwrap_or(0)
}

/// The turns and the peak, or the fault line, and whether the text is accepted.
pub fn answer(text: &[u8]) -> (String, bool) {
    match read(text) {
        Ok(sheet) => (print(&turns(&sheet)), true),
        Err(fault) => (format!("{fault}\n"), false),
    }
}

fn print(turns: &[Turn]) -> String {
    let mut out = String::new();
    for Turn { actor, net, running, finished } in turns {
        let _ = writeln!(out, "actor {actor}: net change {net}, {running} bytes live while it runs, {finished} after");
    }
    let _ = writeln!(out, "peak {}", peak(turns));
    out
}

#[cfg(test)]
mod tests {
    use super::*;
    use crate::map::tests::{SAMPLE_A, SAMPLE_B};

    const START: &str = "LGM 1\nM U 2 64 0 1\nP F\n";

    fn order(text: &str) -> Vec<usize> {
        turns(&read(text.as_bytes()).unwrap()).iter().map(|turn| turn.actor).collect()
    }

    fn peak_of(text: &str) -> u64 {
        peak(&turns(&read(text.as_bytes()).unwrap()))
    }

    #[test]
    fn sample_a() {
        let printed = "actor 0: net change 15, 15 bytes live while it runs, 15 after\n\
                       actor 1: net change -4, 21 bytes live while it runs, 11 after\n\
                       actor 2: net change -3, 19 bytes live while it runs, 8 after\n\
                       actor 3: net change -8, 12 bytes live while it runs, 0 after\n\
                       peak 21\n";
        assert_eq!(answer(SAMPLE_A.as_bytes()), (String::from(printed), true));
    }

    #[test]
    fn initial_tokens_are_always_live() {
        let sheet = format!("{SAMPLE_A}D 3 0 2\n");
        assert_eq!(order(&sheet), [0, 1, 2, 3]);
        assert_eq!(peak_of(&sheet), 23);
        assert!(answer(sheet.as_bytes()).0.contains("actor 3: net change -8, 14 bytes live while it runs, 2 after\n"));
    }

    #[test]
    fn equals_go_by_number() {
        assert_eq!(order(SAMPLE_B), [0, 1]);
        assert_eq!(peak_of(SAMPLE_B), 6);
        assert_eq!(order(&format!("{SAMPLE_B}S 1 0\n")), [1, 0]);
        // 3 frees as much as 0 takes, and 1 as much as 2.
        assert_eq!(order(&format!("{START}A 0 0\nA 0 0\nA 0 0\nA 0 0\nF 2 1 5\nF 0 3 5\n")), [0, 3, 2, 1]);
        assert_eq!(order(&format!("{START}A 0 0\nA 0 0\nA 0 0\nA 0 0\nF 3 1 5\nF 2 0 5\n")), [2, 0, 3, 1]);
    }

    #[test]
    fn the_smallest_of_the_ready_at_each_step() {
        // 1 is ready at once; 2 has the smallest net change but waits for 0.
        assert_eq!(order(&format!("{START}A 0 0\nA 0 0\nA 0 0\nA 0 0\nF 0 2 9\nF 1 3 7\n")), [1, 3, 0, 2]);
        assert_eq!(order(&format!("{START}A 0 0\nA 0 0\nA 0 0\nA 0 0\nF 0 2 9\nF 1 3 7\nF 0 3 1\n")), [1, 0, 2, 3]);
        // A repeated line orders once.
        assert_eq!(order(&format!("{START}A 0 0\nA 0 0\nS 1 0\nS 1 0\nF 1 0 3\nF 1 0 3\n")), [1, 0]);
    }

    #[test]
    fn working_areas_count_while_their_actor_runs() {
        let sheet = format!("{START}A 0 100\nA 0 1\nF 0 1 5\n");
        let printed = "actor 0: net change 5, 105 bytes live while it runs, 5 after\n\
                       actor 1: net change -5, 6 bytes live while it runs, 0 after\n\
                       peak 105\n";
        assert_eq!(answer(sheet.as_bytes()), (String::from(printed), true));
    }

    #[test]
    fn an_object_with_two_homes_counts_once() {
        assert_eq!(peak_of(&SAMPLE_A.replace("M U 2 64 0 1", "M V 2 0 64 1")), 21);
    }

    #[test]
    fn net_changes_past_32_bits() {
        let fifos = |line: &str| format!("{line}\n").repeat(192);
        let sheet = format!("{START}A 0 16777216\nA 0 16777216\n{}", fifos("F 1 0 16777216"));
        let printed = "actor 1: net change 3221225472, 3238002688 bytes live while it runs, 3221225472 after\n\
                       actor 0: net change -3221225472, 3238002688 bytes live while it runs, 0 after\n\
                       peak 3238002688\n";
        assert_eq!(answer(sheet.as_bytes()), (String::from(printed), true));
    }

    /// One working area and all FIFOs live at once.
    #[test]
    fn the_largest_peak() {
        let actors = "A 0 16777216\n".repeat(64);
        let fifos = "D 0 1 16777216\n".repeat(192);
        let sheet = format!("{START}{actors}{fifos}");
        assert_eq!(peak_of(&sheet), 193 * 16_777_216);
        assert_eq!(order(&sheet), (0..64).collect::<Vec<_>>());
    }

    #[test]
    fn sheets_without_space_have_a_lean_order() {
        let tight = SAMPLE_A.replace("U 2 64", "U 2 20");
        assert_eq!(answer(tight.as_bytes()), answer(SAMPLE_A.as_bytes()));
        assert_eq!(answer(b"LGM 1\n"), (String::from("E 4 2 2 - -\n"), false));
    }
}
