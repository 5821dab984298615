//! Sheets of a given size, to measure by. All of them are accepted.

use super::random::Random;
use crate::sheet::{Actor, Fit, Kind, Link, Machine, Preference, Sheet, MOST_ACTORS, MOST_CORES, MOST_FIFOS};

/// How many different sheets there are of each size: every kind with every fit, every choice of layers, and with or
/// without `S` lines.
pub const DIFFERENT: u64 = 60;

#[derive(Clone, Copy)]
pub struct Size {
    cores: u32,
    actors: usize,
    fifos: usize,
}

impl Size {
    pub fn named(name: &str) -> Option<Size> {
        match name {
            "small" => Some(Size { cores: 2, actors: 4, fifos: 6 }),
            "medium" => Some(Size { cores: 4, actors: 20, fifos: 50 }),
            "maximal" => Some(Size { cores: MOST_CORES, actors: MOST_ACTORS, fifos: MOST_FIFOS }),
            _ => None,
        }
    }
}

/// The sheet with this index. Every actor has a working area, and every bank has space for all.
pub fn sheet(size: Size, index: u64) -> Sheet {
    let random = &mut Random::new(size.actors as u64, index);
    let kind = [Kind::U, Kind::V, Kind::H][(index % 3) as usize];
    let shared = if kind == Kind::V { 0 } else { u32::MAX };
    let private = if kind == Kind::U { 0 } else { u32::MAX };
    let (low, snug) = (Preference::Low(random.scaled(64, 65_536) as u32), Preference::Snug(random.from(0, 64) as u32));
    let mut sheet = Sheet {
        machine: Machine { kind, cores: size.cores, shared, private, grain: random.pick(&[1, 4, 16, 64]) },
        fit: [Fit::First, Fit::Best][(index / 3 % 2) as usize],
        preferences: [vec![], vec![low], vec![snug], vec![low, snug], vec![snug, low]][(index / 6 % 5) as usize].clone(),
        actors: Vec::new(),
        links: Vec::new(),
    };
    for a in 0..size.actors {
        let core = (a * size.cores as usize / size.actors) as u32;
        sheet.actors.push(Actor { core, work: object(random) });
    }
    for i in 0..size.fifos {
        let from = i % (size.actors - 1);
        let to = random.from(from as u64 + 1, (from as u64 + 12).min(size.actors as u64 - 1)) as usize;
        let size = object(random);
        // One in ten goes back, with initial tokens.
        sheet.links.push(if i % 10 == 9 { Link::Delayed { from: to, to: from, size } } else { Link::Fifo { from, to, size } });
    }
    if index / 30 % 2 == 1 {
        // The actors of each core in a row.
        for b in (1..size.actors).filter(|&b| sheet.actors[b - 1].core == sheet.actors[b].core) {
            sheet.links.push(Link::Sequence { a: b - 1, b });
        }
    }
    random.shuffle(&mut sheet.links);
    sheet
}

/// The bytes of an object.
fn object(random: &mut Random) -> u32 {
    random.scaled(1, 65_536) as u32
}

#[cfg(test)]
mod tests {
    use super::*;
    use crate::place::place;
    use crate::sheet::{read, spell};
    use std::collections::HashSet;

    #[test]
    fn all_are_accepted_and_different() {
        for name in ["small", "medium", "maximal"] {
            let size = Size::named(name).unwrap();
            let mut texts = HashSet::new();
            for index in 0..DIFFERENT {
                let text = super::super::join(&spell(&sheet(size, index)));
                let read = read(&text).unwrap();
                assert_eq!(read.actors.len(), size.actors);
                assert_eq!(read.links.iter().filter(|link| link.is_fifo()).count(), size.fifos);
                assert!(place(&read).is_ok());
                texts.insert(text);
            }
            assert_eq!(texts.len() as u64, DIFFERENT);
        }
        assert!(Size::named("").is_none());
    }
}
