//! A sheet's objects and which of them exclude each other (docs/RULES.md, 'Objects', 'Exclusion').

use crate::order::Order;
use crate::sheet::{Link, Sheet};

#[derive(Clone, Debug, PartialEq, Eq)]
pub struct Object {
    pub size: u32,
    /// First and last actor; none for a FIFO with initial tokens, which is always live.
    pub life: Option<(usize, usize)>,
    /// The touching cores, ascending, each once.
    pub cores: Vec<u32>,
}

impl Object {
    fn new(sheet: &Sheet, size: u32, ends: (usize, usize), always_live: bool) -> Object {
        let mut cores = vec![sheet.actors[ends.0].core, sheet.actors[ends.1].core];
        cores.sort_unstable();
        cores.dedup();
        Object { size, life: if always_live { None } else { Some(ends) }, cores }
    }
}

/// The objects by number.
pub fn objects(sheet: &Sheet) -> Vec<Object> {
    let mut objects = Vec::new();
    for (i, actor) in sheet.actors.iter().enumerate() {
        if actor.work > 0 {
            objects.push(Object::new(sheet, actor.work, (i, i), false));
        }
    }
    for link in &sheet.links {
        match *link {
            Link::Fifo { from, to, size } => objects.push(Object::new(sheet, size, (from, to), false)),
            Link::Delayed { from, to, size } => objects.push(Object::new(sheet, size, (from, to), true)),
            Link::Sequence { .. } => {}
        }
    }
    objects
}

/// Whether two different objects exclude each other.
pub fn exclude(order: &Order, x: &Object, y: &Object) -> bool {
    match (x.life, y.life) {
        (Some((first_x, last_x)), Some((first_y, last_y))) => !order.before(last_x, first_y) && !order.before(last_y, first_x),
        _ => true,
    }
}

#[cfg(test)]
mod tests {
    use super::*;
    use crate::map::tests::{SAMPLE_A, SAMPLE_B};
    use crate::sheet::read;

    fn excluding(text: &str) -> Vec<(usize, usize)> {
        let sheet = read(text.as_bytes()).unwrap();
        let order = Order::of(&sheet);
        let objects = objects(&sheet);
        let mut pairs = Vec::new();
        for x in 0..objects.len() {
            for y in x + 1..objects.len() {
                assert_eq!(exclude(&order, &objects[x], &objects[y]), exclude(&order, &objects[y], &objects[x]));
                if exclude(&order, &objects[x], &objects[y]) {
                    pairs.push((x, y));
                }
            }
        }
        pairs
    }

    #[test]
    fn sample_a() {
        let mut pairs = vec![(0, 3), (1, 2), (1, 4), (2, 3), (2, 4), (3, 4)];
        assert_eq!(excluding(SAMPLE_A), pairs);
        pairs.extend((0..5).map(|x| (x, 5)));
        pairs.sort_unstable();
        assert_eq!(excluding(&format!("{SAMPLE_A}D 3 0 2\n")), pairs);
    }

    #[test]
    fn sample_b() {
        assert_eq!(excluding(SAMPLE_B), [(0, 1)]);
        assert_eq!(excluding(&format!("{SAMPLE_B}S 0 1\n")), []);
    }
}
