//! A run of a sheet's actors (docs/RULES.md, 'Run').

use crate::fault::{require, Fault};
use crate::objects::Object;
use crate::sheet::Sheet;

#[derive(Clone, Copy, Debug, PartialEq, Eq)]
pub enum Phase {
    Waiting,
    Running,
    Finished,
}

/// What a run is asked to do. Actor numbers are not yet looked up.
#[derive(Clone, Copy, Debug, PartialEq, Eq)]
pub enum Call {
    Start(u32),
    Finish(u32),
    /// The first actor is put before the second.
    Order(u32, u32),
    Round,
}

pub struct Run {
    phases: Vec<Phase>,
    /// For each actor, those that a line of the sheet or an added ordering puts right before it.
    previous: Vec<Vec<usize>>,
}

impl Run {
    pub fn of(sheet: &Sheet) -> Run {
        let count = sheet.actors.len();
        let mut run = Run { phases: vec![Phase::Waiting; count], previous: vec![Vec::new(); count] };
        for (a, b) in sheet.links.iter().filter_map(|link| link.orders()) {
            run.put(a, b);
        }
        run
    }

    /// Grants the call, or refuses it and changes nothing.
    pub fn call(&mut self, call: Call) -> Result<(), Fault> {
        match call {
            Call::Start(a) => self.start(a),
            Call::Finish(a) => self.finish(a),
            Call::Order(a, b) => self.order(a, b),
            Call::Round => self.round(),
        }
        .map_err(Fault::of_call)
    }

    fn start(&mut self, a: u32) -> Result<(), u8> {
        let a = self.actor(a)?;
        require(self.phases[a] == Phase::Waiting, 12)?;
        require(self.is_ready(a), 13)?;
        self.phases[a] = Phase::Running;
        Ok(())
    }

    fn finish(&mut self, a: u32) -> Result<(), u8> {
        let a = self.actor(a)?;
        require(self.phases[a] == Phase::Running, 12)?;
        self.phases[a] = Phase::Finished;
        Ok(())
    }

    fn order(&mut self, a: u32, b: u32) -> Result<(), u8> {
        let (a, b) = (self.actor(a)?, self.actor(b)?);
        require(a != b, 8)?;
        require(!self.ahead(a)[b], 10)?;
        require(self.phases[b] == Phase::Waiting || self.phases[a] == Phase::Finished, 14)?;
        self.put(a, b);
        Ok(())
    }

    fn round(&mut self) -> Result<(), u8> {
        require(self.phases.iter().all(|&phase| phase == Phase::Finished), 15)?;
        self.phases.fill(Phase::Waiting);
        Ok(())
    }

    fn actor(&self, number: u32) -> Result<usize, u8> {
        let actor = number as usize;
        require(actor < self.phases.len(), 6)?;
        Ok(actor)
    }

    fn put(&mut self, a: usize, b: usize) {
        if !self.previous[b].contains(&a) {
            self.previous[b].push(a);
        }
    }

    /// For each actor, whether it is before a: a search from a against the order.
    pub fn ahead(&self, a: usize) -> Vec<bool> {
        let mut found = vec![false; self.previous.len()];
        let mut open = vec![a];
        while let Some(at) = open.pop() {
            for &before in &self.previous[at] {
                if !found[before] {
                    found[before] = true;
                    open.push(before);
                }
            }
        }
        found
    }

    /// Whether all actors before a are finished.
    pub fn is_ready(&self, a: usize) -> bool {
        self.ahead(a).iter().zip(&self.phases).all(|(&ahead, &phase)| !ahead || phase == Phase::Finished)
    }

    pub fn phase(&self, a: usize) -> Phase {
        self.phases[a]
    }

    /// Whether the object is live now.
    pub fn is_live(&self, object: &Object) -> bool {
        match object.life {
            Some((first, last)) => self.phases[first] != Phase::Waiting && self.phases[last] != Phase::Finished,
            None => true,
        }
    }
}

#[cfg(test)]
mod tests {
    use super::*;
    use crate::map::tests::{SAMPLE_A, SAMPLE_B};
    use crate::objects::objects;
    use crate::sheet::read;
    use Call::{Finish, Order, Round, Start};

    fn run(text: &str) -> Run {
        Run::of(&read(text.as_bytes()).unwrap())
    }

    /// The number of the refusal, 0 for a grant.
    fn answers(run: &mut Run, calls: &[Call]) -> Vec<u8> {
        calls.iter().map(|&call| run.call(call).map_or_else(|fault| fault.number, |()| 0)).collect()
    }

    #[test]
    fn an_added_ordering_of_sample_b() {
        let calls = [Order(0, 1), Start(1), Order(1, 0), Start(0), Start(1), Finish(0), Start(1)];
        assert_eq!(answers(&mut run(SAMPLE_B), &calls), [0, 13, 10, 0, 13, 0, 0]);
    }

    #[test]
    fn a_fault_of_a_call_has_layer_4() {
        assert_eq!(run(SAMPLE_B).call(Finish(1)).unwrap_err().to_string(), "E 12 4 - - -");
    }

    #[test]
    fn phases() {
        let run = &mut run(SAMPLE_B);
        assert_eq!(answers(run, &[Finish(0), Start(0), Start(0), Finish(0), Finish(0), Start(0)]), [12, 0, 12, 0, 12, 12]);
        assert_eq!(answers(run, &[Round, Start(1), Round, Finish(1), Round, Start(0)]), [15, 0, 15, 0, 0, 0]);
    }

    #[test]
    fn actors_before_a_start() {
        let calls =
            [Start(2), Start(3), Start(0), Start(1), Finish(0), Start(3), Start(2), Start(1), Start(2), Finish(1), Start(3), Start(2)];
        assert_eq!(answers(&mut run(SAMPLE_A), &calls), [13, 13, 0, 13, 0, 13, 13, 0, 13, 0, 13, 0]);
    }

    #[test]
    fn unknown_actors_come_first() {
        let calls = [Start(2), Finish(4_294_967_295), Order(0, 2), Order(2, 0), Order(2, 2), Order(64, 64)];
        assert_eq!(answers(&mut run(SAMPLE_B), &calls), [6; 6]);
    }

    #[test]
    fn a_late_ordering() {
        let run = &mut run(SAMPLE_B);
        // Late only while the first is unfinished.
        assert_eq!(answers(run, &[Start(1), Order(0, 1), Order(1, 0), Order(1, 1)]), [0, 14, 0, 8]);
        assert_eq!(answers(run, &[Start(0), Finish(1), Start(0), Order(1, 0), Order(0, 1)]), [13, 0, 0, 0, 10]);
    }

    #[test]
    fn an_ordering_behind_a_finished_actor() {
        let run = &mut run(SAMPLE_B);
        assert_eq!(answers(run, &[Start(0), Finish(0), Start(1), Order(0, 1), Finish(1), Round, Start(1)]), [0, 0, 0, 0, 0, 0, 13]);
    }

    #[test]
    fn a_new_round_keeps_added_orderings() {
        let run = &mut run(SAMPLE_B);
        for _ in 0..3 {
            assert_eq!(answers(run, &[Order(1, 0), Start(0), Start(1), Finish(1), Start(0), Finish(0), Round]), [0, 13, 0, 0, 0, 0, 0]);
        }
        assert_eq!(answers(run, &[Order(0, 1)]), [10]);
    }

    #[test]
    fn chains_of_lines_and_added_orderings() {
        // Actors 0 and 1 are on core 0, 2 to 4 on core 1.
        let run = &mut run("LGM 1\nM U 2 64 0 1\nP F\nA 0 0\nA 0 0\nA 1 0\nA 1 0\nA 1 0\nS 0 1\nF 2 3 1\nD 4 0 1\n");
        assert_eq!(answers(run, &[Order(1, 2), Order(3, 0), Order(2, 0), Order(0, 3), Order(3, 4), Order(4, 0)]), [0, 10, 10, 0, 0, 10]);
        assert_eq!(answers(run, &[Start(3), Start(4), Start(2), Start(0), Finish(0), Start(2), Start(1)]), [13, 13, 13, 0, 0, 13, 0]);
    }

    #[test]
    fn a_run_without_actors() {
        let run = &mut Run { phases: Vec::new(), previous: Vec::new() };
        assert_eq!(answers(run, &[Start(0), Finish(0), Order(0, 0), Round]), [6, 6, 6, 0]);
    }

    #[test]
    fn lives() {
        let sheet = read(format!("{SAMPLE_A}D 3 0 2\n").as_bytes()).unwrap();
        let objects = objects(&sheet);
        let run = &mut Run::of(&sheet);
        let mut live = |call| {
            run.call(call).unwrap();
            (0..objects.len()).filter(|&x| run.is_live(&objects[x])).collect::<Vec<_>>()
        };
        assert_eq!(live(Start(0)), [1, 4, 5]);
        assert_eq!(live(Finish(0)), [1, 4, 5]);
        assert_eq!(live(Start(1)), [1, 2, 4, 5]);
        assert_eq!(live(Finish(1)), [2, 4, 5]);
        assert_eq!(live(Start(2)), [2, 3, 4, 5]);
        assert_eq!(live(Finish(2)), [3, 5]);
        assert_eq!(live(Start(3)), [0, 3, 5]);
        assert_eq!(live(Finish(3)), [5]);
        assert_eq!(live(Round), [5]);
    }
}
