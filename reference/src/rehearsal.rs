//! A placed sheet's run, answered call by call (docs/FORMAT.md, 'Rehearsal').

use crate::fault::Fault;
use crate::objects::{objects, Object};
use crate::place::{place, Layout};
use crate::run::{Call, Run};
use crate::sheet::{number, read};
use std::fmt::Write;

pub struct Rehearsal {
    objects: Vec<Object>,
    layout: Layout,
    run: Run,
}

impl Rehearsal {
    pub fn of(text: &[u8]) -> Result<Rehearsal, Fault> {
        let sheet = read(text)?;
        let layout = place(&sheet)?;
        Ok(Rehearsal { objects: objects(&sheet), layout, run: Run::of(&sheet) })
    }

    /// One line for each line of calls, then what is live.
    pub fn play(&mut self, calls: &[u8]) -> String {
        let mut out = String::new();
        for (i, line) in calls.split_inclusive(|&b| b == b'\n').enumerate() {
            let call = parse(line.strip_suffix(b"\n").unwrap_or(line));
            let _ = match call.map(|call| self.run.call(call)) {
                Some(Ok(())) => writeln!(out, "ok"),
                Some(Err(fault)) => writeln!(out, "{fault}"),
                None => writeln!(out, "line {} is no call: start A, finish A, order A B or round", i + 1),
            };
        }
        self.print_live(&mut out);
        out
    }

    /// The homes of the live objects, then how many bytes of each bank's footprint are live.
    fn print_live(&self, out: &mut String) {
        let mut bytes = vec![0u64; self.layout.banks.len()];
        for (x, object) in self.objects.iter().enumerate().filter(|(_, object)| self.run.is_live(object)) {
            for (number, bank) in self.layout.banks.iter().enumerate() {
                for &(_, at) in bank.places.iter().filter(|&&(y, _)| y == x) {
                    let _ = writeln!(out, "object {x} is live in bank {number} at {at}, {} bytes", object.size);
                    bytes[number] += u64::from(object.size);
                }
            }
        }
        for (number, (bank, bytes)) in self.layout.banks.iter().zip(bytes).enumerate() {
            let _ = writeln!(out, "bank {number} has {bytes} of {} bytes live", bank.footprint);
        }
    }
}

/// The call that a line says, without its line end.
pub fn parse(line: &[u8]) -> Option<Call> {
    let fields: Vec<&[u8]> = line.split(|&b| b == b' ').collect();
    Some(match fields[..] {
        [b"start", a] => Call::Start(number(a)?),
        [b"finish", a] => Call::Finish(number(a)?),
        [b"order", a, b] => Call::Order(number(a)?, number(b)?),
        [b"round"] => Call::Round,
        _ => return None,
    })
}

/// The line that says a call, without its line end.
pub fn spell(call: Call) -> String {
    match call {
        Call::Start(a) => format!("start {a}"),
        Call::Finish(a) => format!("finish {a}"),
        Call::Order(a, b) => format!("order {a} {b}"),
        Call::Round => String::from("round"),
    }
}

#[cfg(test)]
mod tests {
    use super::*;
    use crate::map::tests::{SAMPLE_A, SAMPLE_B};

    fn played(text: &str, calls: &str) -> String {
        Rehearsal::of(text.as_bytes()).unwrap().play(calls.as_bytes())
    }

    #[test]
    fn sample_a() {
        assert_eq!(
            played(SAMPLE_A, "start 0\nfinish 0\nstart 2\nstart 1\n"),
            "ok\nok\nE 13 4 - - -\nok\nobject 1 is live in bank 0 at 0, 10 bytes\nobject 2 is live in bank 0 at 10, 6 bytes\n\
             object 4 is live in bank 0 at 16, 5 bytes\nbank 0 has 21 of 21 bytes live\n"
        );
    }

    #[test]
    fn sample_b() {
        assert_eq!(
            played(SAMPLE_B, "order 0 1\nstart 1\norder 1 0\nstart 0"),
            "ok\nE 13 4 - - -\nE 10 4 - - -\nok\nobject 0 is live in bank 0 at 6, 4 bytes\nbank 0 has 4 of 10 bytes live\n"
        );
    }

    #[test]
    fn an_object_with_two_homes() {
        let sheet = SAMPLE_A.replace("M U 2 64 0 1", "M V 3 0 64 1");
        assert_eq!(
            played(&sheet, "start 0\n"),
            "ok\nobject 1 is live in bank 0 at 0, 10 bytes\nobject 4 is live in bank 0 at 16, 5 bytes\n\
             object 4 is live in bank 1 at 14, 5 bytes\nbank 0 has 15 of 21 bytes live\nbank 1 has 5 of 19 bytes live\n\
             bank 2 has 0 of 0 bytes live\n"
        );
    }

    #[test]
    fn no_calls() {
        let none = "bank 0 has 0 of 10 bytes live\n";
        assert_eq!(played(SAMPLE_B, ""), none);
        let answer = |n: usize| format!("line {n} is no call: start A, finish A, order A B or round\n");
        assert_eq!(played(SAMPLE_B, "\n"), format!("{}{none}", answer(1)));
        assert_eq!(played(SAMPLE_B, "\n\nround\n\n "), format!("{}{}E 15 4 - - -\n{}{}{none}", answer(1), answer(2), answer(4), answer(5)));
    }

    #[test]
    fn lines() {
        assert_eq!(parse(b"start 0"), Some(Call::Start(0)));
        assert_eq!(parse(b"finish 4294967295"), Some(Call::Finish(u32::MAX)));
        assert_eq!(parse(b"order 10 2"), Some(Call::Order(10, 2)));
        assert_eq!(parse(b"round"), Some(Call::Round));
        for call in [Call::Start(7), Call::Finish(0), Call::Order(3, u32::MAX), Call::Round] {
            assert_eq!(parse(spell(call).as_bytes()), Some(call));
        }
        let long = format!("start {}", "0".repeat(100_000));
        for line in [
            "",
            " ",
            "start",
            "start ",
            "start  1",
            " start 1",
            "start 1 ",
            "start 1 2",
            "start 01",
            "start +1",
            "start -1",
            "start 1\r",
            "start 1\0",
            "start\t1",
            "start 4294967296",
            "start 18446744073709551616",
            "Start 1",
            "order 1",
            "order 1 2 3",
            "order 1  2",
            "order 1 4294967296",
            "finish",
            "finish x",
            "round 1",
            "round ",
            "rounds",
            "start 1é",
            &long,
        ] {
            assert_eq!(parse(line.as_bytes()), None, "{line:?}");
        }
        assert_eq!(parse(b"start \xff"), None);
    }

    #[test]
    fn refused_sheets_have_no_run() {
        let fault = |text: &str| Rehearsal::of(text.as_bytes()).err().map(|fault| fault.to_string());
        assert_eq!(fault("LGM 2\n").as_deref(), Some("E 2 1 1 - -"));
        assert_eq!(fault(&SAMPLE_A.replace("U 2 64", "U 2 20")).as_deref(), Some("E 11 3 - 4 0"));
        assert_eq!(fault(SAMPLE_A), None);
    }
}
