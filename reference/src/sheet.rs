//! A sheet and its reading (docs/FORMAT.md, docs/REFUSALS.md).

use crate::fault::{require, Fault};
use crate::order::leads;

pub const HEADER: &[u8] = b"LGM 1";
pub const MOST_BYTES: usize = 65_536;
pub const MOST_CORES: u32 = 8;
pub const MOST_ACTORS: usize = 64;
pub const MOST_FIFOS: usize = 192;
pub const MOST_SIZE: u32 = 16_777_216;
pub const MOST_GRAIN: u32 = 4_096;

#[derive(Clone, Copy, Debug, PartialEq, Eq)]
pub enum Kind {
    U,
    V,
    H,
}

/// What line `M` says.
#[derive(Clone, Debug, PartialEq, Eq)]
pub struct Machine {
    pub kind: Kind,
    pub cores: u32,
    pub shared: u32,
    pub private: u32,
    pub grain: u32,
}

#[derive(Clone, Copy, Debug, PartialEq, Eq)]
pub enum Fit {
    First,
    Best,
}

/// A preference laid over the fit, with its low line or snug limit.
#[derive(Clone, Copy, Debug, PartialEq, Eq)]
pub enum Preference {
    Low(u32),
    Snug(u32),
}

#[derive(Clone, Debug, PartialEq, Eq)]
pub struct Actor {
    pub core: u32,
    /// Bytes of the working area; 0 where there is none.
    pub work: u32,
}

/// A line after the actors.
#[derive(Clone, Copy, Debug, PartialEq, Eq)]
pub enum Link {
    Fifo {
        from: usize,
        to: usize,
        size: u32,
    },
    /// A FIFO with initial tokens.
    Delayed {
        from: usize,
        to: usize,
        size: u32,
    },
    Sequence {
        a: usize,
        b: usize,
    },
}

impl Link {
    /// The pair that this line orders, if it orders any.
    pub fn orders(&self) -> Option<(usize, usize)> {
        match *self {
            Link::Fifo { from, to, .. } => Some((from, to)),
            Link::Sequence { a, b } => Some((a, b)),
            Link::Delayed { .. } => None,
        }
    }

    pub fn is_fifo(&self) -> bool {
        !matches!(self, Link::Sequence { .. })
    }
}

#[derive(Clone, Debug, PartialEq, Eq)]
pub struct Sheet {
    pub machine: Machine,
    pub fit: Fit,
    /// In the order of their lines: the last is the outermost.
    pub preferences: Vec<Preference>,
    pub actors: Vec<Actor>,
    pub links: Vec<Link>,
}

/// One well-written line. Actor and core numbers are not yet looked up.
enum Line {
    Machine(Machine),
    Fit(Fit),
    Preference(Preference),
    Actor(Actor),
    Fifo { from: u32, to: u32, size: u32 },
    Delayed { from: u32, to: u32, size: u32 },
    Sequence { a: u32, b: u32 },
}

/// Reads a sheet, or says why it is refused.
pub fn read(text: &[u8]) -> Result<Sheet, Fault> {
    if text.len() > MOST_BYTES {
        return Err(Fault::too_long());
    }
    let mut pieces: Vec<&[u8]> = text.split(|&b| b == b'\n').collect();
    // What follows the last line end; a line without end if it is not empty.
    let tail = pieces.pop().unwrap_or_default();
    let (header, lines) = match pieces.split_first() {
        Some((&header, lines)) => (header, lines),
        None if tail == HEADER => return Err(Fault::at_line(3, 1)),
        None => return Err(Fault::at_line(2, 1)),
    };
    if header != HEADER {
        return Err(Fault::at_line(2, 1));
    }
    let mut draft = Draft::default();
    for (i, line) in lines.iter().enumerate() {
        let at = i + 2;
        let line = parse(line).ok_or(Fault::at_line(3, at))?;
        draft.take(line).map_err(|number| Fault::at_line(number, at))?;
    }
    let after = lines.len() + 2;
    if !tail.is_empty() {
        return Err(Fault::at_line(3, after));
    }
    draft.finish().ok_or(Fault::at_line(4, after))
}

/// A number as the format writes it.
pub fn number(field: &[u8]) -> Option<u32> {
    let digits = !field.is_empty() && field.iter().all(u8::is_ascii_digit);
    let leading_zero = field.len() > 1 && field[0] == b'0';
    if !digits || leading_zero || field.len() > 10 {
        return None;
    }
    let value = field.iter().fold(0u64, |n, b| n * 10 + u64::from(b - b'0'));
    u32::try_from(value).ok()
}

fn parse(line: &[u8]) -> Option<Line> {
    let fields: Vec<&[u8]> = line.split(|&b| b == b' ').collect();
    Some(match fields[..] {
        [b"M", kind, cores, shared, private, grain] => Line::Machine(Machine {
            kind: match kind {
                b"U" => Kind::U,
                b"V" => Kind::V,
                b"H" => Kind::H,
                _ => return None,
            },
            cores: number(cores)?,
            shared: number(shared)?,
            private: number(private)?,
            grain: number(grain)?,
        }),
        [b"P", b"F"] => Line::Fit(Fit::First),
        [b"P", b"B"] => Line::Fit(Fit::Best),
        [b"L", n] => Line::Preference(Preference::Low(number(n)?)),
        [b"K", n] => Line::Preference(Preference::Snug(number(n)?)),
        [b"A", core, work] => Line::Actor(Actor { core: number(core)?, work: number(work)? }),
        [b"F", from, to, size] => Line::Fifo { from: number(from)?, to: number(to)?, size: number(size)? },
        [b"D", from, to, size] => Line::Delayed { from: number(from)?, to: number(to)?, size: number(size)? },
        [b"S", a, b] => Line::Sequence { a: number(a)?, b: number(b)? },
        _ => return None,
    })
}

/// The part of a sheet that the lines so far have said.
#[derive(Default)]
struct Draft {
    machine: Option<Machine>,
    fit: Option<Fit>,
    preferences: Vec<Preference>,
    actors: Vec<Actor>,
    links: Vec<Link>,
    fifos: usize,
    /// For each actor, those that an `F` or `S` line puts right after it.
    next: Vec<Vec<usize>>,
}

impl Draft {
    /// Takes one line, or says which refusal it meets first.
    fn take(&mut self, line: Line) -> Result<(), u8> {
        require(self.in_turn(&line), 4)?;
        match line {
            Line::Machine(machine) => {
                let grain = machine.grain;
                require((1..=MOST_CORES).contains(&machine.cores), 5)?;
                require((1..=MOST_GRAIN).contains(&grain) && grain.is_power_of_two(), 5)?;
                require(machine.kind != Kind::U || machine.private == 0, 5)?;
                require(machine.kind != Kind::V || machine.shared == 0, 5)?;
                self.machine = Some(machine);
            }
            Line::Fit(fit) => self.fit = Some(fit),
            Line::Preference(preference) => {
                require(preference != Preference::Low(0), 5)?;
                self.preferences.push(preference);
            }
            Line::Actor(actor) => {
                require(actor.work <= MOST_SIZE, 5)?;
                require(self.machine.as_ref().is_some_and(|m| actor.core < m.cores), 6)?;
                require(self.actors.len() < MOST_ACTORS, 7)?;
                self.actors.push(actor);
                self.next.push(Vec::new());
            }
            Line::Fifo { from, to, size } => {
                let (from, to) = self.fifo(from, to, size)?;
                self.ends(from, to, false)?;
                self.links.push(Link::Fifo { from, to, size });
                self.fifos += 1;
            }
            Line::Delayed { from, to, size } => {
                let (from, to) = self.fifo(from, to, size)?;
                self.links.push(Link::Delayed { from, to, size });
                self.fifos += 1;
            }
            Line::Sequence { a, b } => {
                let (a, b) = (self.actor(a)?, self.actor(b)?);
                self.ends(a, b, true)?;
                self.links.push(Link::Sequence { a, b });
            }
        }
        Ok(())
    }

    fn in_turn(&self, line: &Line) -> bool {
        match line {
            Line::Machine(_) => self.machine.is_none(),
            Line::Fit(_) => self.machine.is_some() && self.fit.is_none(),
            Line::Preference(wanted) => {
                let low = |p: &Preference| matches!(p, Preference::Low(_));
                let given = self.preferences.iter().any(|p| low(p) == low(wanted));
                self.fit.is_some() && !given && self.actors.is_empty()
            }
            Line::Actor(_) => self.fit.is_some() && self.links.is_empty(),
            Line::Fifo { .. } | Line::Delayed { .. } | Line::Sequence { .. } => !self.actors.is_empty(),
        }
    }

    fn actor(&self, number: u32) -> Result<usize, u8> {
        let actor = number as usize;
        require(actor < self.actors.len(), 6)?;
        Ok(actor)
    }

    /// Checks of `F` and `D` alike.
    fn fifo(&self, from: u32, to: u32, size: u32) -> Result<(usize, usize), u8> {
        require((1..=MOST_SIZE).contains(&size), 5)?;
        let ends = (self.actor(from)?, self.actor(to)?);
        require(self.fifos < MOST_FIFOS, 7)?;
        Ok(ends)
    }

    /// Checks of `F` and `S` alike; then a is before b.
    fn ends(&mut self, a: usize, b: usize, one_core: bool) -> Result<(), u8> {
        require(a != b, 8)?;
        require(!one_core || self.actors[a].core == self.actors[b].core, 9)?;
        if !self.next[a].contains(&b) {
            require(!leads(&self.next, b, a), 10)?;
            self.next[a].push(b);
        }
        Ok(())
    }

    /// The whole sheet, unless a line is missing.
    fn finish(self) -> Option<Sheet> {
        if self.actors.is_empty() {
            return None;
        }
        Some(Sheet { machine: self.machine?, fit: self.fit?, preferences: self.preferences, actors: self.actors, links: self.links })
    }
}

/// The lines that say the sheet, without line ends.
pub fn spell(sheet: &Sheet) -> Vec<Vec<u8>> {
    let m = &sheet.machine;
    let mut lines = vec![String::from("LGM 1")];
    lines.push(format!("M {:?} {} {} {} {}", m.kind, m.cores, m.shared, m.private, m.grain));
    lines.push(String::from(match sheet.fit {
        Fit::First => "P F",
        Fit::Best => "P B",
    }));
    for preference in &sheet.preferences {
        lines.push(match preference {
            Preference::Low(n) => format!("L {n}"),
            Preference::Snug(n) => format!("K {n}"),
        });
    }
    for actor in &sheet.actors {
        lines.push(format!("A {} {}", actor.core, actor.work));
    }
    for link in &sheet.links {
        lines.push(match link {
            Link::Fifo { from, to, size } => format!("F {from} {to} {size}"),
            Link::Delayed { from, to, size } => format!("D {from} {to} {size}"),
            Link::Sequence { a, b } => format!("S {a} {b}"),
        });
    }
    lines.into_iter().map(String::into_bytes).collect()
}

#[cfg(test)]
mod tests {
    use super::*;

    fn fault(text: &str) -> String {
        read(text.as_bytes()).unwrap_err().to_string()
    }

    /// The fault of a sheet whose lines follow those of a machine with two cores and first fit.
    fn after_fit(lines: &[&str]) -> String {
        fault(&format!("LGM 1\nM U 2 64 0 1\nP F\n{}\n", lines.join("\n")))
    }

    #[test]
    fn headers() {
        for text in ["", "\n", "LGM 2\n", "LGM 01\n", "lgm 1\n", "LGM 1 \n", "LGM 1\r\n", " LGM 1\n", "LGM\n", "LGM 2", "M U 2 64 0 1\n"] {
            assert_eq!(fault(text), "E 2 1 1 - -", "{text:?}");
        }
        assert_eq!(fault("LGM 1"), "E 3 1 1 - -");
        assert_eq!(fault("LGM 1\n"), "E 4 2 2 - -");
        assert_eq!(fault("LGM 1\n\n"), "E 3 1 2 - -");
        assert_eq!(fault("LGM 1\nLGM 1\n"), "E 3 1 2 - -");
    }

    #[test]
    fn badly_written_lines() {
        let long = "9".repeat(30);
        for line in [
            "",
            " ",
            "A",
            "A 0",
            "A 0 4 ",
            " A 0 4",
            "A  0 4",
            "A 0  4",
            "A 0 4 1",
            "A0 4",
            "a 0 4",
            "AA 0 4",
            "X 0 4",
            "A\t0 4",
            "A 0 4\r",
            "A 0 4\0",
            "A 00 4",
            "A 0 04",
            "A 0 +4",
            "A 0 -4",
            "A 0 4x",
            "A 0 4294967296",
            "A 0 10000000000",
            "S 0",
            "S 0 1 2",
            "F 0 1",
            "D 0 1 2 3",
            "K",
            "L",
            "P X",
            "P f",
            "P FB",
            "P",
            "M U 2 64 0",
            "M u 2 64 0 1",
            "M UU 2 64 0 1",
            "M 2 64 0 1",
            "M X 2 64 0 1",
            "LGM 1",
            &format!("A 0 {long}"),
            &format!("S 0 {long}"),
        ] {
            assert_eq!(after_fit(&["A 0 0", line]), "E 3 1 5 - -", "{line:?}");
        }
        assert_eq!(fault("LGM 1\nM U 2 64 0 1\nP F\nA 0 0"), "E 3 1 4 - -");
        assert_eq!(fault("LGM 1\nM U 2 64 0 1\nP F\nM"), "E 3 1 4 - -");
        assert_eq!(fault("LGM 1\nM U 2 64 0 1\nP F\nA 0 0\n\n"), "E 3 1 5 - -");
    }

    #[test]
    fn turn_and_missing_lines() {
        assert_eq!(fault("LGM 1\nP F\n"), "E 4 2 2 - -");
        assert_eq!(fault("LGM 1\nM U 2 64 0 1\n"), "E 4 2 3 - -");
        assert_eq!(fault("LGM 1\nM U 2 64 0 1\nL 1\n"), "E 4 2 3 - -");
        assert_eq!(fault("LGM 1\nM U 2 64 0 1\nP F\n"), "E 4 2 4 - -");
        assert_eq!(fault("LGM 1\nM U 2 64 0 1\nP F\nL 1\nK 0\n"), "E 4 2 6 - -");
        assert_eq!(after_fit(&["S 0 1"]), "E 4 2 4 - -");
        assert_eq!(after_fit(&["M U 9 64 0 1"]), "E 4 2 4 - -");
        assert_eq!(after_fit(&["P B"]), "E 4 2 4 - -");
        assert_eq!(after_fit(&["L 1", "L 0"]), "E 4 2 5 - -");
        assert_eq!(after_fit(&["K 1", "L 1", "K 1"]), "E 4 2 6 - -");
        assert_eq!(after_fit(&["A 0 0", "K 1"]), "E 4 2 5 - -");
        assert_eq!(after_fit(&["A 0 0", "D 0 0 1", "A 0 16777217"]), "E 4 2 6 - -");
        assert_eq!(after_fit(&["A 0 0", "D 0 0 1", "A 0 016777217"]), "E 3 1 6 - -");
    }

    #[test]
    fn ranges() {
        for machine in ["U 0 64 0 1", "U 9 64 0 1", "U 2 64 0 0", "U 2 64 0 3", "U 2 64 0 8192", "U 2 64 1 1", "V 2 1 64 1", "U 0 64 0 3"] {
            assert_eq!(fault(&format!("LGM 1\nM {machine}\nP X\n")), "E 5 2 2 - -", "{machine}");
        }
        assert_eq!(after_fit(&["L 0"]), "E 5 2 4 - -");
        assert_eq!(after_fit(&["A 2 16777217"]), "E 5 2 4 - -");
        assert_eq!(after_fit(&["A 2 16777216"]), "E 6 2 4 - -");
        assert_eq!(after_fit(&["A 0 0", "F 7 7 0"]), "E 5 2 5 - -");
        assert_eq!(after_fit(&["A 0 0", "D 0 0 16777217"]), "E 5 2 5 - -");
        assert_eq!(after_fit(&["A 0 0", "D 0 1 1"]), "E 6 2 5 - -");
        assert_eq!(after_fit(&["A 0 0", "F 1 1 1"]), "E 6 2 5 - -");
        assert_eq!(after_fit(&["A 0 0", "S 4294967295 0"]), "E 6 2 5 - -");
    }

    #[test]
    fn counts() {
        let actors = vec!["A 1 0"; MOST_ACTORS];
        let with = |lines: &[&str]| after_fit(&[&actors[..], lines].concat());
        assert_eq!(with(&["A 1 0"]), "E 7 2 68 - -");
        assert_eq!(with(&["A 2 0"]), "E 6 2 68 - -");
        assert_eq!(with(&["A 2 16777217"]), "E 5 2 68 - -");
        let fifos = ["F 0 1 1", "D 1 0 1"].repeat(MOST_FIFOS / 2);
        let full = |last: &'static str| with(&[&fifos[..], &[last]].concat());
        assert_eq!(full("D 0 0 1"), "E 7 2 260 - -");
        assert_eq!(full("F 0 0 1"), "E 7 2 260 - -");
        assert_eq!(full("F 1 0 1"), "E 7 2 260 - -");
        assert_eq!(full("F 1 64 1"), "E 6 2 260 - -");
        assert_eq!(full("F 1 0 0"), "E 5 2 260 - -");
        assert_eq!(full("S 1 0"), "E 10 2 260 - -");
    }

    #[test]
    fn ends_and_order() {
        let actors = ["A 0 0", "A 0 0", "A 1 0", "A 1 0"];
        let with = |lines: &[&str]| after_fit(&[&actors[..], lines].concat());
        assert_eq!(with(&["F 1 1 1"]), "E 8 2 8 - -");
        assert_eq!(with(&["S 1 1"]), "E 8 2 8 - -");
        assert_eq!(with(&["S 1 2"]), "E 9 2 8 - -");
        assert_eq!(with(&["F 0 2 1", "S 2 0"]), "E 9 2 9 - -");
        assert_eq!(with(&["S 0 1", "S 1 0"]), "E 10 2 9 - -");
        assert_eq!(with(&["S 2 3", "F 1 2 1", "S 0 1", "F 3 0 1"]), "E 10 2 11 - -");
        assert_eq!(with(&["F 0 1 1", "F 0 1 1", "D 1 0 1", "S 0 1", "S 0 1", "D 0 0 1", "X"]), "E 3 1 14 - -");
    }

    #[test]
    fn length_of_the_text() {
        let mut text = b"LGM 1\nM U 2 64 0 1\nP F\nA 0 0\nA 0 0\n".to_vec();
        text.extend(b"D 0 0 1\n");
        while text.len() + 6 <= MOST_BYTES {
            text.extend(b"S 0 1\n");
        }
        text.resize(MOST_BYTES - 1, b'X');
        text.push(b'\n');
        assert_eq!(read(&text).unwrap_err().number, 3);
        text.push(b'\n');
        assert_eq!(read(&text).unwrap_err().to_string(), "E 1 1 - - -");
    }

    #[test]
    fn a_spelled_sheet_reads_back() {
        let text = b"LGM 1\nM H 2 64 32 8\nP B\nK 0\nL 4294967295\nA 0 0\nA 0 9\nA 1 16777216\nF 0 2 5\nD 2 2 1\nS 0 1\n";
        let sheet = read(text).unwrap();
        assert_eq!(sheet.preferences, [Preference::Snug(0), Preference::Low(u32::MAX)]);
        let mut again = spell(&sheet).join(&b'\n');
        again.push(b'\n');
        assert_eq!(again, text);
    }
}
