//! Why a sheet or a call of a run is refused (docs/REFUSALS.md).

use std::fmt;

/// The parts of a sheet's handling that can refuse.
#[derive(Clone, Copy, Debug, PartialEq, Eq)]
pub enum Layer {
    Text = 1,
    Graph = 2,
    Placing = 3,
    Run = 4,
}

/// A refusal: its number, its layer, and what else stands.
#[derive(Clone, Debug, PartialEq, Eq)]
pub struct Fault {
    pub number: u8,
    pub layer: Layer,
    pub line: Option<usize>,
    pub object: Option<usize>,
    pub bank: Option<usize>,
}

impl Fault {
    /// The text as a whole is refused.
    pub fn too_long() -> Fault {
        Fault { number: 1, layer: Layer::Text, line: None, object: None, bank: None }
    }

    /// A line of the sheet is refused, or is missing there.
    pub fn at_line(number: u8, line: usize) -> Fault {
        let layer = if number <= 3 { Layer::Text } else { Layer::Graph };
        Fault { number, layer, line: Some(line), object: None, bank: None }
    }

    /// No gap of the bank holds the object.
    pub fn no_gap(object: usize, bank: usize) -> Fault {
        Fault { number: 11, layer: Layer::Placing, line: None, object: Some(object), bank: Some(bank) }
    }

    /// A call of a run is refused.
    pub fn of_call(number: u8) -> Fault {
        Fault { number, layer: Layer::Run, line: None, object: None, bank: None }
    }
}

/// The refusal with this number, unless what it guards is kept.
pub fn require(kept: bool, number: u8) -> Result<(), u8> {
    if kept {
        Ok(())
    } else {
        Err(number)
    }
}

/// The fault line, without its line end.
impl fmt::Display for Fault {
    fn fmt(&self, f: &mut fmt::Formatter<'_>) -> fmt::Result {
        write!(f, "E {} {}", self.number, self.layer as u8)?;
        for field in [self.line, self.object, self.bank] {
            match field {
                Some(n) => write!(f, " {n}")?,
                None => write!(f, " -")?,
            }
        }
        Ok(())
    }
}
