//! Many sheets in one stream: for each its length in decimal digits, byte 10, and then exactly its bytes.

use crate::map::answer;
use std::io::{self, Write};

/// The sheets of a stream.
pub fn split(mut stream: &[u8]) -> Result<Vec<&[u8]>, String> {
    let mut sheets = Vec::new();
    while !stream.is_empty() {
        let number = sheets.len();
        let end = stream.iter().position(|&b| b == b'\n').ok_or(format!("record {number} has no length"))?;
        let length = std::str::from_utf8(&stream[..end]).ok().and_then(|digits| digits.parse::<usize>().ok());
        let length = length.ok_or(format!("record {number} has no proper length"))?;
        let rest = &stream[end + 1..];
        if length > rest.len() {
            return Err(format!("record {number} ends too early"));
        }
        let (sheet, rest) = rest.split_at(length);
        sheets.push(sheet);
        stream = rest;
    }
    Ok(sheets)
}

/// Adds a sheet to a stream.
pub fn push(out: &mut impl Write, sheet: &[u8]) -> io::Result<()> {
    writeln!(out, "{}", sheet.len())?;
    out.write_all(sheet)
}

/// For each sheet what is printed for it alone, then a line with a single point.
pub fn batch(stream: &[u8], out: &mut impl Write) -> Result<(), String> {
    for sheet in split(stream)? {
        let (text, _) = answer(sheet);
        writeln!(out, "{text}.").map_err(|e| e.to_string())?;
    }
    Ok(())
}

/// One line for each outcome that came, from the output of a batch.
pub fn tally(output: &str, out: &mut impl Write) -> Result<(), String> {
    let mut accepted = 0u64;
    let mut refused = [0u64; 17];
    let mut fresh = true;
    for line in output.lines() {
        if fresh {
            match line.strip_prefix("E ").and_then(|rest| rest.split(' ').next()) {
                None if line == "LGM 1" => accepted += 1,
                None => return Err(format!("no outcome: {line}")),
                Some(number) => match number.parse::<usize>() {
                    Ok(number @ 1..=16) => refused[number] += 1,
                    _ => return Err(format!("no refusal: {line}")),
                },
            }
        }
        fresh = line == ".";
    }
    let mut report = format!("accepted {accepted}\n");
    for (number, count) in refused.iter().enumerate().filter(|(_, &count)| count > 0) {
        report.push_str(&format!("refusal {number} {count}\n"));
    }
    out.write_all(report.as_bytes()).map_err(|e| e.to_string())
}

#[cfg(test)]
mod tests {
    use super::*;

    #[test]
    fn sheets_come_back() {
        let sheets: [&[u8]; 4] = [b"", b"LGM 1\n", b"\n\n3\n", b"12"];
        let mut stream = Vec::new();
        for sheet in sheets {
            push(&mut stream, sheet).unwrap();
        }
        assert_eq!(split(&stream).unwrap(), sheets);
        assert!(split(b"4\nabc").is_err());
        assert!(split(b"x\nabc").is_err());
        assert!(split(b"4").is_err());
    }

    #[test]
    fn outcomes_are_counted() {
        let mut stream = Vec::new();
        for sheet in ["", "LGM 1\n", "LGM 1\nM U 1 0 0 1\nP F\nA 0 0\n", "LGM 2\n"] {
            push(&mut stream, sheet.as_bytes()).unwrap();
        }
        let (mut output, mut counts) = (Vec::new(), Vec::new());
        batch(&stream, &mut output).unwrap();
        let output = String::from_utf8(output).unwrap();
        assert_eq!(output, "E 2 1 1 - -\n.\nE 4 2 2 - -\n.\nLGM 1\nB 0 0 0\n.\nE 2 1 1 - -\n.\n");
        tally(&output, &mut counts).unwrap();
        assert_eq!(String::from_utf8(counts).unwrap(), "accepted 1\nrefusal 2 2\nrefusal 4 1\n");
    }
}
