//! An independent buffer planner in plain Rust: what the planner prints, and how fast, is compared with it.
//! The rules are in docs/FORMAT.md, docs/RULES.md and docs/REFUSALS.md.

mod fabric;
mod fault;
mod fit;
mod generate;
mod lean;
mod map;
mod objects;
mod order;
mod place;
mod rehearsal;
mod run;
mod sheet;
mod stream;

use rehearsal::Rehearsal;
use std::fs;
use std::io::{self, BufWriter, Read, Write};
use std::path::Path;
use std::process::ExitCode;

const USAGE: &str = "usage: reference map            a sheet from standard input: its map or fault line
       reference batch          a stream of sheets: what map prints for each, then a line with a point
       reference generate SEED COUNT   a stream of sheets
       reference sized SIZE TIMES      a stream of the sheets of a size (small, medium, maximal), so many times over
       reference pick INDEX     one sheet of a stream, counted from 0
       reference tally          counts of the outcomes in the output of batch
       reference run SHEET      a sheet from a file and calls from standard input: an answer for each, and what is live, or the fault line
       reference lean SHEET     a sheet from a file: its lean order and peak, or the fault line
       reference rehearse SEED COUNT FOLDER   for each rehearsal its sheet, its calls, and what run and lean print";

fn main() -> ExitCode {
    let words: Vec<String> = std::env::args().skip(1).collect();
    let words: Vec<&str> = words.iter().map(String::as_str).collect();
    match run(&words) {
        Ok(accepted) => ExitCode::from(if accepted { 0 } else { 1 }),
        Err(message) => {
            eprintln!("{message}");
            ExitCode::from(2)
        }
    }
}

/// Whether what was asked for is accepted; only `map`, `run` and `lean` can say no.
fn run(words: &[&str]) -> Result<bool, String> {
    let mut out = BufWriter::new(io::stdout().lock());
    let mut accepted = true;
    match words {
        ["map"] => {
            let (text, yes) = map::answer(&input()?);
            accepted = yes;
            out.write_all(text.as_bytes()).map_err(|e| e.to_string())?;
        }
        ["batch"] => stream::batch(&input()?, &mut out)?,
        ["generate", seed, count] => {
            let (seed, count) = (parse(seed)?, parse(count)?);
            for index in 0..count {
                stream::push(&mut out, &generate::text(seed, index)).map_err(|e| e.to_string())?;
            }
        }
        ["sized", size, times] => {
            let texts = generate::sized(size).ok_or(format!("not a size: {size}"))?;
            for _ in 0..parse(times)? {
                for text in &texts {
                    stream::push(&mut out, text).map_err(|e| e.to_string())?;
                }
            }
        }
        ["pick", index] => {
            let stream = input()?;
            let sheets = stream::split(&stream)?;
            let sheet = sheets.get(parse(index)? as usize).ok_or("the stream has no such sheet")?;
            out.write_all(sheet).map_err(|e| e.to_string())?;
        }
        ["tally"] => stream::tally(&String::from_utf8(input()?).map_err(|e| e.to_string())?, &mut out)?,
        ["run", sheet] => {
            let (text, yes) = played(&file(sheet)?, input)?;
            accepted = yes;
            out.write_all(text.as_bytes()).map_err(|e| e.to_string())?;
        }
        ["lean", sheet] => {
            let (text, yes) = lean::answer(&file(sheet)?);
            accepted = yes;
            out.write_all(text.as_bytes()).map_err(|e| e.to_string())?;
        }
        ["rehearse", seed, count, folder] => rehearse(parse(seed)?, parse(count)?, Path::new(folder))?,
        _ => return Err(String::from(USAGE)),
    }
    out.flush().map_err(|e| e.to_string())?;
    Ok(accepted)
}

/// The answers to calls, or the fault line, before any call is read; and whether the sheet is accepted.
fn played(sheet: &[u8], calls: impl FnOnce() -> Result<Vec<u8>, String>) -> Result<(String, bool), String> {
    match Rehearsal::of(sheet) {
        Ok(mut rehearsal) => Ok((rehearsal.play(&calls()?), true)),
        Err(fault) => Ok((format!("{fault}\n"), false)),
    }
}

/// Writes rehearsals from 0 on: I.sheet, I.calls, and what is printed for them as I.run and I.lean. In `runs` and `leans` stand
/// those outputs one after another, each with a line that has its status.
fn rehearse(seed: u64, count: u64, folder: &Path) -> Result<(), String> {
    let write = |name: &str, text: &[u8]| fs::write(folder.join(name), text).map_err(|e| format!("{name}: {e}"));
    fs::create_dir_all(folder).map_err(|e| e.to_string())?;
    let (mut runs, mut leans) = (String::new(), String::new());
    for index in 0..count {
        let (sheet, calls) = generate::rehearsal(seed, index);
        write(&format!("{index}.sheet"), &sheet)?;
        write(&format!("{index}.calls"), &calls)?;
        let run = played(&sheet, || Ok(calls))?;
        let lean = lean::answer(&sheet);
        for (name, all, (text, accepted)) in [("run", &mut runs, run), ("lean", &mut leans, lean)] {
            write(&format!("{index}.{name}"), text.as_bytes())?;
            all.push_str(&format!("{text}rehearsal {index} ended with status {}\n", u8::from(!accepted)));
        }
    }
    write("runs", runs.as_bytes())?;
    write("leans", leans.as_bytes())
}

fn file(name: &str) -> Result<Vec<u8>, String> {
    fs::read(name).map_err(|e| format!("{name}: {e}"))
}

fn input() -> Result<Vec<u8>, String> {
    let mut bytes = Vec::new();
    io::stdin().lock().read_to_end(&mut bytes).map_err(|e| e.to_string())?;
    Ok(bytes)
}

fn parse(word: &str) -> Result<u64, String> {
    word.parse().map_err(|_| format!("not a number: {word}"))
}
