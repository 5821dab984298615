//! Damage to a sheet's lines or bytes, aimed at a refusal each. Other lines may then be refused first.

use super::random::Random;
use crate::sheet::{Kind, Link, Sheet, MOST_ACTORS, MOST_FIFOS, MOST_SIZE};

/// Lines without line ends; the first is the header.
pub type Lines = Vec<Vec<u8>>;

pub type Damage = fn(&mut Random, &Sheet, &mut Lines);

/// Damage to one line, by the refusal it is aimed at.
pub const DAMAGES: [Damage; 8] = [badly_written, out_of_turn, off_range, unknown, too_many, equal_ends, across_cores, leads_back];

/// What a sheet needs so that every damage can be done to it.
pub fn can_be_damaged(sheet: &Sheet) -> bool {
    let crossing = sheet.actors.iter().any(|actor| actor.core != sheet.actors[0].core);
    crossing && sheet.links.iter().any(|link| link.orders().is_some())
}

/// The numbers of the lines that open with one of these letters.
fn lines_of(lines: &Lines, letters: &[u8]) -> Vec<usize> {
    (1..lines.len()).filter(|&i| lines[i].first().is_some_and(|letter| letters.contains(letter))).collect()
}

fn fields(line: &[u8]) -> Vec<Vec<u8>> {
    line.split(|&b| b == b' ').map(<[u8]>::to_vec).collect()
}

/// Gives a field another value; field 0 is the letter.
fn set(line: &mut Vec<u8>, field: usize, value: impl ToString) {
    let mut fields = fields(line);
    if let Some(old) = fields.get_mut(field) {
        *old = value.to_string().into_bytes();
    }
    *line = fields.join(&b' ');
}

/// Puts a line behind the actors, anywhere among the links or at the end.
fn insert_link(random: &mut Random, lines: &mut Lines, line: String) {
    let first = lines_of(lines, b"A").last().map_or(lines.len(), |&i| i + 1);
    let at = if random.percent(40) { lines.len() } else { random.from(first as u64, lines.len() as u64) as usize };
    lines.insert(at, line.into_bytes());
}

fn actor(random: &mut Random, sheet: &Sheet) -> usize {
    random.below(sheet.actors.len())
}

/// Two actors of different cores, or 0 twice where there are none.
fn crossing(random: &mut Random, sheet: &Sheet) -> (usize, usize) {
    let a = actor(random, sheet);
    let others: Vec<usize> = (0..sheet.actors.len()).filter(|&b| sheet.actors[b].core != sheet.actors[a].core).collect();
    if others.is_empty() {
        (0, 0)
    } else {
        (a, random.pick(&others))
    }
}

/// The end and the start of a chain of one or more ordering links.
fn back(random: &mut Random, sheet: &Sheet) -> (usize, usize) {
    let pairs: Vec<(usize, usize)> = sheet.links.iter().filter_map(Link::orders).collect();
    if pairs.is_empty() {
        return (0, 0);
    }
    let (start, mut end) = random.pick(&pairs);
    for _ in 0..random.pick(&[0, 1, 2, 4, 64]) {
        let on: Vec<usize> = pairs.iter().filter(|&&(a, _)| a == end).map(|&(_, b)| b).collect();
        if on.is_empty() {
            break;
        }
        end = random.pick(&on);
    }
    (end, start)
}

fn bad_number(random: &mut Random, number: &[u8]) -> Vec<u8> {
    let number = String::from_utf8_lossy(number);
    // Too large by a whole turn of 32, 64 or 96 bits: sums that wrap around would take it for the number itself.
    let turn = 1u128 << random.pick(&[32, 64, 96]);
    let wrapped = number.parse::<u128>().map_or(turn, |n| n.saturating_add(turn));
    let bad = match random.from(0, 19) {
        0 | 1 => format!("0{number}"),
        2 => String::from("00"),
        3 => format!("+{number}"),
        4 => format!("-{number}"),
        5 => String::new(),
        6 => format!("{number}x"),
        7 => String::from("4294967296"),
        8..=13 => wrapped.to_string(),
        14 => random.pick(&["4294967300", "9999999999", "10000000000"]).to_string(),
        15 => "9".repeat(30),
        16 => format!("{}1", "0".repeat(29)),
        17 => format!("{number}.0"),
        18 => format!("0x{number}"),
        _ => String::from("a"),
    };
    bad.into_bytes()
}

/// Aimed at 3.
pub fn badly_written(random: &mut Random, _: &Sheet, lines: &mut Lines) {
    if lines.len() < 2 {
        lines.push(Vec::new());
        return;
    }
    let at = random.from(1, lines.len() as u64 - 1) as usize;
    let mut parts = fields(&lines[at]);
    match random.from(0, 18) {
        0 => parts[0] = random.pick(&["X", "a", "m", "AA", "", "1", "E", "B", "O", "LGM"]).as_bytes().to_vec(),
        1 => {
            parts.pop();
        }
        2 => {
            parts.remove(random.below(parts.len()));
        }
        3 => parts.push(random.pick(&["0", "x", "", "7"]).as_bytes().to_vec()),
        4..=9 => {
            let field = random.below(parts.len()).max(1) % parts.len();
            parts[field] = bad_number(random, &parts[field].clone());
        }
        10 => {
            // No space between the first two fields.
            let tail = if parts.len() > 1 { parts.remove(1) } else { Vec::new() };
            parts[0].extend(tail);
        }
        11 => {
            let field = random.below(parts.len() + 1);
            parts.insert(field, Vec::new());
        }
        12 => {
            lines[at] = parts.join(&b'\t');
            return;
        }
        13 => {
            let end = random.pick(b"\r\0 \t\x0b\xff");
            lines[at].push(end);
            return;
        }
        14 => {
            lines.insert(at, Vec::new());
            return;
        }
        15 => {
            lines.insert(at, b"LGM 1".to_vec());
            return;
        }
        16 => {
            if let Some(&machine) = lines_of(lines, b"M").first() {
                set(&mut lines[machine], 1, random.pick(&["u", "UU", "X", "", "0", "S", "HV"]));
            }
            return;
        }
        17 => {
            if let Some(&fit) = lines_of(lines, b"P").first() {
                set(&mut lines[fit], 1, random.pick(&["f", "FB", "X", "", "1", "BF", "W"]));
            }
            return;
        }
        _ => {
            lines[at].make_ascii_lowercase();
            return;
        }
    }
    lines[at] = parts.join(&b' ');
}

/// Aimed at 4.
pub fn out_of_turn(random: &mut Random, sheet: &Sheet, lines: &mut Lines) {
    let remove = |lines: &mut Lines, letter: &[u8]| lines_of(lines, letter).first().map(|&i| lines.remove(i));
    let first = |lines: &Lines, letters: &[u8]| lines_of(lines, letters).first().copied().unwrap_or(lines.len());
    match random.from(0, 13) {
        0 => {
            remove(lines, b"M");
        }
        1 => {
            remove(lines, b"P");
        }
        2 => {
            let keep = random.from(1, 3) as usize;
            lines.truncate(keep);
        }
        3 => {
            let end = first(lines, b"A");
            lines.truncate(end);
        }
        4 => lines.retain(|line| line.first() != Some(&b'A')),
        5 => {
            // A line twice; harmless for some.
            let at = random.from(1, lines.len().max(2) as u64 - 1) as usize;
            if let Some(line) = lines.get(at).cloned() {
                lines.insert(at, line);
            }
        }
        6 => {
            let letter = random.pick(&[b"M", b"P", b"A"]);
            if let Some(line) = remove(lines, letter) {
                let at = random.from(1, lines.len() as u64) as usize;
                lines.insert(at, line);
            }
        }
        7 => {
            let at = first(lines, b"P");
            lines.insert(at, random.pick(&["L 1", "K 0", "A 0 0", "S 0 1", "D 0 0 1"]).into());
        }
        8 => {
            let at = first(lines, b"A");
            lines.insert(at, random.pick(&["F 0 1 1", "S 0 1", "D 0 0 1", "M U 1 1 0 1", "P F", "P B"]).into());
        }
        9 => {
            let at = (first(lines, b"A") + 1).min(lines.len());
            lines.insert(at, random.pick(&["L 1", "K 0", "L 4294967295", "M V 1 0 1 1", "P B"]).into());
        }
        10 => {
            let at = first(lines, b"A");
            let letter = random.pick(&["L", "K"]);
            lines.insert(at, format!("{letter} 5").into_bytes());
            lines.insert(at, format!("{letter} 7").into_bytes());
        }
        11 => {
            insert_link(random, lines, String::from("D 0 0 1"));
            let core = random.from(0, u64::from(sheet.machine.cores) - 1);
            lines.push(format!("A {core} 0").into_bytes());
        }
        12 => {
            let line = random.pick(&["M U 1 1 0 1", "P F", "L 9", "K 9", "A 0 0"]);
            insert_link(random, lines, String::from(line));
        }
        _ => {
            let i = random.from(1, lines.len().max(2) as u64 - 1) as usize;
            if i + 1 < lines.len() {
                lines.swap(i, i + 1);
            }
        }
    }
}

/// Aimed at 5.
pub fn off_range(random: &mut Random, sheet: &Sheet, lines: &mut Lines) {
    let machine = lines_of(lines, b"M").first().copied();
    match random.from(0, 7) {
        0..=1 => {
            if let Some(at) = machine {
                set(&mut lines[at], 2, random.pick(&[0, 9, 10, u32::MAX]));
            }
        }
        2..=3 => {
            if let Some(at) = machine {
                set(&mut lines[at], 5, random.pick(&[0, 3, 6, 1_000, 4_095, 4_097, 8_192, 1 << 31, u32::MAX]));
            }
        }
        4 => {
            if let Some(at) = machine {
                let capacity = random.pick(&[1, 64, u32::MAX]);
                match sheet.machine.kind {
                    Kind::U => set(&mut lines[at], 4, capacity),
                    Kind::V => set(&mut lines[at], 3, capacity),
                    // Both are proper here.
                    Kind::H => set(&mut lines[at], 1, random.pick(&["U", "V"])),
                }
            }
        }
        5 => {
            let low = lines_of(lines, b"L").first().copied();
            match (low, lines_of(lines, b"A").first()) {
                (Some(at), _) => set(&mut lines[at], 1, 0),
                (None, Some(&at)) => lines.insert(at, b"L 0".to_vec()),
                _ => {}
            }
        }
        6 => {
            let actors = lines_of(lines, b"A");
            if !actors.is_empty() {
                set(&mut lines[random.pick(&actors)], 2, random.pick(&[MOST_SIZE + 1, u32::MAX]));
            }
        }
        _ => {
            let size = random.pick(&[0, MOST_SIZE + 1, u32::MAX]);
            let letter = random.pick(&["F", "D"]);
            let (a, b) = (actor(random, sheet), actor(random, sheet));
            insert_link(random, lines, format!("{letter} {a} {b} {size}"));
        }
    }
}

/// A number that no actor or core has where there are n of them.
fn beyond(random: &mut Random, n: usize) -> usize {
    random.pick(&[n, n, n + 1, n + 64, u32::MAX as usize])
}

/// Aimed at 6.
pub fn unknown(random: &mut Random, sheet: &Sheet, lines: &mut Lines) {
    let stranger = beyond(random, sheet.actors.len());
    let known = actor(random, sheet);
    let (a, b) = if random.percent(50) { (stranger, known) } else { (known, stranger) };
    match random.from(0, 3) {
        0 => {
            let actors = lines_of(lines, b"A");
            if !actors.is_empty() {
                let core = beyond(random, sheet.machine.cores as usize);
                set(&mut lines[random.pick(&actors)], 1, core);
            }
        }
        1 => insert_link(random, lines, format!("S {a} {b}")),
        2 => insert_link(random, lines, format!("F {a} {b} 1")),
        _ => insert_link(random, lines, format!("D {a} {b} 1")),
    }
}

/// Adds actors or FIFOs up to a count.
pub fn fill(random: &mut Random, sheet: &Sheet, lines: &mut Lines, letter: u8, count: usize) {
    if letter == b'A' {
        while lines_of(lines, b"A").len() < count {
            let at = lines_of(lines, b"A").last().map_or(lines.len(), |&i| i + 1);
            let core = random.from(0, u64::from(sheet.machine.cores) - 1);
            let work = random.pick(&[0, 0, 0, 1]);
            lines.insert(at, format!("A {core} {work}").into_bytes());
        }
        return;
    }
    let fifos: Vec<Vec<u8>> = lines_of(lines, b"F").into_iter().map(|i| lines[i].clone()).collect();
    let mut missing = count.saturating_sub(lines_of(lines, b"FD").len());
    while missing > 0 {
        if !fifos.is_empty() && random.percent(50) {
            let again = String::from_utf8_lossy(&fifos[random.below(fifos.len())]).into_owned();
            insert_link(random, lines, again);
        } else {
            let (from, to) = (actor(random, sheet), actor(random, sheet));
            insert_link(random, lines, format!("D {from} {to} 1"));
        }
        missing -= 1;
    }
}

/// Aimed at 7.
pub fn too_many(random: &mut Random, sheet: &Sheet, lines: &mut Lines) {
    if random.percent(50) {
        fill(random, sheet, lines, b'A', MOST_ACTORS + 1);
    } else {
        fill(random, sheet, lines, b'F', MOST_FIFOS + 1);
    }
}

/// Aimed at 8.
pub fn equal_ends(random: &mut Random, sheet: &Sheet, lines: &mut Lines) {
    let a = actor(random, sheet);
    let line = if random.percent(50) { format!("S {a} {a}") } else { format!("F {a} {a} 1") };
    insert_link(random, lines, line);
}

/// Aimed at 9.
pub fn across_cores(random: &mut Random, sheet: &Sheet, lines: &mut Lines) {
    let (a, b) = crossing(random, sheet);
    insert_link(random, lines, format!("S {a} {b}"));
}

/// Aimed at 10: a link back along a chain, which may come before some of the chain's own lines.
pub fn leads_back(random: &mut Random, sheet: &Sheet, lines: &mut Lines) {
    let (a, b) = back(random, sheet);
    let one_core = sheet.actors[a].core == sheet.actors[b].core;
    let line = if one_core && random.percent(60) { format!("S {a} {b}") } else { format!("F {a} {b} 1") };
    insert_link(random, lines, line);
}

/// Two faults on one line: the order of checks decides.
pub fn two_on_one_line(random: &mut Random, sheet: &Sheet, lines: &mut Lines) {
    let actors = sheet.actors.len();
    let stranger = beyond(random, actors);
    let no_core = beyond(random, sheet.machine.cores as usize);
    let too_large = random.pick(&[MOST_SIZE + 1, u32::MAX]);
    let size = random.pick(&[0, too_large]);
    let a = actor(random, sheet);
    let (end, start) = back(random, sheet);
    match random.from(0, 19) {
        0..=1 => {
            let all = lines_of(lines, b"A");
            lines[random.pick(&all)] = format!("A {no_core} {too_large}").into_bytes();
        }
        2..=3 => {
            fill(random, sheet, lines, b'A', MOST_ACTORS);
            let at = lines_of(lines, b"A").last().map_or(lines.len(), |&i| i + 1);
            let line = random
                .pick(&[format!("A {no_core} 0").as_str(), &format!("A 0 {too_large}"), &format!("A {no_core} {too_large}")])
                .to_string();
            lines.insert(at, line.into_bytes());
        }
        4 => {
            insert_link(random, lines, format!("D {a} {a} 1"));
            let line = random.pick(&[format!("A 0 {too_large}").as_str(), &format!("A {no_core} 0"), "A 0 00", "A 0"]).to_string();
            lines.push(line.into_bytes());
        }
        5 => insert_link(random, lines, format!("F {stranger} {a} {size}")),
        6 => insert_link(random, lines, format!("D {a} {stranger} {size}")),
        7 => insert_link(random, lines, format!("F {stranger} {stranger} 1")),
        8 => insert_link(random, lines, format!("F {a} {a} {size}")),
        9 => insert_link(random, lines, format!("F {end} {start} {size}")),
        10 => insert_link(random, lines, format!("S {stranger} {stranger}")),
        11..=13 => {
            fill(random, sheet, lines, b'F', MOST_FIFOS);
            let choices = [
                format!("F {a} {a} 1"),
                format!("F {end} {start} 1"),
                format!("F {a} {stranger} 1"),
                format!("D {a} {a} {size}"),
                format!("F {a} {a} {size}"),
            ];
            let line = choices[random.below(choices.len())].clone();
            lines.push(line.into_bytes());
        }
        14..=15 => {
            // An `S` across cores that also leads back.
            let pairs: Vec<(usize, usize)> = sheet.links.iter().filter_map(Link::orders).collect();
            let crossing: Vec<(usize, usize)> = pairs.into_iter().filter(|&(a, b)| sheet.actors[a].core != sheet.actors[b].core).collect();
            let (a, b) = if crossing.is_empty() { (a, a) } else { random.pick(&crossing) };
            insert_link(random, lines, format!("S {b} {a}"));
        }
        16 => {
            let line = random.pick(&["M U 9 1 0 1", "M U 1 1 0 3", "M X 9 1 0 1", "M U 9 01 0 1", "P X", "L 0", "K 00", "L 00"]);
            insert_link(random, lines, String::from(line));
        }
        17 => {
            let line = random.pick(&["M U 0 1 0 3", "M U 9 1 1 0", "M V 9 1 1 1", "M X 0 1 0 1", "M U 0 4294967296 0 1", "M U 9 1 0"]);
            lines[1] = line.into();
        }
        18 => {
            let at = random.from(1, lines.len() as u64) as usize;
            lines.insert(at, random.pick(&["L 0", "L 00", "L", "M W 0 0 0 0", "A 9 99999999", "S 9 9 9", "F 0 0 0"]).into());
        }
        _ => insert_link(random, lines, format!("S {a} {a} ")),
    }
}

/// Aimed at 2.
pub fn header(random: &mut Random, text: &mut Vec<u8>) {
    let headers: [&[u8]; 20] = [
        b"LGM 2\n",
        b"LGM 0\n",
        b"LGM 01\n",
        b"LGM  1\n",
        b"LGM 1 \n",
        b" LGM 1\n",
        b"LGM 1\r\n",
        b"lgm 1\n",
        b"LGM1\n",
        b"LGM\n",
        b"LGM \n",
        b"LG\n",
        b"\n",
        b"LGM\t1\n",
        b"LGN 1\n",
        b"LGM 11\n",
        b"\0LGM 1\n",
        b"\xef\xbb\xbfLGM 1\n",
        b"LGM 1",
        b"",
    ];
    let rest = text.split_off(text.len().min(6));
    match random.from(0, 9) {
        0 => *text = Vec::new(),
        1 => *text = b"LGM 1".to_vec(),
        2 => {
            // Only a part of the header.
            text.truncate(random.below(5));
        }
        3 => *text = random.pick(&headers)[..].to_vec(),
        _ => {
            *text = random.pick(&headers)[..].to_vec();
            text.extend(rest);
        }
    }
}

/// Changes to single bytes, or to all line ends.
pub fn bytes(random: &mut Random, text: &mut Vec<u8>) {
    for _ in 0..random.pick(&[1, 1, 1, 2, 3]) {
        if text.is_empty() {
            return;
        }
        let at = random.below(text.len());
        let strange = random.pick(b"0123456789 \n\r\t\0\xffAFDSMPLKUVHB-+.x");
        match random.from(0, 13) {
            0..=1 => {
                text.remove(at);
            }
            2..=3 => text.insert(at, text[at]),
            4..=6 => text[at] = strange,
            7 => text.insert(at, strange),
            8 => text.truncate(at),
            9 => {
                text.pop();
            }
            10 => text.push(random.pick(b"\n\n \0A")),
            11 => {
                let other = (at + 1) % text.len();
                text.swap(at, other);
            }
            12 => {
                // Spaces and line ends are the bytes that lines are made of.
                let marks: Vec<usize> = (0..text.len()).filter(|&i| text[i] == b' ' || text[i] == b'\n').collect();
                if !marks.is_empty() {
                    let at = random.pick(&marks);
                    text[at] = random.pick(b" \n\t\r");
                }
            }
            _ => {
                let mut whole = Vec::new();
                for &b in text.iter() {
                    if b == b'\n' {
                        whole.push(b'\r');
                    }
                    whole.push(b);
                }
                // The header's own line end stays as it is.
                if random.percent(50) && whole.get(5) == Some(&b'\r') {
                    whole.remove(5);
                }
                *text = whole;
            }
        }
    }
}
