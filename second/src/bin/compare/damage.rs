//! Damage to texts: every kind of fault at every place of some lines, or a few faults at random.

use crate::random::Random;
use crate::texts::{join, Line, MANY_DIGITS};
use second::sizes::{DESKS, FILES, PROCESSES};

/// Counts at a limit and past one, which a field may be replaced with.
const LIMITS: [usize; 4] = [DESKS, DESKS + 1, FILES + 1, PROCESSES + 1];

/// What else a field may be replaced with, but for the numbers of very many digits.
const VALUES: [&[u8]; 28] = [
    b"",
    b"0",
    b"1",
    b"2",
    b"3",
    b"7",
    b"256",
    b"4294967295",
    b"4294967296",
    b"4294967297",
    b"9999999999",
    b"18446744073709551617",
    b"00",
    b"01",
    b"+1",
    b"-1",
    b" 1",
    b"1 ",
    b"1\r",
    b"1\0",
    b"\x801",
    b"x",
    b"0x1",
    b"1.0",
    b"RW",
    b"WR",
    b"access",
    b"STORE",
];

/// The kinds of damage that a whole line can take.
const LINE_FAULTS: usize = 17;

/// The line with one field replaced; a line with too few fields stays as it is.
pub fn with_field(line: &[u8], place: usize, value: &[u8]) -> Line {
    let mut fields: Vec<&[u8]> = line.split(|&byte| byte == b'\t').collect();
    if let Some(field) = fields.get_mut(place) {
        *field = value;
    }
    fields.join(&b'\t')
}

fn field_count(line: &[u8]) -> usize {
    line.split(|&byte| byte == b'\t').count()
}

/// A text in which one line has taken one kind of damage.
fn line_fault(lines: &[Line], place: usize, fault: usize) -> Vec<u8> {
    let mut lines = lines.to_vec();
    let line = lines[place].clone();
    let last_field = line.iter().rposition(|&byte| byte == b'\t').unwrap_or(0);
    match fault {
        0 => drop(lines.remove(place)),
        1 => lines.insert(place, line),
        2 if place + 1 < lines.len() => lines.swap(place, place + 1),
        3 => lines.insert(place, Vec::new()),
        4 => lines[place].extend(b"\t0"),
        5 => lines[place].push(b'\t'),
        6 => lines[place].insert(0, b'\t'),
        7 => lines[place].truncate(last_field),
        8 => lines[place].push(b'\r'),
        9 => lines[place].insert(0, 0),
        10 => lines[place].insert(last_field, b'\t'),
        11 => lines[place][last_field] = b' ',
        12 => lines[place][0] = line[0].to_ascii_uppercase(),
        13 => drop(lines[place].remove(0)),
        // The text ends with this line, with its LF and without.
        14 => lines.truncate(place + 1),
        15 => {
            let mut text = join(&lines[..=place]);
            text.pop();
            return text;
        }
        // The line runs into the next.
        _ => {
            let mut text = join(&lines[..=place]);
            text.pop();
            text.extend(join(&lines[place + 1..]));
            return text;
        }
    }
    join(&lines)
}

/// Texts with every kind of damage to every line.
pub fn each_line(lines: &[Line]) -> Vec<Vec<u8>> {
    let faults = |place| (0..LINE_FAULTS).map(move |fault| (place, fault));
    (0..lines.len())
        .flat_map(faults)
        .map(|(place, fault)| line_fault(lines, place, fault))
        .collect()
}

/// The values that a field may be replaced with, but for the numbers of very many digits.
fn values() -> Vec<Vec<u8>> {
    let limits = LIMITS.map(|limit| limit.to_string().into_bytes());
    VALUES.iter().map(|value| value.to_vec()).chain(limits).collect()
}

/// The first and the last of each kind of line in the base, and calls of either shape.
const FIELD_PLACES: [usize; 12] = [0, 1, 4, 5, 7, 8, 9, 10, 11, 12, 16, 21];

/// Texts with each value in each field of some lines.
pub fn each_field(lines: &[Line]) -> Vec<Vec<u8>> {
    let long = [vec![b'1'; MANY_DIGITS], vec![b'0'; MANY_DIGITS]];
    let values = [values(), long.to_vec()].concat();
    let mut texts = Vec::new();
    for place in FIELD_PLACES.into_iter().filter(|&place| place < lines.len()) {
        for field in 0..field_count(&lines[place]) {
            texts.extend(values.iter().map(|value| {
                let mut lines = lines.to_vec();
                lines[place] = with_field(&lines[place], field, value);
                join(&lines)
            }));
        }
    }
    texts
}

/// A text with some faults at random, in its lines and then perhaps in its bytes.
pub fn text(random: &mut Random, lines: Vec<Line>) -> Vec<u8> {
    let mut lines = lines;
    for _ in 0..random.between(0, 2) {
        // The setup is the shorter part, and has more to go wrong.
        let most = if random.once_in(2) { lines.len() } else { lines.len().min(12) };
        let place = random.below(most);
        let field = random.below(field_count(&lines[place]));
        let value = if random.once_in(3) {
            random.wild().to_string().into_bytes()
        } else {
            random.pick(&values())
        };
        lines[place] = with_field(&lines[place], field, &value);
    }
    let place = random.below(lines.len());
    let mut text = match random.below(3) {
        0 if !lines[place].is_empty() => line_fault(&lines, place, random.below(LINE_FAULTS)),
        _ => join(&lines),
    };
    if random.once_in(3) {
        break_bytes(random, &mut text);
    }
    text
}

fn break_bytes(random: &mut Random, text: &mut Vec<u8>) {
    const BYTES: &[u8] = b"\t\t\n\n\r 019-+RWax\0\xFF";
    let place = random.below(text.len() + 1);
    match random.below(4) {
        0 => text.truncate(place),
        1 => text.insert(place, random.pick(BYTES)),
        2 if place < text.len() => text[place] = random.pick(BYTES),
        _ if place < text.len() => drop(text.remove(place)),
        _ => {}
    }
}
