//! A reply to a case as bytes, with names for its parts, so that a difference can be told in words.

use crate::programs::Found;
use second::setup::Setup;
use second::sizes::{CELL_WIDTH, FILES, MARKS};
use second::store::Store;

/// The guards that the driver lays around each lent run.
pub const GUARD_WORDS: usize = 9;
const GUARD_BYTES: usize = 33;
const GUARD_WORD: u32 = 0xD1D2_D3D4;
const GUARD_BYTE: u8 = 0xD5;

/// The part that a program prints, which is told by lines.
pub const OUTPUT: &str = "output";

const BEFORE: &str = "the guard before ";
const AFTER: &str = "the guard after ";

/// The bytes of a number, and of a length.
pub const WORD: usize = 4;
const LENGTH: usize = 8;

/// The bytes of a store: the holders, the cells, the open marks.
pub const STORE_BYTES: usize = (1 + CELL_WIDTH) * FILES * WORD + MARKS;

/// The part of a store that is told by its fields, and these.
const CELLS: &str = "cells";
const CELL_FIELDS: [&str; CELL_WIDTH] = ["figure", "written"];

/// A part of a reply: its name, which guard of that name it is if it is one, the bytes of one entry,
/// and how many bytes it has.
struct Part {
    name: &'static str,
    guard: &'static str,
    width: usize,
    bytes: usize,
}

#[derive(Default)]
pub struct Reply {
    pub bytes: Vec<u8>,
    parts: Vec<Part>,
}

impl Reply {
    fn part(mut self, name: &'static str, width: usize, bytes: &[u8]) -> Reply {
        self.parts.push(Part { name, guard: "", width, bytes: bytes.len() });
        self.bytes.extend(bytes);
        self
    }

    pub fn numbers(self, name: &'static str, numbers: &[u32]) -> Reply {
        let bytes: Vec<u8> = numbers.iter().flat_map(|number| number.to_le_bytes()).collect();
        self.part(name, WORD, &bytes)
    }

    pub fn length(self, name: &'static str, length: usize) -> Reply {
        self.part(name, LENGTH, &(length as u64).to_le_bytes())
    }

    pub fn bytes(self, name: &'static str, bytes: &[u8]) -> Reply {
        self.part(name, 1, bytes)
    }

    pub fn setup(self, setup: &Setup) -> Reply {
        self.numbers("counts", &[setup.desks, setup.classes, setup.processes, setup.files])
            .bytes("rights", &setup.rights)
            .bytes("desk_of", &setup.desk_of)
            .bytes("class_of", &setup.class_of)
    }

    pub fn store(self, store: &Store) -> Reply {
        self.numbers("holders", &store.holders)
            .numbers(CELLS, &store.cell_numbers())
            .bytes("marks", &store.marks)
    }

    /// The part last added is a guard before or after the named run.
    fn guarding(mut self, guard: &'static str) -> Reply {
        if let Some(part) = self.parts.last_mut() {
            part.guard = guard;
        }
        self
    }

    pub fn lent_words(self, name: &'static str, words: &[u32]) -> Reply {
        let guard = [GUARD_WORD; GUARD_WORDS];
        let before = self.numbers(name, &guard).guarding(BEFORE);
        before.numbers(name, words).numbers(name, &guard).guarding(AFTER)
    }

    pub fn lent_store(self, store: &Store) -> Reply {
        let guard = [GUARD_WORD; GUARD_WORDS];
        let before = self.numbers("store", &guard).guarding(BEFORE);
        before.store(store).numbers("store", &guard).guarding(AFTER)
    }

    pub fn lent_bytes(self, name: &'static str, bytes: &[u8]) -> Reply {
        let guard = [GUARD_BYTE; GUARD_BYTES];
        let before = self.bytes(name, &guard).guarding(BEFORE);
        before.bytes(name, bytes).bytes(name, &guard).guarding(AFTER)
    }

    /// Whether this very reply was found.
    pub fn is(&self, found: &Found) -> bool {
        found.as_ref() == Ok(&self.bytes)
    }

    /// The first place where the bytes found are not those of this reply, in words.
    pub fn difference(&self, found: &Found) -> String {
        let found = match found {
            Ok(found) => found,
            Err(lack) => return lack.told(),
        };
        if self.parts.iter().any(|part| part.name == OUTPUT) {
            return told_output(found, &self.bytes);
        }
        let mut start = 0;
        for part in &self.parts {
            for (place, due) in self.bytes[start..start + part.bytes].chunks(part.width).enumerate()
            {
                let at = start + place * part.width;
                let given = found.get(at..at + part.width);
                if given != Some(due) {
                    return told(part, place, given, due);
                }
            }
            start += part.bytes;
        }
        format!("the first program gave {} bytes, the second {}", found.len(), self.bytes.len())
    }
}

/// The number of a reply at a place counted in numbers.
pub fn number(found: &[u8], place: usize) -> Option<u32> {
    let bytes = found.get(place * WORD..(place + 1) * WORD)?;
    Some(u32::from_le_bytes(bytes.try_into().ok()?))
}

fn told(part: &Part, place: usize, given: Option<&[u8]>, due: &[u8]) -> String {
    let value = |bytes: &[u8]| {
        bytes.iter().rev().fold(0u64, |value, &byte| value << 8 | u64::from(byte)).to_string()
    };
    let given = given.map_or("an end".to_string(), value);
    let Part { name, guard, .. } = part;
    let entry = entry(name, place);
    format!("{guard}{entry}: the first program has {given}, the second {}", value(due))
}

/// An entry of a part as the C header would have it.
fn entry(name: &str, place: usize) -> String {
    match name {
        CELLS => format!("{name}[{}].{}", place / CELL_WIDTH, CELL_FIELDS[place % CELL_WIDTH]),
        _ => format!("{name}[{place}]"),
    }
}

/// The first line that two outputs do not share.
fn told_output(found: &[u8], due: &[u8]) -> String {
    let lines = |output: &[u8]| -> Vec<String> {
        let lines = output.split_inclusive(|&byte| byte == b'\n');
        lines.map(|line| line.escape_ascii().to_string()).collect()
    };
    let (found, due) = (lines(found), lines(due));
    let place = found.iter().zip(&due).take_while(|(found, due)| found == due).count();
    let line = |lines: &[String]| {
        lines.get(place).map_or("no line".to_string(), |line| format!("\"{line}\""))
    };
    format!(
        "line {} of the output: the first program has {}, the second {}",
        place + 1,
        line(&found),
        line(&due)
    )
}

#[cfg(test)]
mod tests {
    use super::*;
    use second::store::Cell;

    /// The bytes of a store by the C header's own number.
    const HEADER_BYTES: usize = 2432;

    #[test]
    fn a_store_is_as_long_as_the_header_has_it() {
        assert_eq!(STORE_BYTES, HEADER_BYTES);
        assert_eq!(Reply::default().store(&Store::FRESH).bytes.len(), HEADER_BYTES);
    }

    #[test]
    fn a_cell_lies_behind_the_holders_and_is_told_by_its_fields() {
        let mut store = Store::FRESH;
        store.cells[3] = Cell::of(5);
        let (fresh, other) =
            (Reply::default().store(&Store::FRESH), Reply::default().store(&store));
        let place = FILES + 3 * CELL_WIDTH;
        assert_eq!(
            [number(&other.bytes, place), number(&other.bytes, place + 1)],
            [Some(5), Some(1)]
        );
        let told = fresh.difference(&Ok(other.bytes));
        assert_eq!(told, "cells[3].figure: the first program has 5, the second 0");
        store.cells[3].figure = 0;
        let told = fresh.difference(&Ok(Reply::default().store(&store).bytes));
        assert_eq!(told, "cells[3].written: the first program has 1, the second 0");
    }
}
