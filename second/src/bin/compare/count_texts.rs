//! What a text counts for: the fault that decides it, or that it is read, and its looks.

use crate::causes::{of_counts, COUNT_CAUSES};
use crate::count_calls::{self, IN_A_TEXT};
use crate::counts::Counts;
use crate::tally::Table;
use crate::texts::{MANY_DIGITS, MANY_TABS};
use second::rules::Rules;
use second::setup::Setup;
use second::sizes::{CALLS, CALL_WIDTH, INPUT_BYTES, LIST_NUMBERS};
use second::store::Store;
use second::text::{read_alone, read_with_calls, Fault, Line, Why};

/// The ways a text goes, in the columns of the table.
pub const SHEETS: usize = 0;
pub const WITH_CALLS: usize = 1;
pub const ALONE: usize = 2;
const WAYS: [&str; 3] = ["sheets", "with calls", "alone"];

const NUMBER_FAULTS: [Why; 5] =
    [Why::Empty, Why::Sign, Why::NotDigits, Why::LeadingZero, Why::TooLarge];

/// The faults of each kind of line but those of numbers, and whether it has numbers.
const FAULTS: [(Line, &[Why], bool); 6] = [
    (
        Line::Store,
        &[Why::Missing, Why::NoLf, Why::Word, Why::FieldMissing, Why::FieldTooMany, Why::Version],
        true,
    ),
    (
        Line::Access,
        &[
            Why::NoLf,
            Why::FieldMissing,
            Why::FieldTooMany,
            Why::Right,
            Why::Desk,
            Why::Class,
            Why::EqualPair,
            Why::LowerDesk,
            Why::LowerClass,
        ],
        true,
    ),
    (
        Line::Process,
        &[
            Why::Missing,
            Why::NoLf,
            Why::Word,
            Why::FieldMissing,
            Why::FieldTooMany,
            Why::Desk,
            Why::NumberNotDue,
        ],
        true,
    ),
    (
        Line::File,
        &[
            Why::Missing,
            Why::NoLf,
            Why::Word,
            Why::FieldMissing,
            Why::FieldTooMany,
            Why::Class,
            Why::NumberNotDue,
        ],
        true,
    ),
    (
        Line::Calls,
        &[Why::Missing, Why::NoLf, Why::Word, Why::FieldMissing, Why::FieldTooMany, Why::Version],
        false,
    ),
    (
        Line::Call,
        &[Why::NoLf, Why::Word, Why::FieldMissing, Why::FieldTooMany, Why::TooManyCalls],
        true,
    ),
];

const TOO_LONG: &str = "14: the input is above the most bytes";
const NO_ROOM: &str = "11: room for calls too short";
const FURTHER: &str = "14: a further line";

/// How a text may look, whatever becomes of it, and which ways it goes then.
const LOOKS: [(&str, [bool; 3]); 10] = [
    ("empty", [true; 3]),
    ("one byte", [true; 3]),
    ("the most bytes", [true, true, false]),
    ("one byte past the most", [true, true, false]),
    ("no LF anywhere", [true; 3]),
    ("only LFs", [true; 3]),
    ("a NUL", [true; 3]),
    ("a thousand tabs", [true; 3]),
    ("a number of 5,000 digits", [true; 3]),
    ("a byte above 127", [true; 3]),
];

pub fn texts() -> Table {
    let mut table = Table::new("Texts", &WAYS);
    table.row("read", 50);
    let with_calls = [Some(2), Some(2), None];
    table.row_in("read, no call", &with_calls);
    table.row_in("read, the most calls", &with_calls);
    for cause in COUNT_CAUSES {
        table.row(&format!("1: {cause}"), 2);
    }
    for (line, faults, has_numbers) in FAULTS {
        let more: &[Why] = if has_numbers { &NUMBER_FAULTS } else { &[] };
        let alone = line < Line::Calls;
        for &why in faults.iter().chain(more) {
            let least = [Some(1), Some(1), alone.then_some(1)];
            table.row_in(&fault_name(line, why), &least);
        }
    }
    table.row_in(FURTHER, &[None, None, Some(5)]);
    table.row_in(NO_ROOM, &[None, Some(20), None]);
    table.row_in("11 before a fault", &[None, Some(5), None]);
    table.row_in(TOO_LONG, &[Some(2), None, None]);
    table.row("several counts outside", 1);
    for (name, ways) in LOOKS {
        table.row_in(&format!("looks: {name}"), &ways.map(|goes| goes.then_some(1)));
    }
    table
}

fn fault_name(line: Line, why: Why) -> String {
    let number = match why {
        Why::Desk => 3,
        Why::Class => 4,
        _ => 14,
    };
    let line = match line {
        Line::Store => "store",
        Line::Access => "access",
        Line::Process => "process",
        Line::File => "file",
        Line::Calls => "calls",
        _ => "call",
    };
    let why = match why {
        Why::Missing => "missing",
        Why::NoLf => "without its LF",
        Why::Word => "another word",
        Why::FieldMissing => "a field missing",
        Why::FieldTooMany => "a field too many",
        Why::Version => "not 1",
        Why::Empty => "an empty number",
        Why::Sign => "a sign",
        Why::NotDigits => "not digits",
        Why::LeadingZero => "a leading zero",
        Why::TooLarge => "a number too large",
        Why::Right => "no right",
        Why::Desk => "no such desk",
        Why::Class => "no such class",
        Why::EqualPair => "the same pair again",
        Why::LowerDesk => "a lower desk",
        Why::LowerClass => "a lower class",
        Why::NumberNotDue => "a number not due",
        Why::TooManyCalls => "one past the most",
        Why::RoomTooShort | Why::Counts | Why::FurtherLine => "another fault",
    };
    format!("{number}: {line} line, {why}")
}

/// The counts of a first line that has good numbers.
fn counts_in(text: &[u8]) -> Vec<u32> {
    let line = text.split(|&byte| byte == b'\n').next().unwrap_or(&[]);
    let fields = line.split(|&byte| byte == b'\t').skip(2);
    fields.filter_map(|field| std::str::from_utf8(field).ok()?.parse().ok()).collect()
}

fn meet_fault(counts: &mut Counts, text: &[u8], fault: Fault, way: usize) {
    match fault.why {
        Why::Counts => {
            let found = counts_in(text).try_into().map(of_counts).unwrap_or_default();
            match found[..] {
                [cause] => counts.texts.met(&format!("1: {cause}"), way),
                _ => counts.texts.met("several counts outside", way),
            }
        }
        Why::FurtherLine => counts.texts.met(FURTHER, way),
        Why::RoomTooShort => counts.texts.met(NO_ROOM, way),
        why => counts.texts.met(&fault_name(fault.line, why), way),
    }
}

fn longest_run(text: &[u8], holds: impl Fn(&u8) -> bool) -> usize {
    text.split(|byte| !holds(byte)).map(<[u8]>::len).max().unwrap_or(0)
}

fn meet_looks(counts: &mut Counts, text: &[u8], way: usize) {
    let looks = [
        text.is_empty(),
        text.len() == 1,
        text.len() == INPUT_BYTES,
        text.len() == INPUT_BYTES + 1,
        text.len() > 1 && !text.contains(&b'\n'),
        text.len() > 1 && text.iter().all(|&byte| byte == b'\n'),
        text.contains(&0),
        longest_run(text, |&byte| byte == b'\t') >= MANY_TABS,
        longest_run(text, u8::is_ascii_digit) >= MANY_DIGITS,
        text.iter().any(|&byte| byte > 127),
    ];
    for ((name, _), _) in LOOKS.iter().zip(looks).filter(|(_, looks)| *looks) {
        counts.texts.met(&format!("looks: {name}"), way);
    }
}

pub fn meet_alone(counts: &mut Counts, text: &[u8]) {
    meet_looks(counts, text, ALONE);
    match read_alone(Rules::UNTURNED, text) {
        Ok(_) => counts.texts.met("read", ALONE),
        Err(fault) => meet_fault(counts, text, fault, ALONE),
    }
}

/// Counts a text with calls, and hands back what was read.
fn meet_read(counts: &mut Counts, text: &[u8], way: usize) -> Option<(Setup, Vec<u32>)> {
    let mut room = vec![0; LIST_NUMBERS];
    let (setup, count) = match read_with_calls(Rules::UNTURNED, text, &mut room) {
        Ok(read) => read,
        Err(fault) => {
            meet_fault(counts, text, fault, way);
            return None;
        }
    };
    counts.texts.met("read", way);
    match count as usize {
        0 => counts.texts.met("read, no call", way),
        CALLS => counts.texts.met("read, the most calls", way),
        _ => {}
    }
    room.truncate(count as usize * CALL_WIDTH);
    Some((setup, room))
}

pub fn meet_with_calls(counts: &mut Counts, text: &[u8], room: &[u32]) {
    meet_looks(counts, text, WITH_CALLS);
    if room.len() >= LIST_NUMBERS {
        meet_read(counts, text, WITH_CALLS);
        return;
    }
    counts.texts.met(NO_ROOM, WITH_CALLS);
    if read_with_calls(Rules::UNTURNED, text, &mut [0; LIST_NUMBERS]).is_err() {
        counts.texts.met("11 before a fault", WITH_CALLS);
    }
}

pub fn meet_sheets(counts: &mut Counts, text: &[u8]) {
    meet_looks(counts, text, SHEETS);
    if text.len() > INPUT_BYTES {
        counts.texts.met(TOO_LONG, SHEETS);
    } else if let Some((setup, calls)) = meet_read(counts, text, SHEETS) {
        count_calls::meet_list(counts, (&setup, &Store::FRESH), &calls, IN_A_TEXT);
    }
}
