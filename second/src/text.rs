//! Setup texts and call texts: lines ended by LF, fields parted by tabs.

use crate::call::code;
use crate::refusal::Refusal;
use crate::rules::{Rules, Turn};
use crate::setup::{counts_fit, right_at, Setup, R, RW, W};
use crate::sizes::{CALLS, CALL_WIDTH, LIST_NUMBERS};

/// The kinds of lines, and what is judged before any line.
#[derive(Clone, Copy, PartialEq, Eq, PartialOrd, Ord, Debug)]
pub enum Line {
    Room,
    Store,
    Access,
    Process,
    File,
    Calls,
    Call,
    Further,
}

/// What is wrong with a line.
#[derive(Clone, Copy, PartialEq, Eq, PartialOrd, Ord, Debug)]
pub enum Why {
    RoomTooShort,
    Missing,
    NoLf,
    Word,
    FieldMissing,
    FieldTooMany,
    Version,
    Empty,
    Sign,
    NotDigits,
    LeadingZero,
    TooLarge,
    Right,
    Counts,
    Desk,
    Class,
    EqualPair,
    LowerDesk,
    LowerClass,
    NumberNotDue,
    TooManyCalls,
    FurtherLine,
}

/// The first faulty line of a text.
#[derive(Clone, Copy, PartialEq, Eq, Debug)]
pub struct Fault {
    pub refusal: Refusal,
    pub offset: usize,
    pub line: Line,
    pub why: Why,
}

/// The lines of a text that are still to be read.
struct Lines<'a> {
    rules: Rules,
    text: &'a [u8],
    at: usize,
    last: usize,
}

/// One line, taken apart at its tabs.
struct Fields<'a> {
    rules: Rules,
    line: Line,
    offset: usize,
    end: usize,
    fields: Vec<&'a [u8]>,
}

impl<'a> Lines<'a> {
    fn new(rules: Rules, text: &'a [u8]) -> Lines<'a> {
        Lines { rules, text, at: 0, last: 0 }
    }

    fn at_end(&self) -> bool {
        self.at == self.text.len()
    }

    /// A fault that lies at the line to come, or at the end of the text.
    fn fault(&self, line: Line, why: Why) -> Fault {
        Fault { refusal: Refusal::BrokenLine, offset: self.at, line, why }
    }

    /// The line to come. A last line without its LF is faulty before anything else is asked of it.
    fn next(&mut self, line: Line) -> Result<Fields<'a>, Fault> {
        let offset = self.at;
        if self.at_end() {
            let turned = self.rules.turned(Turn::MissingAtLastLine);
            let offset = if turned { self.last } else { offset };
            return Err(Fault { offset, ..self.fault(line, Why::Missing) });
        }
        let rest = &self.text[offset..];
        let length = match rest.iter().position(|&byte| byte == b'\n') {
            Some(length) => length,
            None if self.rules.turned(Turn::LastLineWithoutLf) => rest.len(),
            None => return Err(self.fault(line, Why::NoLf)),
        };
        self.last = offset;
        self.at = self.text.len().min(offset + length + 1);
        let fields = rest[..length].split(|&byte| byte == b'\t').collect();
        Ok(Fields { rules: self.rules, line, offset, end: self.at, fields })
    }

    /// Whether the line to come has `access` for its first field.
    fn access_comes(&self) -> bool {
        let ends = |byte: &u8| *byte == b'\t' || *byte == b'\n';
        self.text[self.at..].split(ends).next() == Some(b"access")
    }
}

impl Fields<'_> {
    fn refused(&self, refusal: Refusal, why: Why) -> Fault {
        let turned = self.rules.turned(Turn::OffsetOfLineEnd);
        let offset = if turned { self.end } else { self.offset };
        Fault { refusal, offset, line: self.line, why }
    }

    fn broken(&self, why: Why) -> Fault {
        self.refused(Refusal::BrokenLine, why)
    }

    /// The line must begin with a word and have so many fields.
    fn shaped(&self, word: &[u8], count: usize) -> Result<(), Fault> {
        if self.fields[0] != word {
            return Err(self.broken(Why::Word));
        }
        match self.fields.len() {
            found if found < count => Err(self.broken(Why::FieldMissing)),
            found if found > count => Err(self.broken(Why::FieldTooMany)),
            _ => Ok(()),
        }
    }

    fn version(&self) -> Result<(), Fault> {
        match self.fields[1] {
            b"1" => Ok(()),
            _ => Err(self.broken(Why::Version)),
        }
    }

    /// A field as a number: decimal, no sign, no leading zero, within 32 bits.
    fn number(&self, place: usize) -> Result<u32, Fault> {
        number(self.rules, self.fields[place]).map_err(|why| self.broken(why))
    }
}

fn number(rules: Rules, field: &[u8]) -> Result<u32, Why> {
    if field.is_empty() {
        return Err(Why::Empty);
    }
    if field[0] == b'+' || field[0] == b'-' {
        return Err(Why::Sign);
    }
    if !field.iter().all(u8::is_ascii_digit) {
        return Err(Why::NotDigits);
    }
    let leads = field[0] == b'0' && field.len() > 1;
    if leads && !rules.turned(Turn::LeadingZeroTaken) {
        return Err(Why::LeadingZero);
    }
    // However long the number is, a value too large stays too large.
    let value = field.iter().fold(0u64, |value, digit| {
        value.saturating_mul(10).saturating_add(u64::from(digit - b'0'))
    });
    match u32::try_from(value) {
        Ok(number) => Ok(number),
        Err(_) if rules.turned(Turn::LargeNumberTaken) => Ok(u32::MAX),
        Err(_) => Err(Why::TooLarge),
    }
}

/// The line `store`, `1` and the four counts, which are judged together.
fn read_store_line(lines: &mut Lines) -> Result<Setup, Fault> {
    let line = lines.next(Line::Store)?;
    line.shaped(b"store", 6)?;
    line.version()?;
    let (desks, classes) = (line.number(2)?, line.number(3)?);
    let (processes, files) = (line.number(4)?, line.number(5)?);
    if !counts_fit(desks, classes, processes, files) {
        return Err(line.refused(Refusal::CountOutside, Why::Counts));
    }
    Ok(Setup { desks, classes, processes, files, ..Setup::ZERO })
}

/// The lines `access`, strictly rising by desk, then class.
fn read_access_lines(lines: &mut Lines, setup: &mut Setup) -> Result<(), Fault> {
    let mut before = None;
    while lines.access_comes() {
        let line = lines.next(Line::Access)?;
        line.shaped(b"access", 4)?;
        let pair = (line.number(1)?, line.number(2)?);
        let right = match line.fields[3] {
            b"R" => R,
            b"W" => W,
            b"RW" => RW,
            _ => return Err(line.broken(Why::Right)),
        };
        judge_pair(&line, setup, pair)?;
        judge_rising(&line, before, pair)?;
        before = Some(pair);
        setup.rights[right_at(pair.0 as usize, pair.1 as usize)] = right;
    }
    Ok(())
}

/// Refusal 3 comes before 4.
fn judge_pair(line: &Fields, setup: &Setup, pair: (u32, u32)) -> Result<(), Fault> {
    let mut order = [
        (pair.0 >= setup.desks, Refusal::DeskOutside, Why::Desk),
        (pair.1 >= setup.classes, Refusal::ClassOutside, Why::Class),
    ];
    if line.rules.turned(Turn::ClassBeforeDesk) {
        order.swap(0, 1);
    }
    match order.iter().find(|(applies, _, _)| *applies) {
        Some(&(_, refusal, why)) => Err(line.refused(refusal, why)),
        None => Ok(()),
    }
}

fn judge_rising(line: &Fields, before: Option<(u32, u32)>, pair: (u32, u32)) -> Result<(), Fault> {
    let Some(before) = before else {
        return Ok(());
    };
    if pair == before && !line.rules.turned(Turn::EqualPairsRise) {
        return Err(line.broken(Why::EqualPair));
    }
    if pair.0 < before.0 {
        return Err(line.broken(Why::LowerDesk));
    }
    let lower = pair.0 == before.0 && pair.1 < before.1;
    if lower && !line.rules.turned(Turn::LowerClassRises) {
        return Err(line.broken(Why::LowerClass));
    }
    Ok(())
}

/// The lines `process`, one for each process, in order.
fn read_process_lines(lines: &mut Lines, setup: &mut Setup) -> Result<(), Fault> {
    for due in 0..setup.processes {
        let line = lines.next(Line::Process)?;
        line.shaped(b"process", 3)?;
        let (number, desk) = (line.number(1)?, line.number(2)?);
        if number != due && line.rules.turned(Turn::NumberBeforeDesk) {
            return Err(line.broken(Why::NumberNotDue));
        }
        if desk >= setup.desks {
            return Err(line.refused(Refusal::DeskOutside, Why::Desk));
        }
        if number != due {
            return Err(line.broken(Why::NumberNotDue));
        }
        setup.desk_of[due as usize] = desk as u8;
    }
    Ok(())
}

/// The lines `file`, one for each file, in order.
fn read_file_lines(lines: &mut Lines, setup: &mut Setup) -> Result<(), Fault> {
    for due in 0..setup.files {
        let line = lines.next(Line::File)?;
        line.shaped(b"file", 3)?;
        let (number, class) = (line.number(1)?, line.number(2)?);
        if class >= setup.classes {
            return Err(line.refused(Refusal::ClassOutside, Why::Class));
        }
        if number != due {
            return Err(line.broken(Why::NumberNotDue));
        }
        setup.class_of[due as usize] = class as u8;
    }
    Ok(())
}

/// The lines of a setup, from the first to the last file.
fn read_setup(lines: &mut Lines) -> Result<Setup, Fault> {
    let mut setup = read_store_line(lines)?;
    read_access_lines(lines, &mut setup)?;
    read_process_lines(lines, &mut setup)?;
    read_file_lines(lines, &mut setup)?;
    Ok(setup)
}

/// The word of a call line: its code, and whether the line has x.
fn operation(word: &[u8]) -> Option<(u32, bool)> {
    match word {
        b"read" => Some((code::READ, false)),
        b"write" => Some((code::WRITE, true)),
        b"lock" => Some((code::LOCK, false)),
        b"unlock" => Some((code::UNLOCK, false)),
        b"open" => Some((code::OPEN, false)),
        b"close" => Some((code::CLOSE, false)),
        b"testlock" => Some((code::TESTLOCK, false)),
        b"copy" => Some((code::COPY, true)),
        _ => None,
    }
}

/// One call line as four numbers; any 32-bit numbers will do here.
fn read_call_line(lines: &mut Lines) -> Result<[u32; CALL_WIDTH], Fault> {
    let line = lines.next(Line::Call)?;
    let word = line.fields[0];
    let Some((operation, has_extra)) = operation(word) else {
        return Err(line.broken(Why::Word));
    };
    line.shaped(word, if has_extra { 4 } else { 3 })?;
    let (process, file) = (line.number(1)?, line.number(2)?);
    let extra = if has_extra { line.number(3)? } else { 0 };
    Ok([operation, process, file, extra])
}

/// The line `calls`, `1`, and the call lines up to the end of the text.
fn read_calls(lines: &mut Lines) -> Result<Vec<u32>, Fault> {
    let line = lines.next(Line::Calls)?;
    line.shaped(b"calls", 2)?;
    line.version()?;
    let fewer = usize::from(lines.rules.turned(Turn::CallLineOneFewer));
    let mut calls = Vec::new();
    while !lines.at_end() {
        if calls.len() == (CALLS - fewer) * CALL_WIDTH {
            return Err(lines.fault(Line::Call, Why::TooManyCalls));
        }
        calls.extend(read_call_line(lines)?);
    }
    Ok(calls)
}

/// A setup text read alone: any byte past its last line is a further line.
pub fn read_alone(rules: Rules, text: &[u8]) -> Result<Setup, Fault> {
    let mut lines = Lines::new(rules, text);
    let setup = read_setup(&mut lines)?;
    match lines.at_end() || rules.turned(Turn::FurtherLineTaken) {
        true => Ok(setup),
        false => Err(lines.fault(Line::Further, Why::FurtherLine)),
    }
}

/// A setup text with its call text. The calls fill the front of the room; their number is answered.
pub fn read_with_calls(rules: Rules, text: &[u8], room: &mut [u32]) -> Result<(Setup, u32), Fault> {
    let room_refused = Fault {
        refusal: Refusal::RoomTooShort,
        offset: 0,
        line: Line::Room,
        why: Why::RoomTooShort,
    };
    let short = room.len() < LIST_NUMBERS;
    if short && !rules.turned(Turn::LinesBeforeRoom) {
        return Err(room_refused);
    }
    let mut lines = Lines::new(rules, text);
    let setup = read_setup(&mut lines)?;
    let calls = read_calls(&mut lines)?;
    if short {
        return Err(room_refused);
    }
    room[..calls.len()].copy_from_slice(&calls);
    if rules.turned(Turn::CallsTailCleared) {
        room[calls.len()..].fill(0);
    }
    Ok((setup, (calls.len() / CALL_WIDTH) as u32))
}
