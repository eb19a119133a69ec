//! Texts: sound ones at random, and hand-made ones with a fault in each field of each kind of line.

use crate::calls;
use crate::damage;
use crate::random::Random;
use crate::setups::{self, MOST};
use second::call::{code, Call};
use second::rules::Rules;
use second::setup::{right_at, Setup};
use second::sizes::{CALLS, CALL_WIDTH, CLASSES, FILES, INPUT_BYTES, LIST_NUMBERS, PROCESSES};
use second::store::Store;
use second::text::read_with_calls;

/// A line without its LF.
pub type Line = Vec<u8>;

/// A thousand tabs, and numbers of five thousand digits, are asked for by name.
pub const MANY_TABS: usize = 1000;
pub const MANY_DIGITS: usize = 5000;

const RIGHT_WORDS: [&str; 4] = ["", "R", "W", "RW"];
const CALL_WORDS: [&str; 9] =
    ["", "read", "write", "lock", "unlock", "open", "close", "testlock", "copy"];

/// The lines of a setup.
pub fn setup_lines(setup: &Setup) -> Vec<Line> {
    let (desks, classes) = (setup.desks, setup.classes);
    let (processes, files) = (setup.processes, setup.files);
    let mut lines = vec![format!("store\t1\t{desks}\t{classes}\t{processes}\t{files}")];
    for desk in 0..desks as usize {
        for class in 0..classes as usize {
            let right = setup.rights[right_at(desk, class)] as usize;
            if right != 0 {
                lines.push(format!("access\t{desk}\t{class}\t{}", RIGHT_WORDS[right]));
            }
        }
    }
    let desk_of = setup.desk_of.iter().take(processes as usize).enumerate();
    lines.extend(desk_of.map(|(process, desk)| format!("process\t{process}\t{desk}")));
    let class_of = setup.class_of.iter().take(files as usize).enumerate();
    lines.extend(class_of.map(|(file, class)| format!("file\t{file}\t{class}")));
    lines.into_iter().map(String::into_bytes).collect()
}

/// The line of a call, if a line can carry it.
fn call_line(call: Call) -> Option<Line> {
    let Call { operation, process, file, extra } = call;
    let word = CALL_WORDS.get(operation as usize).filter(|word| !word.is_empty())?;
    let line = match operation {
        code::WRITE | code::COPY => format!("{word}\t{process}\t{file}\t{extra}"),
        _ => format!("{word}\t{process}\t{file}"),
    };
    Some(line.into_bytes())
}

/// The line `calls`, and the lines of those calls that a line can carry.
pub fn call_lines(numbers: &[u32]) -> Vec<Line> {
    let calls = numbers.chunks(CALL_WIDTH).map(Call::from_numbers);
    let head = std::iter::once(b"calls\t1".to_vec());
    head.chain(calls.filter_map(call_line)).collect()
}

/// Lines as a text, each with its LF.
pub fn join(lines: &[Line]) -> Vec<u8> {
    lines.iter().flat_map(|line| line.iter().copied().chain([b'\n'])).collect()
}

/// The lines of a random setup, with calls if they are asked for.
fn random_lines(random: &mut Random, with_calls: bool) -> Vec<Line> {
    let setup = if random.once_in(3) { setups::sound(random) } else { setups::small(random) };
    let mut lines = setup_lines(&setup);
    if with_calls {
        let count = calls::count(random);
        lines.extend(call_lines(&calls::list(random, &setup, &Store::FRESH, count)));
    }
    lines
}

/// A random text, sound or damaged.
pub fn any(random: &mut Random, with_calls: bool) -> Vec<u8> {
    let lines = random_lines(random, with_calls);
    match random.below(4) {
        0 | 1 => join(&lines),
        _ => damage::text(random, lines),
    }
}

/// The setup of document 01's program case.
fn base_setup() -> Vec<Line> {
    let text = "store\t1\t3\t2\t3\t2\naccess\t0\t0\tW\naccess\t1\t0\tR\naccess\t1\t1\tW\n\
        access\t2\t1\tR\nprocess\t0\t0\nprocess\t1\t1\nprocess\t2\t2\nfile\t0\t0\nfile\t1\t1";
    text.split('\n').map(|line| line.as_bytes().to_vec()).collect()
}

/// Document 01's nine calls, and one of each word that they lack.
fn base_calls() -> Vec<Line> {
    let text = "calls\t1\nlock\t0\t0\nwrite\t0\t0\t1\nunlock\t0\t0\nopen\t1\t0\nlock\t1\t1\n\
        copy\t1\t0\t1\nunlock\t1\t1\nopen\t2\t1\nread\t2\t1\ntestlock\t1\t1\nclose\t2\t1";
    text.split('\n').map(|line| line.as_bytes().to_vec()).collect()
}

fn base(with_calls: bool) -> Vec<Line> {
    let mut lines = base_setup();
    if with_calls {
        lines.extend(base_calls());
    }
    lines
}

/// The base without its first three calls: what it copies and reads is unwritten then.
fn silent() -> Vec<Line> {
    let (calls, first_three) = (base_calls(), 1..4);
    let kept = (0..calls.len()).filter(|place| !first_three.contains(place));
    base_setup().into_iter().chain(kept.map(|place| calls[place].clone())).collect()
}

/// The setup that has every count at its least, and one that has every count at its most.
fn at_limits() -> [Vec<Line>; 2] {
    let full = |counts: [usize; 4]| {
        let [desks, classes, processes, files] = counts;
        let mut setup = Setup {
            desks: desks as u32,
            classes: classes as u32,
            processes: processes as u32,
            files: files as u32,
            ..Setup::ZERO
        };
        for place in 0..desks * classes {
            setup.rights[right_at(place / classes, place % classes)] = (place % 3 + 1) as u8;
        }
        setup.desk_of[..processes].fill(desks as u8 - 1);
        setup.class_of[..files].fill(classes as u8 - 1);
        setup_lines(&setup)
    };
    [full([1; 4]), full(MOST)]
}

/// Each count at 0, at its most, and past it, in the first line of the base.
fn count_faults(with_calls: bool) -> Vec<Vec<u8>> {
    let mut texts = Vec::new();
    for (which, most) in MOST.into_iter().enumerate() {
        for value in [0, 1, most, most + 1, u32::MAX as usize] {
            let mut lines = base(with_calls);
            lines[0] = damage::with_field(&lines[0], which + 2, value.to_string().as_bytes());
            texts.push(join(&lines));
        }
    }
    texts
}

/// Setup lines, a `calls` line, and so many call lines.
fn with_call_count(count: usize) -> Vec<u8> {
    let mut lines = base_setup();
    lines.push(b"calls\t1".to_vec());
    lines.extend((0..count).map(|turn| base_calls()[1 + turn % 9].clone()));
    join(&lines)
}

/// A sound text of exactly so many bytes, which must be well above the setup's own.
fn of_length(length: usize) -> Vec<u8> {
    const WIDE: &str = "write\t1000000000\t1000000000\t1000000000\n";
    const READ_MOST: usize = 27;
    let mut text = join(&base_setup());
    text.extend(b"calls\t1\n");
    while length - text.len() > WIDE.len() + READ_MOST {
        text.extend(WIDE.as_bytes());
    }
    while text.len() < length {
        let left = length - text.len();
        // A line `read`, p, f has 9 bytes and up to 18 digits more.
        let here = if left <= READ_MOST { left } else { left - 9 };
        let digits = here.min(READ_MOST) - 7;
        let first = "1".repeat(digits / 2);
        text.extend(format!("read\t{first}\t{}\n", "1".repeat(digits - digits / 2)).as_bytes());
    }
    text
}

/// The inputs that are asked for by name, and others like them.
fn named(with_calls: bool) -> Vec<Vec<u8>> {
    let whole = join(&base(with_calls));
    let mut texts = vec![
        Vec::new(),
        whole.clone(),
        vec![b'\n'; 1],
        vec![b'\n'; 500],
        vec![0; 1],
        vec![0; 300],
        vec![b'\t'; MANY_TABS],
        [vec![b'\t'; MANY_TABS], vec![b'\n']].concat(),
        [b"store".to_vec(), vec![b'\t'; MANY_TABS], vec![b'\n']].concat(),
        [whole.clone(), vec![b'\t'; MANY_TABS], vec![b'\n']].concat(),
        [whole.clone(), vec![0]].concat(),
        [whole.clone(), vec![b'\n']].concat(),
        whole.iter().copied().filter(|&byte| byte != b'\n').collect(),
        whole.iter().copied().filter(|&byte| byte != b'\t').collect(),
        whole.repeat(2),
        [b"\xEF\xBB\xBF".to_vec(), whole.clone()].concat(),
        [whole.clone(), vec![b'1'; MANY_DIGITS]].concat(),
    ];
    texts.extend([b's', b' ', b'\t', b'1', 0xFF].map(|byte| vec![byte]));
    texts.extend((0..whole.len()).step_by(7).map(|length| whole[..length].to_vec()));
    texts.extend(at_limits().iter().map(|lines| join(lines)));
    if with_calls {
        texts.push(join(&silent()));
        let (setup, calls) = walk();
        texts.push(join(&[setup_lines(&setup), call_lines(&calls)].concat()));
        texts.extend(at_limits().iter().map(|lines| {
            let calls = [code::TESTLOCK, 0, 0, 0, code::READ, u32::MAX, u32::MAX, 0];
            join(&[lines.clone(), call_lines(&calls)].concat())
        }));
        let [_, full] = at_limits();
        let last = [code::TESTLOCK, PROCESSES as u32 - 1, FILES as u32 - 1, 0];
        texts.push(join(&[full, call_lines(&last.repeat(CALLS))].concat()));
        texts.extend(large());
    }
    texts
}

/// Texts at and past the most calls, and at and past the longest input.
fn large() -> Vec<Vec<u8>> {
    let mut texts: Vec<Vec<u8>> =
        [0, 1, CALLS - 1, CALLS, CALLS + 1, CALLS + 2].map(with_call_count).to_vec();
    for past in ["x", "\n", "read\t0\t0", "read\t0\t0\n", "read\t00\t0\n"] {
        texts.push([with_call_count(CALLS), past.as_bytes().to_vec()].concat());
    }
    texts.push(vec![b'x'; 3 * INPUT_BYTES]);
    for length in [INPUT_BYTES - 1, INPUT_BYTES, INPUT_BYTES + 1, INPUT_BYTES + 9] {
        texts.push(of_length(length));
        texts.push(vec![b'x'; length]);
        texts.push(vec![b'\n'; length]);
        let mut cut = of_length(length);
        cut.pop();
        cut.push(b'1');
        texts.push(cut);
    }
    texts
}

/// Pairs of faults in one line, where the order of the refusals decides.
fn ordered(with_calls: bool) -> Vec<Vec<u8>> {
    const LINES: [(usize, &str); 19] = [
        (0, "store\t2\t0\t2\t3\t2"),
        (0, "store\t1\t0\t2\t3\tx"),
        (1, "access\t3\t2\tR"),
        (1, "access\t3\t2\tX"),
        (1, "access\t0\t2\tR"),
        (2, "access\t3\t0\tR"),
        (2, "access\t0\t0\tR"),
        (2, "access\t0\t2\tR"),
        (4, "access\t1\t0\tR"),
        (4, "access\t1\t1\tR"),
        (4, "access\t0\t1\tR"),
        (4, "access\t3\t0\tR"),
        (5, "process\t1\t3"),
        (5, "process\t0\t3\t0"),
        (6, "process\t0\t1"),
        (6, "process\t4294967295\t4294967295"),
        (8, "file\t1\t2"),
        (8, "file\t4294967295\t4294967295"),
        (9, "file\t0\t0"),
    ];
    let broken = |(place, line): (usize, &str)| {
        let mut lines = base(with_calls);
        lines[place] = line.as_bytes().to_vec();
        join(&lines)
    };
    let counts = format!("store\t1\t0\t{}\t{}\t{}", CLASSES + 1, PROCESSES + 1, FILES + 1);
    [(0, &counts[..])].into_iter().chain(LINES).map(broken).collect()
}

/// A setup, and calls from a fresh store that meet every condition of every call, and every cell.
pub fn walk() -> (Setup, Vec<u32>) {
    const LINES: &str =
        "store\t1\t3\t2\t4\t4\naccess\t0\t0\tR\naccess\t1\t0\tRW\naccess\t1\t1\tR\n\
        access\t2\t0\tW\nprocess\t0\t0\nprocess\t1\t1\nprocess\t2\t1\nprocess\t3\t2\n\
        file\t0\t0\nfile\t1\t0\nfile\t2\t0\nfile\t3\t1\ncalls\t1\n\
        read\t1\t0\nopen\t1\t0\nread\t1\t0\nopen\t1\t0\nlock\t0\t0\nlock\t1\t0\nread\t1\t0\n\
        open\t2\t0\nopen\t1\t0\nlock\t1\t0\nlock\t2\t0\ntestlock\t1\t0\ntestlock\t2\t0\n\
        testlock\t1\t1\ntestlock\t0\t0\ntestlock\t3\t0\nwrite\t1\t0\t5\nwrite\t2\t0\t6\n\
        write\t2\t1\t6\nwrite\t0\t0\t1\nunlock\t2\t0\nunlock\t0\t0\nunlock\t1\t1\nlock\t1\t1\n\
        copy\t1\t0\t1\ncopy\t1\t0\t2\nlock\t2\t2\ncopy\t1\t0\t2\ncopy\t1\t0\t3\ncopy\t3\t0\t1\n\
        copy\t2\t0\t2\nunlock\t1\t0\nopen\t2\t0\nlock\t1\t0\ncopy\t2\t0\t2\nread\t2\t0\n\
        close\t2\t0\nclose\t2\t0\nclose\t3\t0\nopen\t3\t0\nread\t3\t0\nunlock\t1\t0\n\
        open\t2\t1\nopen\t1\t0\ncopy\t1\t0\t1\nread\t1\t0\ncopy\t1\t0\t4\ncopy\t1\t4\t0\n\
        copy\t1\t4\t4\ncopy\t1\t0\t0\nread\t4\t0\nread\t5\t9\nunlock\t2\t2\nopen\t1\t2\n\
        read\t1\t2\nunlock\t1\t1\nopen\t1\t1\nread\t1\t1\nlock\t1\t0\nlock\t1\t1\nlock\t1\t2\n\
        read\t1\t2\nwrite\t1\t1\t0\nread\t1\t1\ncopy\t1\t1\t0\ncopy\t1\t1\t0\ncopy\t1\t2\t0\n\
        read\t1\t0\ncopy\t1\t2\t0\ncopy\t1\t1\t0\nwrite\t1\t0\t7\ncopy\t1\t0\t1\ncopy\t1\t2\t1\n\
        read\t1\t1\nwrite\t1\t1\t0\nwrite\t1\t1\t0\nwrite\t1\t0\t8\nread\t1\t0\ncopy\t1\t0\t2\n\
        unlock\t1\t0\nunlock\t1\t1\nunlock\t1\t2\nread\t1\t0\nread\t1\t1\nread\t1\t2\n";
    let mut room = vec![0; LIST_NUMBERS];
    let read = read_with_calls(Rules::UNTURNED, LINES.as_bytes(), &mut room);
    let (setup, count) = read.unwrap_or((Setup::ZERO, 0));
    room.truncate(count as usize * CALL_WIDTH);
    (setup, room)
}

/// Every hand-made text.
pub fn hand_made(with_calls: bool) -> Vec<Vec<u8>> {
    let lines = base(with_calls);
    let mut texts = named(with_calls);
    texts.extend(ordered(with_calls));
    texts.extend(count_faults(with_calls));
    texts.extend(damage::each_line(&lines));
    texts.extend(damage::each_field(&lines));
    texts
}
