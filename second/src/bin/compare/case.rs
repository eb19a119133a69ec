//! A case: one input that is put to both programs, its form for the driver, and the reply that is due.

use crate::reply::{Reply, OUTPUT};
use second::call::{call_by_value, call_in_place, Call};
use second::gate::{gate, Three};
use second::grid::grid;
use second::list::run;
use second::print::sheets;
use second::refusal::Refusal;
use second::route::report;
use second::rules::Rules;
use second::setup::{accept, Setup, SetupBytes};
use second::sizes::ANSWER_WIDTH;
use second::store::{fresh, judge, Store};
use second::text::{read_alone, read_with_calls, Fault};

#[derive(Clone, PartialEq, Debug)]
pub enum Case {
    Accept(SetupBytes),
    Fresh(Box<Setup>),
    Judge(Box<Setup>, Box<Store>),
    Call(Box<Setup>, Box<Store>, Call),
    CallInPlace(Box<Setup>, Box<Store>, Call),
    List {
        setup: Box<Setup>,
        store: Box<Store>,
        calls: Vec<u32>,
        answers: Vec<u32>,
    },
    Route {
        setup: Box<Setup>,
        a: u32,
        b: u32,
        room: Vec<u32>,
    },
    ReadAlone(Vec<u8>),
    ReadWithCalls {
        text: Vec<u8>,
        room: Vec<u32>,
    },
    Grid {
        setup: Box<Setup>,
        room: Vec<u32>,
    },
    Gate {
        setup: Box<Setup>,
        three: Three,
        room: Vec<u32>,
    },
    /// The only one that goes to the program, and not to the driver.
    Sheets(Vec<u8>),
}

/// The numbers under which the driver knows the cases.
mod kind {
    pub const ACCEPT: u32 = 1;
    pub const FRESH: u32 = 2;
    pub const JUDGE: u32 = 3;
    pub const CALL: u32 = 4;
    pub const CALL_IN_PLACE: u32 = 5;
    pub const LIST: u32 = 6;
    pub const ROUTE: u32 = 7;
    pub const READ_ALONE: u32 = 8;
    pub const READ_WITH_CALLS: u32 = 9;
    pub const GRID: u32 = 10;
    pub const GATE: u32 = 11;
}

/// The answer of a list or a text as a whole, or of a grid, that is refused has this kind.
const REFUSED_KIND: u32 = 4;
/// And one that is not has this.
pub const DONE_KIND: u32 = 0;

/// The body of a case in the making.
struct Body(Vec<u8>);

impl Body {
    fn number(mut self, number: usize) -> Body {
        self.0.extend((number as u32).to_le_bytes());
        self
    }

    fn numbers(mut self, numbers: &[u32]) -> Body {
        self.0.extend(numbers.iter().flat_map(|number| number.to_le_bytes()));
        self
    }

    fn bytes(mut self, bytes: &[u8]) -> Body {
        self.0.extend(bytes);
        self
    }

    fn setup(self, setup: &Setup) -> Body {
        self.numbers(&[setup.desks, setup.classes, setup.processes, setup.files])
            .bytes(&setup.rights)
            .bytes(&setup.desk_of)
            .bytes(&setup.class_of)
    }

    fn store(self, store: &Store) -> Body {
        self.numbers(&store.holders).numbers(&store.cell_numbers()).bytes(&store.marks)
    }
}

impl Case {
    /// The case as the driver reads it.
    pub fn encode(&self) -> Vec<u8> {
        let (kind, Body(body)) = self.body(Body(Vec::new()));
        Body(Vec::new()).numbers(&[kind]).number(body.len()).bytes(&body).0
    }

    fn body(&self, start: Body) -> (u32, Body) {
        match self {
            Case::Accept(given) => (kind::ACCEPT, accept_body(start, given)),
            Case::Fresh(setup) => (kind::FRESH, start.setup(setup)),
            Case::Judge(setup, store) => (kind::JUDGE, start.setup(setup).store(store)),
            Case::Call(setup, store, call) => {
                (kind::CALL, start.setup(setup).store(store).numbers(&call.numbers()))
            }
            Case::CallInPlace(setup, store, call) => {
                (kind::CALL_IN_PLACE, start.setup(setup).store(store).numbers(&call.numbers()))
            }
            Case::List { setup, store, calls, answers } => {
                let lengths = start.setup(setup).store(store).number(calls.len());
                (kind::LIST, lengths.number(answers.len()).numbers(calls).numbers(answers))
            }
            Case::Route { setup, a, b, room } => {
                let desks = start.setup(setup).numbers(&[*a, *b]);
                (kind::ROUTE, desks.number(room.len()).numbers(room))
            }
            Case::ReadAlone(text) => (kind::READ_ALONE, start.number(text.len()).bytes(text)),
            Case::ReadWithCalls { text, room } => {
                let lengths = start.number(text.len()).number(room.len());
                (kind::READ_WITH_CALLS, lengths.bytes(text).numbers(room))
            }
            Case::Grid { setup, room } => {
                (kind::GRID, start.setup(setup).number(room.len()).numbers(room))
            }
            Case::Gate { setup, three: Three { a, b, gate }, room } => {
                let desks = start.setup(setup).numbers(&[*a, *b, *gate]);
                (kind::GATE, desks.number(room.len()).numbers(room))
            }
            Case::Sheets(text) => (0, start.bytes(text)),
        }
    }

    /// The reply that the second program holds to be right, under the given rules.
    pub fn due(&self, rules: Rules) -> Reply {
        match self {
            Case::Accept(given) => due_accept(rules, given),
            Case::Fresh(setup) => match fresh(rules, setup) {
                Ok(store) => Reply::default().numbers("refusal", &[0]).store(&store),
                Err(refusal) => {
                    Reply::default().numbers("refusal", &[refusal.number()]).store(&Store::REFUSED)
                }
            },
            Case::Judge(setup, store) => {
                let refusal = judge(rules, setup, store).err().map_or(0, Refusal::number);
                Reply::default().numbers("refusal", &[refusal])
            }
            Case::Call(setup, store, call) => {
                let (answer, next) = call_by_value(rules, setup, store, *call);
                Reply::default().numbers("answer", &answer.numbers()).store(&next)
            }
            Case::CallInPlace(setup, store, call) => {
                let mut lying = store.clone();
                let answer = call_in_place(rules, setup, &mut lying, *call);
                let reply = Reply::default().numbers("answer", &answer.numbers());
                reply.lent_store(&lying)
            }
            Case::List { setup, store, calls, answers } => {
                due_list(rules, (setup, store), calls, answers)
            }
            Case::Route { setup, a, b, room } => {
                due_report(room, |lent| report(rules, setup, *a, *b, lent).numbers())
            }
            Case::ReadAlone(text) => due_alone(rules, text),
            Case::ReadWithCalls { text, room } => due_with_calls(rules, text, room),
            Case::Grid { setup, room } => due_grid(rules, setup, room),
            Case::Gate { setup, three, room } => {
                due_report(room, |lent| gate(rules, setup, *three, lent).numbers())
            }
            Case::Sheets(text) => Reply::default().bytes(OUTPUT, sheets(rules, text).as_bytes()),
        }
    }
}

fn accept_body(start: Body, given: &SetupBytes) -> Body {
    start
        .numbers(&[given.desks, given.classes, given.processes, given.files])
        .number(given.rights.len())
        .number(given.desk_of.len())
        .number(given.class_of.len())
        .bytes(&given.rights)
        .bytes(&given.desk_of)
        .bytes(&given.class_of)
}

fn due_accept(rules: Rules, given: &SetupBytes) -> Reply {
    let (refusal, setup) = match accept(rules, given) {
        Ok(setup) => (0, setup),
        Err(refusal) => (refusal.number(), Setup::ZERO),
    };
    Reply::default()
        .numbers("refusal", &[refusal])
        .setup(&setup)
        .lent_bytes("rights lent", &given.rights)
        .lent_bytes("desks lent", &given.desk_of)
        .lent_bytes("classes lent", &given.class_of)
}

/// What is answered where there is a number of what was done, or a refusal.
fn answer_as_a_whole(done: Result<u32, Refusal>) -> [u32; ANSWER_WIDTH] {
    match done {
        Ok(count) => [DONE_KIND, count],
        Err(refusal) => [REFUSED_KIND, refusal.number()],
    }
}

fn due_list(rules: Rules, held: (&Setup, &Store), calls: &[u32], answers: &[u32]) -> Reply {
    let mut lent = answers.to_vec();
    let (done, next) = run(rules, held.0, held.1, calls, &mut lent);
    Reply::default()
        .numbers("answer", &answer_as_a_whole(done))
        .store(&next)
        .lent_words("calls", calls)
        .lent_words("answers", &lent)
}

/// What is reported of desks, and what that leaves of the room.
fn due_report(room: &[u32], report: impl FnOnce(&mut [u32]) -> [u32; ANSWER_WIDTH]) -> Reply {
    let mut lent = room.to_vec();
    let answer = report(&mut lent);
    Reply::default().numbers("report", &answer).lent_words("room", &lent)
}

/// What becomes of a text: its answer, the offset, the setup.
fn due_text(read: Result<(Setup, u32), Fault>) -> Reply {
    let (done, offset, setup) = match read {
        Ok((setup, count)) => (Ok(count), 0, setup),
        Err(fault) => (Err(fault.refusal), fault.offset, Setup::ZERO),
    };
    let answer = answer_as_a_whole(done);
    Reply::default().numbers("answer", &answer).length("offset", offset).setup(&setup)
}

fn due_alone(rules: Rules, text: &[u8]) -> Reply {
    let read = read_alone(rules, text).map(|setup| (setup, 0));
    due_text(read).lent_bytes("text", text)
}

fn due_with_calls(rules: Rules, text: &[u8], room: &[u32]) -> Reply {
    let mut lent = room.to_vec();
    let read = read_with_calls(rules, text, &mut lent);
    due_text(read).lent_bytes("text", text).lent_words("room", &lent)
}

fn due_grid(rules: Rules, setup: &Setup, room: &[u32]) -> Reply {
    let mut lent = room.to_vec();
    let answer = answer_as_a_whole(grid(rules, setup, &mut lent));
    Reply::default().numbers("answer", &answer).lent_words("room", &lent)
}
