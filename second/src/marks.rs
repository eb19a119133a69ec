//! Written marks, by Req 02: what sets, carries and clears them, what READ makes of them, and what they must be.

use crate::call::{call_in_place, Answer, Call};
use crate::cases::{answers, q, NOTHING};
use crate::list::run;
use crate::refusal::Refusal;
use crate::rules::Rules;
use crate::setup::{accept, Setup, SetupBytes};
use crate::sizes::{CALL_WIDTH, FILES};
use crate::store::{fresh, judge, Cell, Store};

const RULES: Rules = Rules::UNTURNED;

/// One desk that may do everything, one process, and as many files as are asked for.
fn alone(files: u32) -> Setup {
    let bytes = SetupBytes {
        desks: 1,
        classes: 1,
        processes: 1,
        files,
        rights: vec![3],
        desk_of: vec![0],
        class_of: vec![0; files as usize],
    };
    accept(RULES, &bytes).unwrap()
}

/// Files 0 and 1 open, then locked, by process 0.
const TAKEN: [[u32; CALL_WIDTH]; 4] = [[5, 0, 0, 0], [5, 0, 1, 0], [3, 0, 0, 0], [3, 0, 1, 0]];

const READ_0: [u32; CALL_WIDTH] = [1, 0, 0, 0];
const READ_1: [u32; CALL_WIDTH] = [1, 0, 1, 0];
const COPY_0_TO_1: [u32; CALL_WIDTH] = [8, 0, 0, 1];

/// What calls answer once both files are taken, and the cells that they leave.
fn after_taking(calls: &[[u32; CALL_WIDTH]]) -> (Vec<[u32; 2]>, [Cell; 2]) {
    let setup = alone(2);
    let mut store = fresh(RULES, &setup).unwrap();
    for call in TAKEN.iter().chain(calls) {
        call_in_place(RULES, &setup, &mut store, Call::from_numbers(call));
        assert_eq!(judge(RULES, &setup, &store), Ok(()));
    }
    let answers = answers(&setup, &[&TAKEN[..], calls].concat());
    (answers[TAKEN.len()..].to_vec(), [store.cells[0], store.cells[1]])
}

#[test]
fn nothing_is_written_in_a_fresh_store() {
    let store = fresh(RULES, &q()).unwrap();
    assert_eq!(store.cells, [Cell { figure: 0, written: 0 }; FILES]);
    assert_eq!(Store::REFUSED.cells, [Cell { figure: 0, written: 0 }; FILES]);
    assert_eq!(fresh(RULES, &Setup::ZERO), Err(Refusal::NoSetup));
}

#[test]
fn write_of_0_is_written() {
    let (answers, cells) = after_taking(&[READ_0, [2, 0, 0, 0], READ_0, READ_1]);
    assert_eq!(answers, [NOTHING, NOTHING, [1, 0], NOTHING]);
    assert_eq!(cells, [Cell { figure: 0, written: 1 }, Cell { figure: 0, written: 0 }]);
}

#[test]
fn write_of_0_over_a_figure_stays_written() {
    let (answers, cells) = after_taking(&[[2, 0, 0, 5], READ_0, [2, 0, 0, 0], READ_0]);
    assert_eq!(answers, [NOTHING, [1, 5], NOTHING, [1, 0]]);
    assert_eq!(cells[0], Cell { figure: 0, written: 1 });
}

#[test]
fn a_write_that_does_not_go_through_marks_nothing() {
    let calls = [[2, 0, 0, 5], [5, 0, 0, 0], READ_0];
    assert_eq!(answers(&alone(2), &calls), [NOTHING; 3]);
}

#[test]
fn copy_of_unwritten_makes_a_written_target_unwritten() {
    let (answers, cells) = after_taking(&[[2, 0, 1, 5], READ_1, COPY_0_TO_1, READ_1]);
    assert_eq!(answers, [NOTHING, [1, 5], NOTHING, NOTHING]);
    assert_eq!(cells, [Cell { figure: 0, written: 0 }; 2]);
}

#[test]
fn copy_carries_a_written_0() {
    let (answers, cells) = after_taking(&[[2, 0, 0, 0], COPY_0_TO_1, READ_1]);
    assert_eq!(answers, [NOTHING, NOTHING, [1, 0]]);
    assert_eq!(cells, [Cell { figure: 0, written: 1 }; 2]);
}

/// What a fresh store is judged to be once a file's cell is another, by each entry that takes a store.
fn judged(file: usize, figure: u32, written: u32) -> Result<(), Refusal> {
    let (setup, mut store) = (alone(2), Store::FRESH);
    store.cells[file] = Cell { figure, written };
    let judged = judge(RULES, &setup, &store);
    let before = store.clone();
    assert_eq!(run(RULES, &setup, &store, &[], &mut []), (judged.map(|()| 0), before.clone()));
    let answer = call_in_place(RULES, &setup, &mut store, Call::from_numbers(&[9, 9, 9, 9]));
    let refusal = judged.err().unwrap_or(Refusal::NoSuchOperation);
    assert_eq!((answer, store), (Answer::Refused(refusal), before));
    judged
}

const UNFIT: Result<(), Refusal> = Err(Refusal::StoreDoesNotFit);

#[test]
fn a_written_mark_is_0_or_1() {
    for figure in [0, 1, u32::MAX] {
        assert_eq!(judged(1, figure, 1), Ok(()));
        for mark in [2, 3, 255, 256, 257, 1 << 31, u32::MAX] {
            assert_eq!(judged(1, figure, mark), UNFIT);
        }
    }
}

#[test]
fn an_unwritten_file_has_no_figure() {
    assert_eq!(judged(0, 0, 0), Ok(()));
    for figure in [1, 256, 1 << 31, u32::MAX] {
        assert_eq!(judged(0, figure, 0), UNFIT);
    }
}

#[test]
fn files_past_the_last_are_unwritten() {
    for file in [2, FILES - 1] {
        assert_eq!(judged(file, 0, 0), Ok(()));
        for (figure, written) in [(0, 1), (0, 2), (5, 0), (5, 1)] {
            assert_eq!(judged(file, figure, written), UNFIT);
        }
    }
}
