//! A desk, a class, a process or a file of a case goes, and all that was said by number keeps its meaning.

use crate::case::Case;
use crate::setups::MOST;
use crate::simpler::{setup_in, store_in, Simpler};
use second::call::{code, Call};
use second::gate::Three;
use second::setup::{right_at, Setup};
use second::sizes::{CALL_WIDTH, CLASSES, DESKS, FILES, PROCESSES};
use second::store::mark_at;

/// Each desk, class, process and file may go, the last first, so that those before keep their numbers.
pub fn ways_of_counts(setup: &Setup) -> Vec<Simpler> {
    let counts = [setup.desks, setup.classes, setup.processes, setup.files];
    let drops = [drop_desk, drop_class, drop_process, drop_file];
    let mut ways: Vec<Simpler> = Vec::new();
    for (which, drop) in drops.into_iter().enumerate().rev() {
        for number in (0..MOST[which].min(counts[which] as usize)).rev() {
            ways.push(Box::new(move |case| drop(case, number)));
        }
    }
    ways
}

/// Takes one away from a count, if one more is there and the count lies in its sizes.
fn one_less(count: &mut u32, number: usize, most: usize) -> bool {
    let held = *count as usize;
    let can = held >= 2 && held <= most && number < held;
    *count -= u32::from(can);
    can
}

/// An entry goes, those behind it move up, and the last becomes 0.
fn drop_entry<T: Copy + Default>(entries: &mut [T], place: usize) {
    entries.copy_within(place + 1.., place);
    if let Some(last) = entries.last_mut() {
        *last = T::default();
    }
}

/// A number that counts past one that goes is one less.
fn move_up<T: Copy + PartialOrd + std::ops::SubAssign>(number: &mut T, gone: T, one: T) {
    if *number > gone {
        *number -= one;
    }
}

/// Changes every call of a case.
fn each_call(case: &mut Case, change: impl Fn(&mut Call)) {
    match case {
        Case::Call(_, _, call) | Case::CallInPlace(_, _, call) => change(call),
        Case::List { calls, .. } => {
            for numbers in calls.chunks_exact_mut(CALL_WIDTH) {
                let mut call = Call::from_numbers(numbers);
                change(&mut call);
                numbers.copy_from_slice(&call.numbers());
            }
        }
        _ => {}
    }
}

fn drop_file(case: &mut Case, file: usize) {
    let Some(setup) = setup_in(case) else {
        return;
    };
    if !one_less(&mut setup.files, file, FILES) {
        return;
    }
    drop_entry(&mut setup.class_of, file);
    if let Some(store) = store_in(case) {
        drop_entry(&mut store.holders, file);
        drop_entry(&mut store.cells, file);
        store.marks.copy_within(mark_at(file + 1, 0).., mark_at(file, 0));
        store.marks[mark_at(FILES - 1, 0)..].fill(0);
    }
    each_call(case, |call| {
        move_up(&mut call.file, file as u32, 1);
        if call.operation == code::COPY {
            move_up(&mut call.extra, file as u32, 1);
        }
    });
}

fn drop_process(case: &mut Case, process: usize) {
    let Some(setup) = setup_in(case) else {
        return;
    };
    if !one_less(&mut setup.processes, process, PROCESSES) {
        return;
    }
    drop_entry(&mut setup.desk_of, process);
    if let Some(store) = store_in(case) {
        store.holders.iter_mut().for_each(|holder| move_up(holder, process as u32 + 1, 1));
        store.marks.chunks_mut(PROCESSES).for_each(|marks| drop_entry(marks, process));
    }
    each_call(case, |call| move_up(&mut call.process, process as u32, 1));
}

fn drop_desk(case: &mut Case, desk: usize) {
    let Some(setup) = setup_in(case) else {
        return;
    };
    if !one_less(&mut setup.desks, desk, DESKS) {
        return;
    }
    setup.rights.copy_within(right_at(desk + 1, 0).., right_at(desk, 0));
    setup.rights[right_at(DESKS - 1, 0)..].fill(0);
    let seats = &mut setup.desk_of[..];
    seats.iter_mut().for_each(|seat| move_up(seat, desk as u8, 1));
    seats.iter_mut().for_each(|seat| *seat = (*seat).min(setup.desks as u8 - 1));
    match case {
        Case::Route { a, b, .. } => {
            move_up(a, desk as u32, 1);
            move_up(b, desk as u32, 1);
        }
        Case::Gate { three: Three { a, b, gate }, .. } => {
            [a, b, gate].into_iter().for_each(|number| move_up(number, desk as u32, 1));
        }
        Case::Grid { setup, room } => drop_row_and_column(room, setup.desks as usize),
        _ => {}
    }
}

/// A grid's room loses what it held for the desk that went, so that as much as before lies past the grid, or lacks.
fn drop_row_and_column(room: &mut Vec<u32>, desks: usize) {
    let held = 2 * desks + 1;
    room.truncate(room.len().saturating_sub(held));
}

fn drop_class(case: &mut Case, class: usize) {
    let Some(setup) = setup_in(case) else {
        return;
    };
    if !one_less(&mut setup.classes, class, CLASSES) {
        return;
    }
    setup.rights.chunks_mut(CLASSES).for_each(|row| drop_entry(row, class));
    let classes = &mut setup.class_of[..];
    classes.iter_mut().for_each(|of| move_up(of, class as u8, 1));
    classes.iter_mut().for_each(|of| *of = (*of).min(setup.classes as u8 - 1));
}
