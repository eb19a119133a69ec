//! A setup: who sits where, what is of which class, and what each desk may do with each class.

use crate::refusal::Refusal;
use crate::rules::{Rules, Turn};
use crate::sizes::{CLASSES, DESKS, FILES, PROCESSES, RIGHTS};

/// The bits of a right.
pub const R: u8 = 1;
pub const W: u8 = 2;
pub const RW: u8 = R | W;

/// Any bytes at all may stand here; `could_be_accepted` tells whether they are a setup.
#[derive(Clone, PartialEq, Eq, Debug)]
pub struct Setup {
    pub desks: u32,
    pub classes: u32,
    pub processes: u32,
    pub files: u32,
    /// The right of desk d on class t lies at `right_at(d, t)`.
    pub rights: [u8; RIGHTS],
    pub desk_of: [u8; PROCESSES],
    pub class_of: [u8; FILES],
}

/// A setup handed in as bytes: four counts and three slices.
#[derive(Clone, PartialEq, Eq, Debug)]
pub struct SetupBytes {
    pub desks: u32,
    pub classes: u32,
    pub processes: u32,
    pub files: u32,
    pub rights: Vec<u8>,
    pub desk_of: Vec<u8>,
    pub class_of: Vec<u8>,
}

pub fn right_at(desk: usize, class: usize) -> usize {
    desk * CLASSES + class
}

impl Setup {
    /// What stands beside the number of a refusal.
    pub const ZERO: Setup = Setup {
        desks: 0,
        classes: 0,
        processes: 0,
        files: 0,
        rights: [0; RIGHTS],
        desk_of: [0; PROCESSES],
        class_of: [0; FILES],
    };

    fn right(&self, process: usize, file: usize) -> u8 {
        let desk = self.desk_of[process] as usize;
        let class = self.class_of[file] as usize;
        self.rights[right_at(desk, class)]
    }

    /// Whether the process's desk has R on the file's class.
    pub fn reads(&self, process: usize, file: usize) -> bool {
        self.right(process, file) & R != 0
    }

    /// Whether the process's desk has W on the file's class.
    pub fn writes(&self, process: usize, file: usize) -> bool {
        self.right(process, file) & W != 0
    }

    /// The bytes that give this setup, if any bytes do. The counts must lie in their sizes.
    pub fn to_bytes(&self) -> SetupBytes {
        let (desks, classes) = (self.desks as usize, self.classes as usize);
        let mut rights = Vec::with_capacity(desks * classes);
        for desk in 0..desks {
            rights.extend_from_slice(&self.rights[right_at(desk, 0)..right_at(desk, classes)]);
        }
        SetupBytes {
            desks: self.desks,
            classes: self.classes,
            processes: self.processes,
            files: self.files,
            rights,
            desk_of: self.desk_of[..self.processes as usize].to_vec(),
            class_of: self.class_of[..self.files as usize].to_vec(),
        }
    }
}

/// Whether four counts each lie in their sizes.
pub fn counts_fit(desks: u32, classes: u32, processes: u32, files: u32) -> bool {
    let within = |count: u32, most: usize| count >= 1 && count as usize <= most;
    within(desks, DESKS)
        && within(classes, CLASSES)
        && within(processes, PROCESSES)
        && within(files, FILES)
}

/// Refusals of setup bytes come in this order: 1, 10, 2, 3, 4.
pub fn accept(rules: Rules, given: &SetupBytes) -> Result<Setup, Refusal> {
    let cells = u64::from(given.desks) * u64::from(given.classes);
    let counts = counts_fit(given.desks, given.classes, given.processes, given.files);
    let lengths = given.rights.len() as u64 == cells
        && given.desk_of.len() as u64 == u64::from(given.processes)
        && given.class_of.len() as u64 == u64::from(given.files);
    let rights = given.rights.iter().all(|&right| right <= RW);
    let desks = given.desk_of.iter().all(|&desk| u32::from(desk) < given.desks);
    let classes = given.class_of.iter().all(|&class| u32::from(class) < given.classes);
    let mut order = [
        (counts, Refusal::CountOutside),
        (lengths, Refusal::WrongLength),
        (rights, Refusal::RightAbove3),
        (desks, Refusal::DeskOutside),
        (classes, Refusal::ClassOutside),
    ];
    if rules.turned(Turn::LengthsBeforeCounts) {
        order.swap(0, 1);
    }
    if rules.turned(Turn::DesksBeforeRights) {
        order.swap(2, 3);
    }
    match order.iter().find(|(holds, _)| !holds) {
        Some(&(_, refusal)) => Err(refusal),
        None => Ok(lay_out(given)),
    }
}

/// The setup that sound bytes give, with 0 in every entry past the counts.
fn lay_out(given: &SetupBytes) -> Setup {
    let mut setup = Setup {
        desks: given.desks,
        classes: given.classes,
        processes: given.processes,
        files: given.files,
        ..Setup::ZERO
    };
    for (desk, row) in given.rights.chunks(given.classes as usize).enumerate() {
        setup.rights[right_at(desk, 0)..right_at(desk, row.len())].copy_from_slice(row);
    }
    setup.desk_of[..given.desk_of.len()].copy_from_slice(&given.desk_of);
    setup.class_of[..given.class_of.len()].copy_from_slice(&given.class_of);
    setup
}

/// A setup could have been accepted when the bytes within its counts give the very same setup.
pub fn could_be_accepted(rules: Rules, setup: &Setup) -> bool {
    if !counts_fit(setup.desks, setup.classes, setup.processes, setup.files) {
        return false;
    }
    match accept(Rules::UNTURNED, &setup.to_bytes()) {
        Ok(same) => same == *setup || rules.turned(Turn::SetupTailUnjudged),
        Err(_) => false,
    }
}
