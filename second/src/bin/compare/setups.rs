//! Setups at random: sound ones of many shapes, forged ones, and bytes that may or may not be accepted.

use crate::gates::FEWEST;
use crate::random::Random;
use second::setup::{right_at, Setup, SetupBytes, R, RW, W};
use second::sizes::{CLASSES, DESKS, FILES, PROCESSES};

/// The most of each thing, in the order of the counts.
pub const MOST: [usize; 4] = [DESKS, CLASSES, PROCESSES, FILES];

const SMALL: [usize; 4] = [4, 3, 5, 4];
const TINY: [usize; 4] = [3, 2, 3, 2];

/// Counts of a random shape: tiny, small, any, or each at one of its limits.
fn counts(random: &mut Random) -> [usize; 4] {
    let shape = random.below(8);
    let most = match shape {
        0 | 1 => TINY,
        2..=4 => SMALL,
        _ => MOST,
    };
    most.map(|most| match shape {
        7 => random.pick(&[1, most]),
        _ => random.between(1, most),
    })
}

/// A sound setup of random counts, with rights as thick as chance has it.
pub fn sound(random: &mut Random) -> Setup {
    let counts = counts(random);
    of_counts(random, counts)
}

/// A sound setup small enough that random calls meet each other.
pub fn small(random: &mut Random) -> Setup {
    let counts = SMALL.map(|most| random.between(1, most));
    of_counts(random, counts)
}

/// A small setup with so many desks or more: as chance has it, or with every desk and class served, or a line.
pub fn for_search(random: &mut Random, least: usize) -> Setup {
    let desks = random.between(least, SMALL[0]);
    let classes = random.between(1, SMALL[1]);
    let files = random.between(classes, SMALL[3]);
    let mut setup = of_counts(random, [desks, classes, SMALL[2], files]);
    if random.once_in(3) {
        return setup;
    }
    (0..SMALL[2]).for_each(|process| setup.desk_of[process] = (process % desks) as u8);
    (0..files).for_each(|file| setup.class_of[file] = (file % classes) as u8);
    if random.once_in(2) {
        setup.rights = Setup::ZERO.rights;
        let order = order(random, desks);
        for (class, pair) in order.windows(2).take(classes).enumerate() {
            setup.rights[right_at(pair[0], class)] |= W;
            setup.rights[right_at(pair[1], class)] |= R;
        }
    }
    setup
}

/// A small setup with desks enough for a gate and few links, each with a class and a file of its own.
pub fn sparse(random: &mut Random) -> Setup {
    const MOST_DESKS: usize = 5;
    let desks = random.between(FEWEST, MOST_DESKS);
    let links = random.between(2, MOST_DESKS + 1);
    let mut setup = of_counts(random, [desks, links, MOST_DESKS, links]);
    setup.rights = Setup::ZERO.rights;
    (0..MOST_DESKS).for_each(|process| setup.desk_of[process] = (process % desks) as u8);
    for class in 0..links {
        setup.class_of[class] = class as u8;
        let from = random.below(desks);
        let to = (from + random.between(1, desks - 1)) % desks;
        grant(&mut setup, &[from], class, W);
        grant(&mut setup, &[to], class, R);
    }
    setup
}

pub fn of_counts(random: &mut Random, counts: [usize; 4]) -> Setup {
    let [desks, classes, processes, files] = counts;
    let mut setup = Setup {
        desks: desks as u32,
        classes: classes as u32,
        processes: processes as u32,
        files: files as u32,
        ..Setup::ZERO
    };
    let sparse = random.pick(&[1, 2, 3, 5, 6, 6]);
    for desk in 0..desks {
        for class in 0..classes {
            let right = if random.below(6) < sparse { random.between(1, 3) as u8 } else { 0 };
            setup.rights[right_at(desk, class)] = right;
        }
    }
    let crowded = random.between(1, desks);
    setup.desk_of[..processes].fill_with(|| random.below(crowded) as u8);
    let narrow = random.between(1, classes);
    setup.class_of[..files].fill_with(|| random.below(narrow) as u8);
    shuffled_entries(random, &mut setup);
    setup
}

/// Sometimes every process sits at a desk of its own as far as desks go, and so with files.
fn shuffled_entries(random: &mut Random, setup: &mut Setup) {
    if random.once_in(2) {
        let start = random.below(setup.desks as usize);
        for process in 0..setup.processes as usize {
            setup.desk_of[process] = ((start + process) % setup.desks as usize) as u8;
        }
    }
    if random.once_in(2) {
        let start = random.below(setup.classes as usize);
        for file in 0..setup.files as usize {
            setup.class_of[file] = ((start + file) % setup.classes as usize) as u8;
        }
    }
}

/// The numbers below a bound in a random order.
pub fn order(random: &mut Random, bound: usize) -> Vec<usize> {
    let mut order: Vec<usize> = (0..bound).collect();
    for place in (1..bound).rev() {
        order.swap(place, random.below(place + 1));
    }
    order
}

/// A setup whose links make a line of layers, with the layers' desks in order. A chain from the first
/// layer to the last has a link for each step; links backward are strewn in, and change no fewest chain.
pub fn line(random: &mut Random, links: usize) -> (Setup, Vec<Vec<usize>>) {
    line_among(random, DESKS, links)
}

/// Such a line with so many desks in the setup, which are more than the links.
pub fn line_among(random: &mut Random, desks: usize, links: usize) -> (Setup, Vec<Vec<usize>>) {
    let desks = order(random, desks);
    let classes = order(random, CLASSES);
    let mut layers: Vec<Vec<usize>> = desks[..=links].iter().map(|&desk| vec![desk]).collect();
    for &desk in &desks[links + 1..] {
        if random.once_in(2) {
            let layer = random.below(layers.len());
            layers[layer].push(desk);
        }
    }
    let files = random.between(links, FILES);
    let mut setup = of_counts(random, [desks.len(), CLASSES, PROCESSES, files]);
    setup.rights = Setup::ZERO.rights;
    for step in 0..links {
        grant(&mut setup, &layers[step], classes[step], W);
        grant(&mut setup, &layers[step + 1], classes[step], R);
    }
    seat(random, &mut setup, &desks, &classes[..links]);
    strew_backward(random, &mut setup, &layers, &classes[..links]);
    (setup, layers)
}

/// A setup with two ways between two desks, which have no desk in common but those, and these two desks. The one
/// way may be much longer than the other.
pub fn two_ways(random: &mut Random) -> (Setup, [u32; 2]) {
    let shorter = if random.once_in(2) { 2 } else { random.between(2, CLASSES / 2) };
    let longer = random.between(shorter, CLASSES - shorter);
    let links = shorter + longer;
    let (desks, classes) = (order(random, DESKS), order(random, CLASSES));
    let (a, b) = (desks[0], desks[1]);
    let files = random.between(links, FILES);
    let mut setup = of_counts(random, [DESKS, CLASSES, PROCESSES, files]);
    setup.rights = Setup::ZERO.rights;
    let middles = [&desks[2..=shorter], &desks[shorter + 1..links]];
    let ways = middles.map(|middle| [&[a][..], middle, &[b]].concat());
    let pairs = ways.iter().flat_map(|way| way.windows(2));
    for (pair, &class) in pairs.zip(&classes) {
        grant(&mut setup, &pair[..1], class, W);
        grant(&mut setup, &pair[1..], class, R);
    }
    seat(random, &mut setup, &desks, &classes[..links]);
    (setup, [a as u32, b as u32])
}

fn grant(setup: &mut Setup, desks: &[usize], class: usize, right: u8) {
    for &desk in desks {
        setup.rights[right_at(desk, class)] |= right;
    }
}

/// Every desk gets a process and every class of the line a file, in random places.
fn seat(random: &mut Random, setup: &mut Setup, desks: &[usize], classes: &[usize]) {
    let places = order(random, setup.processes as usize);
    for (&desk, place) in desks.iter().zip(places) {
        setup.desk_of[place] = desk as u8;
    }
    let places = order(random, setup.files as usize);
    for (turn, place) in places.into_iter().enumerate() {
        setup.class_of[place] = classes[turn % classes.len()] as u8;
    }
}

/// R on the class of an earlier step makes a link that leads back, or to the same layer, or one on.
fn strew_backward(
    random: &mut Random,
    setup: &mut Setup,
    layers: &[Vec<usize>],
    classes: &[usize],
) {
    for _ in 0..random.below(6) {
        let step = random.below(classes.len());
        let layer = random.below(step + 2);
        let desk = random.pick(&layers[layer]);
        setup.rights[right_at(desk, classes[step])] |= R;
    }
}

/// A setup that could not have been accepted, most often for one cause alone.
pub fn forged(random: &mut Random) -> Setup {
    let mut setup = sound(random);
    if random.once_in(40) {
        setup.rights.fill_with(|| random.next() as u8);
        setup.desk_of.fill_with(|| random.next() as u8);
        setup.class_of.fill_with(|| random.next() as u8);
    }
    damage(random, &mut setup);
    while random.once_in(4) {
        damage(random, &mut setup);
    }
    setup
}

fn count_of(setup: &mut Setup, which: usize) -> &mut u32 {
    match which {
        0 => &mut setup.desks,
        1 => &mut setup.classes,
        2 => &mut setup.processes,
        _ => &mut setup.files,
    }
}

/// One entry is made wrong; where the counts leave no room for it, nothing is.
fn damage(random: &mut Random, setup: &mut Setup) {
    let bound = |count: u32, most: usize| (count as usize).clamp(1, most);
    let desks = bound(setup.desks, DESKS);
    let classes = bound(setup.classes, CLASSES);
    let processes = bound(setup.processes, PROCESSES);
    let files = bound(setup.files, FILES);
    let byte = random.between(1, 255) as u8;
    match random.below(12) {
        0..=2 => damage_count(random, setup),
        3 => *count_of(setup, random.below(4)) = 0,
        4 | 5 => {
            let place = right_at(random.below(desks), random.below(classes));
            setup.rights[place] = random.between(RW as usize + 1, 255) as u8;
        }
        6 => setup.desk_of[random.below(processes)] = random.between(desks, 255) as u8,
        7 => setup.class_of[random.below(files)] = random.between(classes, 255) as u8,
        8 if classes < CLASSES => {
            let place = right_at(random.below(desks), random.between(classes, CLASSES - 1));
            setup.rights[place] = byte;
        }
        9 if desks < DESKS => {
            let place = right_at(random.between(desks, DESKS - 1), random.below(CLASSES));
            setup.rights[place] = byte;
        }
        10 if processes < PROCESSES => {
            setup.desk_of[random.between(processes, PROCESSES - 1)] = byte;
        }
        11 if files < FILES => setup.class_of[random.between(files, FILES - 1)] = byte,
        _ => {}
    }
}

fn damage_count(random: &mut Random, setup: &mut Setup) {
    let which = random.below(MOST.len());
    let past = MOST[which] as u32 + 1;
    let wild = random.wild();
    *count_of(setup, which) = random.pick(&[past, past, past, u32::MAX, 256, 1 << 31, wild]);
}

/// The bytes of a sound setup, and now and then with something wrong in them.
pub fn bytes(random: &mut Random) -> SetupBytes {
    let mut given = sound(random).to_bytes();
    if random.once_in(3) {
        return given;
    }
    damage_bytes(random, &mut given);
    while random.once_in(2) {
        damage_bytes(random, &mut given);
    }
    if random.once_in(4) {
        match_lengths(&mut given);
    }
    given
}

fn damage_bytes(random: &mut Random, given: &mut SetupBytes) {
    let counts = [&mut given.desks, &mut given.classes, &mut given.processes, &mut given.files];
    let (desks, classes) = (*counts[0], *counts[1]);
    match random.below(8) {
        0 | 1 => {
            let which = random.below(4);
            let past = MOST[which] as u32 + 1;
            let wild = random.wild();
            *counts[which] = random.pick(&[0, past, past, u32::MAX, wild]);
        }
        2..=4 => {
            let slices = [&mut given.rights, &mut given.desk_of, &mut given.class_of];
            let which = random.below(3);
            change_length(random, slices[which]);
        }
        5 => set_one(random, &mut given.rights, RW as usize + 1),
        6 => set_one(random, &mut given.desk_of, desks as usize),
        _ => set_one(random, &mut given.class_of, classes as usize),
    }
}

/// The slices are made as long as the counts ask, where that is not too long to be lent.
fn match_lengths(given: &mut SetupBytes) {
    const LENT_MOST: u64 = 4096;
    let cells = u64::from(given.desks) * u64::from(given.classes);
    let lengths = [cells, u64::from(given.processes), u64::from(given.files)];
    let slices = [&mut given.rights, &mut given.desk_of, &mut given.class_of];
    for (slice, length) in slices.into_iter().zip(lengths) {
        if length <= LENT_MOST {
            slice.resize(length as usize, 0);
        }
    }
}

fn change_length(random: &mut Random, slice: &mut Vec<u8>) {
    match random.below(5) {
        0 => slice.clear(),
        1 | 2 => {
            slice.pop();
        }
        3 => slice.push(0),
        _ => slice.resize(random.below(600), 0),
    }
}

/// One byte of a slice becomes a value that is at least the given one, where a byte can be.
fn set_one(random: &mut Random, slice: &mut [u8], least: usize) {
    if slice.is_empty() || least > 255 {
        return;
    }
    let value = if random.once_in(2) { least } else { random.between(least, 255) };
    let place = random.below(slice.len());
    slice[place] = value as u8;
}
