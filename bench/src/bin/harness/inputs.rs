//! Seeded inputs: automata, rows, rules and masks of any size.

use plain::random::Random;
use plain::rules::{CELLS, Rule, Sense};
use plain::settling::RULES;
use plain::setup::{Family, Setup};

use crate::kernel::{Case, Masks};

/// The first duties, so many, as a mask.
pub fn duties(number: usize) -> u16 {
    u16::MAX >> (16 - number)
}

/// Steps of a table of so many states, any next state and gains 0 to 3.
fn steps(random: &mut Random, states: usize) -> Vec<u8> {
    (0..16 * states)
        .map(|_| (16 * random.below(states) + random.below(4)) as u8)
        .collect()
}

/// A word of so many duties among the first four, so that its borders matter.
fn word(random: &mut Random, len: usize) -> Vec<u8> {
    (0..len).map(|_| random.below(4) as u8).collect()
}

/// Automata with so many states: a set, a word read by classes, a table.
pub fn setup(random: &mut Random, states: usize) -> Setup {
    let mut classes = [0; 16];
    for (duty, class) in classes.iter_mut().enumerate() {
        *class = (duty % 4) as u8;
    }
    let word = word(random, states);
    let steps = steps(random, states);
    Setup::new(0b0110_0110_0110_0110, classes, &word, states, &steps)
}

/// So many different ones of the first cells, in any order.
pub fn row(random: &mut Random, first: usize, len: usize) -> Vec<u8> {
    let mut cells: Vec<u8> = (0..first as u8).collect();
    for i in 0..len {
        let j = i + random.below(first - i);
        cells.swap(i, j);
    }
    cells.truncate(len);
    cells
}

/// Rows of masks, so many of so many, within the first duties.
pub fn rows(random: &mut Random, number: usize, len: usize, open: u16) -> Vec<u16> {
    (0..number * len).map(|_| random.within(open, 60)).collect()
}

/// A tally that a row of this length can hold to, with holes now and then.
pub fn tally(random: &mut Random, sense: Sense, len: usize) -> u64 {
    let middle = (len / 2).min(40) as u32 + random.below(8) as u32;
    match sense {
        Sense::AtMost => (1 << (middle + 1)) - 1,
        Sense::AtLeast => u64::MAX << middle,
        Sense::Exactly => 1 << middle | 1 << (middle + 3) | 1 << random.below(64),
    }
}

/// Cells within the first duties.
fn cells(random: &mut Random, open: u16, chance: usize) -> [u16; CELLS] {
    std::array::from_fn(|_| random.within(open, chance))
}

/// Cases for one rule.
pub fn cases(random: &mut Random, number: usize, rule: &Rule, open: u16) -> Vec<Case> {
    let case = |_| Case {
        cells: cells(random, open, 60),
        tally: rule.tally,
        removed: 0,
    };
    (0..number).map(case).collect()
}

/// Rules of all families and senses in turn, over rows of so many of the first cells.
pub fn rules(random: &mut Random, setup: &mut Setup, number: usize, first: usize, len: usize) {
    for rule in 0..number {
        let family = [Family::Set, Family::Word, Family::Table][rule % 3];
        let sense = [Sense::AtMost, Sense::AtLeast, Sense::Exactly][rule / 3 % 3];
        let row = row(random, first, len);
        let tally = match (family, sense) {
            (Family::Word, Sense::AtLeast) => u64::MAX,
            (_, sense) => tally(random, sense, len) | 1 << random.below(len),
        };
        setup.post(family, Rule { row, sense, tally });
    }
}

/// Masks to settle, with the rules' tallies.
pub fn masks(random: &mut Random, number: usize, setup: &Setup, open: u16) -> Vec<Masks> {
    let mut tallies = [0; RULES];
    for (tally, (_, rule)) in tallies.iter_mut().zip(&setup.rules) {
        *tally = rule.tally;
    }
    (0..number)
        .map(|_| Masks {
            cells: cells(random, open, 85),
            tallies,
        })
        .collect()
}
