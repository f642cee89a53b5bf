//! Rules, and one run of a rule.

use crate::automata::{Among, Automaton, Dense, Step};
use crate::measures::{Greatest, Least, Measure};
use crate::sweeps::{self, Codes, Figures, LONGEST, Sweep, backward, bits, forward};

/// The most cells of a plan.
pub const CELLS: usize = 192;

/// The mask of every cell.
pub type Cells = [u16; CELLS];

#[derive(Clone, Copy, PartialEq, Eq, Debug)]
pub enum Sense {
    AtMost,
    AtLeast,
    Exactly,
}

impl Sense {
    pub fn from_number(number: u8) -> Option<Sense> {
        match number {
            0 => Some(Sense::AtMost),
            1 => Some(Sense::AtLeast),
            2 => Some(Sense::Exactly),
            _ => None,
        }
    }
}

/// A row of cells whose total is held against a tally of open counts.
#[derive(Clone, Debug)]
pub struct Rule {
    pub row: Vec<u8>,
    pub sense: Sense,
    pub tally: u64,
}

/// What a rule counts with.
#[derive(Clone, Debug)]
pub enum Counter {
    Among(Among),
    Dense(Box<Dense>),
}

/// Both sweeps of one measure.
struct Ways {
    forth: Sweep,
    back: Sweep,
}

impl Ways {
    const EMPTY: Ways = Ways {
        forth: [[0; 16]; LONGEST + 1],
        back: [[0; 16]; LONGEST + 1],
    };

    fn sweep<M: Measure, A: Automaton>(&mut self, automaton: &A, masks: &[u16]) {
        forward::<M, A>(automaton, masks, &mut self.forth);
        backward::<M, A>(automaton, masks, &mut self.back);
    }

    /// The codes in front of a place and behind it.
    fn around(&self, place: usize) -> (&Codes, &Codes) {
        (&self.forth[place], &self.back[place + 1])
    }
}

/// Memory that runs use and that keeps nothing between them.
pub struct Scratch {
    least: Ways,
    greatest: Ways,
}

impl Scratch {
    pub fn new() -> Box<Scratch> {
        Box::new(Scratch {
            least: Ways::EMPTY,
            greatest: Ways::EMPTY,
        })
    }
}

/// The counts `least` and up.
fn from(least: u64) -> u64 {
    if least < 64 { u64::MAX << least } else { 0 }
}

/// The counts below `code`, which is one more than the greatest total.
fn below(code: u64) -> u64 {
    if code < 64 { (1 << code) - 1 } else { u64::MAX }
}

/// The least total by way of two codes and a gain.
fn least_by(front: u64, gain: u8, behind: u64) -> u64 {
    Least::add(front, gain).saturating_add(behind)
}

/// The code of the greatest total by way of two codes and a gain, none where either is.
fn greatest_by(front: u64, gain: u8, behind: u64) -> u64 {
    if front == Greatest::NONE || behind == Greatest::NONE {
        Greatest::NONE
    } else {
        front + u64::from(gain) + behind - 1
    }
}

/// The duties of a mask for which `fits` holds in some state.
fn supported<A: Automaton>(automaton: &A, mask: u16, fits: impl Fn(usize, Step) -> bool) -> u16 {
    bits(mask)
        .filter(|&duty| {
            (0..automaton.states().min(16)).any(|state| fits(state, automaton.step(state, duty)))
        })
        .fold(0, |kept, duty| kept | 1 << duty)
}

/// The masks along a row.
fn gather<'a>(row: &[u8], cells: &Cells, room: &'a mut [u16; LONGEST]) -> &'a [u16] {
    for (mask, &cell) in room.iter_mut().zip(row) {
        *mask = cells[usize::from(cell)];
    }
    &room[..row.len()]
}

/// Puts what `keep` leaves of each mask into the cells, and counts what went.
fn narrow(row: &[u8], masks: &[u16], cells: &mut Cells, keep: impl Fn(usize, u16) -> u16) -> u32 {
    let mut removed = 0;
    for (place, (&cell, &mask)) in row.iter().zip(masks).enumerate() {
        let kept = keep(place, mask);
        removed += (mask & !kept).count_ones();
        cells[usize::from(cell)] = kept;
    }
    removed
}

/// Runs a rule: takes from its cells and its tally what no longer fits, and counts what went.
pub fn run<A: Automaton>(
    automaton: &A,
    rule: &Rule,
    cells: &mut Cells,
    tally: &mut u64,
    scratch: &mut Scratch,
) -> u32 {
    let mut room = [0; LONGEST];
    let masks = gather(&rule.row, cells, &mut room);
    let open = *tally;
    let (removed, met) = match rule.sense {
        Sense::AtMost => at_most(automaton, rule, masks, open, cells, &mut scratch.least),
        Sense::AtLeast => at_least(automaton, rule, masks, open, cells, &mut scratch.greatest),
        Sense::Exactly => exactly(automaton, rule, masks, open, cells, scratch),
    };
    *tally = open & met;
    removed + (open & !met).count_ones()
}

fn at_most<A: Automaton>(
    automaton: &A,
    rule: &Rule,
    masks: &[u16],
    open: u64,
    cells: &mut Cells,
    least: &mut Ways,
) -> (u32, u64) {
    least.sweep::<Least, A>(automaton, masks);
    let limit = u64::from(64 - open.leading_zeros());
    let removed = narrow(&rule.row, masks, cells, |place, mask| {
        let (front, behind) = least.around(place);
        supported(automaton, mask, |state, step| {
            least_by(front[state], step.gain, behind[usize::from(step.next) % 16]) < limit
        })
    });
    (removed, from(least.back[0][0]))
}

fn at_least<A: Automaton>(
    automaton: &A,
    rule: &Rule,
    masks: &[u16],
    open: u64,
    cells: &mut Cells,
    greatest: &mut Ways,
) -> (u32, u64) {
    greatest.sweep::<Greatest, A>(automaton, masks);
    let floor = if open == 0 {
        u64::MAX
    } else {
        u64::from(open.trailing_zeros())
    };
    let removed = narrow(&rule.row, masks, cells, |place, mask| {
        let (front, behind) = greatest.around(place);
        supported(automaton, mask, |state, step| {
            greatest_by(front[state], step.gain, behind[usize::from(step.next) % 16]) > floor
        })
    });
    (removed, below(greatest.back[0][0]))
}

fn exactly<A: Automaton>(
    automaton: &A,
    rule: &Rule,
    masks: &[u16],
    open: u64,
    cells: &mut Cells,
    scratch: &mut Scratch,
) -> (u32, u64) {
    let Scratch { least, greatest } = scratch;
    least.sweep::<Least, A>(automaton, masks);
    greatest.sweep::<Greatest, A>(automaton, masks);
    let removed = narrow(&rule.row, masks, cells, |place, mask| {
        let (low, low_behind) = least.around(place);
        let (high, high_behind) = greatest.around(place);
        supported(automaton, mask, |state, step| {
            let next = usize::from(step.next) % 16;
            high[state] != Greatest::NONE
                && open
                    & from(least_by(low[state], step.gain, low_behind[next]))
                    & below(greatest_by(high[state], step.gain, high_behind[next]))
                    != 0
        })
    });
    let ends = least.forth[masks.len()]
        .iter()
        .zip(&greatest.forth[masks.len()]);
    let met = ends
        .take(automaton.states())
        .fold(0, |met, (&low, &high)| met | from(low) & below(high));
    (removed, met)
}

impl Counter {
    pub fn run(
        &self,
        rule: &Rule,
        cells: &mut Cells,
        tally: &mut u64,
        scratch: &mut Scratch,
    ) -> u32 {
        match self {
            Counter::Among(among) => run(among, rule, cells, tally, scratch),
            Counter::Dense(dense) => run(dense.as_ref(), rule, cells, tally, scratch),
        }
    }

    pub fn figures(&self, rule: &Rule, cells: &Cells, scratch: &mut Scratch) -> Option<Figures> {
        let mut room = [0; LONGEST];
        let masks = gather(&rule.row, cells, &mut room);
        let codes = &mut scratch.least.back;
        match self {
            Counter::Among(among) => sweeps::figures(among, masks, codes),
            Counter::Dense(dense) => sweeps::figures(dense.as_ref(), masks, codes),
        }
    }
}
