//! Forward and backward sweeps over a row of masks.

use crate::automata::{Automaton, SIZE};
use crate::measures::{Greatest, Least, Measure, Totals};

/// The codes of one place, one for each state.
pub type Codes = [u64; SIZE];

/// The most masks in a row.
pub const LONGEST: usize = 64;

/// Codes for every place of the longest row, and the place behind it.
pub type Sweep = [Codes; LONGEST + 1];

/// The bits of a mask, lowest first.
pub fn bits(mask: u16) -> impl Iterator<Item = usize> {
    let mut rest = mask;
    std::iter::from_fn(move || {
        if rest == 0 {
            return None;
        }
        let bit = rest.trailing_zeros() as usize;
        rest &= rest - 1;
        Some(bit)
    })
}

/// Fills `codes[i][q]` with the measure of the sequences over the first i masks that end in state q.
pub fn forward<M: Measure, A: Automaton>(automaton: &A, masks: &[u16], codes: &mut [Codes]) {
    codes[0] = [M::NONE; SIZE];
    codes[0][0] = M::START;
    let states = automaton.states();
    for (i, &mask) in masks.iter().enumerate() {
        let [before, after] = &mut codes[i..i + 2] else {
            return;
        };
        *after = [M::NONE; SIZE];
        for (state, &code) in before.iter().enumerate().take(states) {
            if code != M::NONE {
                for duty in bits(mask) {
                    let step = automaton.step(state, duty);
                    let to = &mut after[usize::from(step.next) % SIZE];
                    *to = M::join(*to, M::add(code, step.gain));
                }
            }
        }
    }
}

/// Fills `codes[i][q]` with the measure of the sequences over the masks from i on, read from state q.
pub fn backward<M: Measure, A: Automaton>(automaton: &A, masks: &[u16], codes: &mut [Codes]) {
    let states = automaton.states();
    codes[masks.len()] = [M::NONE; SIZE];
    codes[masks.len()][..states].fill(M::START);
    for (i, &mask) in masks.iter().enumerate().rev() {
        let [before, after] = &mut codes[i..i + 2] else {
            return;
        };
        *before = [M::NONE; SIZE];
        for (state, code) in before.iter_mut().enumerate().take(states) {
            *code = bits(mask).fold(M::NONE, |code, duty| {
                let step = automaton.step(state, duty);
                M::join(
                    code,
                    M::add(after[usize::from(step.next) % SIZE], step.gain),
                )
            });
        }
    }
}

/// What all sequences of a row have for totals.
#[derive(Clone, Copy, PartialEq, Eq, Debug)]
pub struct Figures {
    pub least: u64,
    pub greatest: u64,
    pub totals: u64,
}

/// The figures of a row, none where it has no sequence.
pub fn figures<A: Automaton>(automaton: &A, masks: &[u16], codes: &mut [Codes]) -> Option<Figures> {
    backward::<Least, A>(automaton, masks, codes);
    let least = codes[0][0];
    if least == Least::NONE {
        return None;
    }
    backward::<Greatest, A>(automaton, masks, codes);
    let greatest = codes[0][0] - 1;
    backward::<Totals, A>(automaton, masks, codes);
    Some(Figures {
        least,
        greatest,
        totals: codes[0][0],
    })
}
