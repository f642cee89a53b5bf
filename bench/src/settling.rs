//! Settling: every rule in turn, round after round, until a round takes nothing.

use crate::rules::{Cells, Counter, Rule, Scratch};

/// The most rules of a plan.
pub const RULES: usize = 72;

/// The tally of every rule.
pub type Tallies = [u64; RULES];

/// The rules of a plan in their order, each with the number of its counter.
#[derive(Clone, Debug, Default)]
pub struct Rules {
    pub counters: Vec<Counter>,
    pub rules: Vec<(usize, Rule)>,
}

#[derive(Clone, Copy, Default, PartialEq, Eq, Debug)]
pub struct Work {
    pub runs: u32,
    pub removed: u32,
}

/// What a run left empty.
#[derive(Clone, Copy, PartialEq, Eq, Debug)]
pub enum Spot {
    Cell(usize),
    Tally,
}

#[derive(Clone, Copy, PartialEq, Eq, Debug)]
pub struct Failure {
    pub rule: usize,
    pub spot: Spot,
    pub work: Work,
}

impl Rules {
    /// The tallies at the outset; 0 where there is no rule.
    pub fn start_tallies(&self) -> Tallies {
        let mut tallies = [0; RULES];
        for (tally, (_, rule)) in tallies.iter_mut().zip(&self.rules) {
            *tally = rule.tally;
        }
        tallies
    }

    /// Settles masks none of which is empty.
    pub fn settle(
        &self,
        cells: &mut Cells,
        tallies: &mut Tallies,
        scratch: &mut Scratch,
    ) -> Result<Work, Failure> {
        let mut work = Work::default();
        loop {
            let before = work.removed;
            for (number, ((counter, rule), tally)) in
                self.rules.iter().zip(tallies.iter_mut()).enumerate()
            {
                let removed = self.counters[*counter].run(rule, cells, tally, scratch);
                work.runs += 1;
                work.removed += removed;
                if removed > 0
                    && let Some(spot) = emptied(rule, cells, *tally)
                {
                    return Err(Failure {
                        rule: number,
                        spot,
                        work,
                    });
                }
            }
            if work.removed == before {
                return Ok(work);
            }
        }
    }
}

/// The lowest empty cell of the rule's row, or else its tally if that is empty.
fn emptied(rule: &Rule, cells: &Cells, tally: u64) -> Option<Spot> {
    let lowest = rule
        .row
        .iter()
        .filter(|&&cell| cells[usize::from(cell)] == 0)
        .min();
    match lowest {
        Some(&cell) => Some(Spot::Cell(usize::from(cell))),
        None if tally == 0 => Some(Spot::Tally),
        None => None,
    }
}
