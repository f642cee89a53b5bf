//! A plan under way: decisions, bounds, marks and backs.

use crate::rules::{Cells, Scratch};
use crate::settling::{Failure, Rules, Tallies, Work};
use crate::sweeps::Figures;

/// The most levels that may be open.
pub const LEVELS: usize = 16;

#[derive(Clone, Copy, Debug, PartialEq, Eq)]
pub struct Masks {
    pub cells: Cells,
    pub tallies: Tallies,
}

/// Why a call is turned down.
#[derive(Clone, Copy, PartialEq, Eq, Debug)]
pub enum Refusal {
    Cell = 6,
    EmptyMask = 7,
    EmptyTally = 12,
    Rule = 13,
    Void = 25,
    LevelsFull = 26,
    NoLevel = 27,
}

/// How a try went.
#[derive(Clone, Copy, PartialEq, Eq, Debug)]
pub enum Try {
    Settled(Work),
    Failed(Failure),
    /// It left nothing of the very mask that it names.
    Own,
}

pub struct Plan {
    limit: usize,
    rules: Rules,
    masks: Masks,
    levels: Vec<Masks>,
    void: bool,
    scratch: Box<Scratch>,
}

impl Plan {
    /// Starts a plan of `limit` cells, and tells how settling went. The plan is void if it failed.
    pub fn start(limit: usize, cells: Cells, rules: Rules) -> (Plan, Result<Work, Failure>) {
        let mut masks = Masks {
            cells,
            tallies: rules.start_tallies(),
        };
        let mut scratch = Scratch::new();
        let started = rules.settle(&mut masks.cells, &mut masks.tallies, &mut scratch);
        let void = started.is_err();
        let levels = Vec::with_capacity(LEVELS);
        (
            Plan {
                limit,
                rules,
                masks,
                levels,
                void,
                scratch,
            },
            started,
        )
    }

    fn check_alive(&self) -> Result<(), Refusal> {
        if self.void {
            Err(Refusal::Void)
        } else {
            Ok(())
        }
    }

    /// Settles after a change, and takes the change back if that fails.
    fn attempt(&mut self, change: impl FnOnce(&mut Masks) -> bool) -> Try {
        let before = self.masks;
        if !change(&mut self.masks) {
            self.masks = before;
            return Try::Own;
        }
        let Masks { cells, tallies } = &mut self.masks;
        match self.rules.settle(cells, tallies, &mut self.scratch) {
            Ok(work) => Try::Settled(work),
            Err(failure) => {
                self.masks = before;
                Try::Failed(failure)
            }
        }
    }

    /// Narrows a cell to what it shares with the mask.
    pub fn decide(&mut self, cell: usize, mask: u16) -> Result<Try, Refusal> {
        if cell >= self.limit {
            return Err(Refusal::Cell);
        }
        if mask == 0 {
            return Err(Refusal::EmptyMask);
        }
        self.check_alive()?;
        Ok(self.attempt(|masks| {
            masks.cells[cell] &= mask;
            masks.cells[cell] != 0
        }))
    }

    /// Narrows a rule's tally to what it shares with the given one.
    pub fn bound(&mut self, rule: usize, tally: u64) -> Result<Try, Refusal> {
        if tally == 0 {
            return Err(Refusal::EmptyTally);
        }
        if rule >= self.rules.rules.len() {
            return Err(Refusal::Rule);
        }
        self.check_alive()?;
        Ok(self.attempt(|masks| {
            masks.tallies[rule] &= tally;
            masks.tallies[rule] != 0
        }))
    }

    /// Opens a level, and tells how many are open.
    pub fn mark(&mut self) -> Result<usize, Refusal> {
        self.check_alive()?;
        if self.levels.len() >= LEVELS {
            return Err(Refusal::LevelsFull);
        }
        self.levels.push(self.masks);
        Ok(self.levels.len())
    }

    /// Goes back to the latest mark, and tells how many levels are open then.
    pub fn back(&mut self) -> Result<usize, Refusal> {
        self.check_alive()?;
        self.masks = self.levels.pop().ok_or(Refusal::NoLevel)?;
        Ok(self.levels.len())
    }

    /// The mask of a cell.
    pub fn cell(&self, cell: usize) -> u16 {
        self.masks.cells[cell]
    }

    /// The tally of a rule.
    pub fn tally(&self, rule: usize) -> u64 {
        self.masks.tallies[rule]
    }

    /// All masks as they are.
    pub fn masks(&self) -> &Masks {
        &self.masks
    }

    pub fn rule_count(&self) -> usize {
        self.rules.rules.len()
    }

    /// How many levels are open.
    pub fn levels(&self) -> usize {
        self.levels.len()
    }

    /// Ends the plan.
    pub fn publish(self) -> Roster {
        let Plan {
            limit,
            rules,
            masks,
            void,
            scratch,
            ..
        } = self;
        Roster {
            limit,
            rules,
            masks,
            void,
            scratch,
        }
    }
}

/// A published plan. A void one shows empty masks and no figures.
pub struct Roster {
    limit: usize,
    rules: Rules,
    masks: Masks,
    void: bool,
    scratch: Box<Scratch>,
}

impl Roster {
    pub fn cells(&self) -> impl Iterator<Item = u16> + '_ {
        let void = self.void;
        self.masks.cells[..self.limit]
            .iter()
            .map(move |&mask| if void { 0 } else { mask })
    }

    /// The tally and the figures of every rule.
    pub fn rules(&mut self) -> Vec<(u64, Option<Figures>)> {
        let Roster {
            rules: Rules { counters, rules },
            masks,
            void,
            scratch,
            ..
        } = self;
        let mut told = Vec::with_capacity(rules.len());
        for ((counter, rule), &tally) in rules.iter().zip(&masks.tallies) {
            told.push(if *void {
                (0, None)
            } else {
                (
                    tally,
                    counters[*counter].figures(rule, &masks.cells, scratch),
                )
            });
        }
        told
    }
}
