//! What a plan is made from: three automata, and rules for each.

use crate::automata::{Among, Dense, SIZE};
use crate::rules::{Counter, Rule};
use crate::settling::Rules;

/// The automaton that a rule counts with.
#[derive(Clone, Copy, PartialEq, Eq, PartialOrd, Ord, Debug)]
pub enum Family {
    Set,
    Word,
    Table,
}

#[derive(Clone, Debug)]
pub struct Setup {
    /// The duties that the first automaton counts.
    pub set: u16,
    /// The classes by which the word's automaton reads duties.
    pub classes: [u8; SIZE],
    pub word: Vec<u8>,
    pub states: usize,
    /// Sixteen bytes for each state: next state in the high half, gain in the low.
    pub steps: Vec<u8>,
    /// The rules, those of one family after those of the one before it.
    pub rules: Vec<(Family, Rule)>,
}

impl Setup {
    /// Automata without rules: single duties of a set, a pair of free days, points by a small table.
    pub fn new(set: u16, classes: [u8; SIZE], word: &[u8], states: usize, steps: &[u8]) -> Setup {
        Setup {
            set,
            classes,
            word: word.to_vec(),
            states,
            steps: steps.to_vec(),
            rules: vec![],
        }
    }

    pub fn post(&mut self, family: Family, rule: Rule) {
        self.rules.push((family, rule));
        self.rules.sort_by_key(|(family, _)| *family);
    }

    pub fn among(&self) -> Among {
        Among(self.set)
    }

    pub fn mapped_word(&self) -> Dense {
        Dense::word(&self.word).mapped(&self.classes)
    }

    pub fn table(&self) -> Dense {
        Dense::table(self.states, &self.steps)
    }

    /// The rules with their automata, ready to settle.
    pub fn build(&self) -> Rules {
        let counters = vec![
            Counter::Among(self.among()),
            Counter::Dense(Box::new(self.mapped_word())),
            Counter::Dense(Box::new(self.table())),
        ];
        let rules = self
            .rules
            .iter()
            .map(|(family, rule)| (*family as usize, rule.clone()));
        Rules {
            counters,
            rules: rules.collect(),
        }
    }
}
