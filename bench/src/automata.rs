//! Counter automata: at most 16 states, duties 0 to 15, start in state 0.

/// How many duties there are, and the most states.
pub const SIZE: usize = 16;

/// Where a step goes, and by how much the total grows.
#[derive(Clone, Copy, Default, Debug, PartialEq, Eq)]
pub struct Step {
    pub next: u8,
    pub gain: u8,
}

pub trait Automaton {
    fn states(&self) -> usize;
    fn step(&self, state: usize, duty: usize) -> Step;
}

/// Counts the duties of a set.
#[derive(Clone, Copy, Debug)]
pub struct Among(pub u16);

impl Automaton for Among {
    fn states(&self) -> usize {
        1
    }

    fn step(&self, _state: usize, duty: usize) -> Step {
        let gain = (self.0 >> (duty % SIZE)) & 1;
        Step {
            next: 0,
            gain: gain as u8,
        }
    }
}

/// Any automaton with its steps written out. Words, tables and maps are all brought to this form.
#[derive(Clone, Debug)]
pub struct Dense {
    states: usize,
    steps: [[Step; SIZE]; SIZE],
}

impl Dense {
    /// Counts the occurrences of a pattern of 1 to 16 duties that do not overlap. State q has
    /// matched the first q duties.
    pub fn word(pattern: &[u8]) -> Dense {
        let mut steps = [[Step::default(); SIZE]; SIZE];
        // how much of the pattern is left matched when a duty does not go on with it
        let mut border = 0;
        for (state, &wanted) in pattern.iter().enumerate() {
            let wanted = usize::from(wanted);
            let mut row = steps[border];
            row[wanted] = if state + 1 == pattern.len() {
                Step { next: 0, gain: 1 }
            } else {
                Step {
                    next: state as u8 + 1,
                    gain: 0,
                }
            };
            if state > 0 {
                border = usize::from(steps[border][wanted].next);
            }
            steps[state] = row;
        }
        Dense {
            states: pattern.len(),
            steps,
        }
    }

    /// Sixteen bytes for each state: the high half is the next state, the low half the gain.
    pub fn table(states: usize, bytes: &[u8]) -> Dense {
        let mut steps = [[Step::default(); SIZE]; SIZE];
        for (row, bytes) in steps.iter_mut().zip(bytes.chunks(SIZE)) {
            for (step, &byte) in row.iter_mut().zip(bytes) {
                *step = Step {
                    next: byte >> 4,
                    gain: byte & 15,
                };
            }
        }
        Dense { states, steps }
    }

    /// The same automaton, reading the class of each duty in place of the duty.
    pub fn mapped(&self, classes: &[u8; SIZE]) -> Dense {
        let steps = self
            .steps
            .map(|row| classes.map(|class| row[usize::from(class)]));
        Dense {
            states: self.states,
            steps,
        }
    }
}

impl Automaton for Dense {
    fn states(&self) -> usize {
        self.states
    }

    fn step(&self, state: usize, duty: usize) -> Step {
        self.steps[state % SIZE][duty % SIZE]
    }
}
