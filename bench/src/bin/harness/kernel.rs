//! The verified kernel, as its archive exports it.
//!
//! A slice crosses as a pointer and a length, a fixed array or a struct as a pointer. The kernel's
//! allocator takes no argument here.

use plain::depot::{Answer, Call};
use plain::plan::{Masks as PlainMasks, Try};
use plain::rules::{CELLS, Cells, Rule};
use plain::settling::{Failure, RULES, Spot, Work};
use plain::setup::{Family, Setup};

/// How many numbers of workspace a run borrows.
pub const WORKSPACE: usize = 4160;

#[repr(C)]
#[derive(Clone, Copy)]
struct RuleFields {
    family: u8,
    sense: u8,
    len: u8,
    row: [u8; 64],
    tally: u64,
}

#[repr(C)]
#[derive(Clone, Copy, PartialEq, Eq, Debug)]
pub struct Masks {
    pub cells: Cells,
    pub tallies: [u64; RULES],
}

/// Masks to run a rule on, and how many values that took.
#[repr(C)]
#[derive(Clone, Copy, PartialEq, Eq, Debug)]
pub struct Case {
    pub cells: Cells,
    pub tally: u64,
    pub removed: u32,
}

#[repr(C)]
#[derive(Clone, Copy, Default, PartialEq, Eq, Debug)]
pub struct Outcome {
    kind: u32,
    rule: u32,
    cell: u32,
    runs: u32,
    removed: u32,
}

impl Outcome {
    pub fn runs(&self) -> u32 {
        self.runs
    }

    pub fn failed_at_a_rule(&self) -> bool {
        self.kind == 1
    }
}

#[repr(C)]
#[derive(Clone, Copy)]
pub struct CallFields {
    kind: u8,
    target: u8,
    mask: u64,
}

#[link(name = "bench_exports", kind = "static")]
unsafe extern "C" {
    fn kernel_sweep_set(
        set: u16,
        sweep: u32,
        len: usize,
        rows: *const u16,
        rows_len: usize,
        codes: *mut u64,
        codes_len: usize,
    ) -> u64;
    fn kernel_sweep_word(
        word: *const u8,
        word_len: usize,
        sweep: u32,
        len: usize,
        rows: *const u16,
        rows_len: usize,
        codes: *mut u64,
        codes_len: usize,
    ) -> u64;
    fn kernel_sweep_table(
        steps: *const u8,
        steps_len: usize,
        sweep: u32,
        len: usize,
        rows: *const u16,
        rows_len: usize,
        codes: *mut u64,
        codes_len: usize,
    ) -> u64;
    fn kernel_run_set(
        set: u16,
        rule: *const RuleFields,
        cases: *mut Case,
        cases_len: usize,
        workspace: *mut u64,
        workspace_len: usize,
    ) -> bool;
    fn kernel_run_word(
        word: *const u8,
        word_len: usize,
        rule: *const RuleFields,
        cases: *mut Case,
        cases_len: usize,
        workspace: *mut u64,
        workspace_len: usize,
    ) -> bool;
    fn kernel_run_table(
        steps: *const u8,
        steps_len: usize,
        rule: *const RuleFields,
        cases: *mut Case,
        cases_len: usize,
        workspace: *mut u64,
        workspace_len: usize,
    ) -> bool;
    fn kernel_settle(
        set: u16,
        word: *const u8,
        word_len: usize,
        steps: *const u8,
        steps_len: usize,
        rules: *const RuleFields,
        rules_len: usize,
        cases: *mut Masks,
        cases_len: usize,
        outcomes: *mut Outcome,
        outcomes_len: usize,
        workspace: *mut u64,
        workspace_len: usize,
    ) -> bool;
    fn kernel_tries(
        set: u16,
        word: *const u8,
        word_len: usize,
        steps: *const u8,
        steps_len: usize,
        rules: *const RuleFields,
        rules_len: usize,
        cells: *const Cells,
        calls: *const CallFields,
        calls_len: usize,
        outcomes: *mut Outcome,
        outcomes_len: usize,
        end: *mut Masks,
        workspace: *mut u64,
        workspace_len: usize,
    ) -> bool;
}

// What the kernel's allocator calls.
#[link(name = "os_c", kind = "static")]
#[link(name = "libc_c", kind = "static")]
unsafe extern "C" {}

fn fields_of(family: Family, rule: &Rule) -> RuleFields {
    let mut row = [0; 64];
    row[..rule.row.len()].copy_from_slice(&rule.row);
    RuleFields {
        family: family as u8,
        sense: rule.sense as u8,
        len: rule.row.len() as u8,
        row,
        tally: rule.tally,
    }
}

/// A setup in the form in which it crosses over, and the workspace that every call borrows.
pub struct Kernel {
    set: u16,
    word: Vec<u8>,
    steps: Vec<u8>,
    rules: Vec<RuleFields>,
    pub workspace: Vec<u64>,
}

impl Kernel {
    pub fn new(setup: &Setup) -> Kernel {
        let mut word = setup.classes.to_vec();
        word.extend(&setup.word);
        let mut steps = vec![setup.states as u8];
        steps.extend(&setup.steps);
        let rules = setup
            .rules
            .iter()
            .map(|(family, rule)| fields_of(*family, rule))
            .collect();
        Kernel {
            set: setup.set,
            word,
            steps,
            rules,
            workspace: vec![0; WORKSPACE],
        }
    }

    /// Sweeps over rows of `len` masks with the automaton of a family. The sweeps 0 to 2 go forward
    /// with the least, the greatest and the totals, 3 to 5 backward.
    pub fn sweep(
        &self,
        family: Family,
        sweep: u32,
        len: usize,
        rows: &[u16],
        codes: &mut [u64],
    ) -> u64 {
        let (word, steps) = (&self.word, &self.steps);
        let (row, rows_len) = (rows.as_ptr(), rows.len());
        let (code, codes_len) = (codes.as_mut_ptr(), codes.len());
        // SAFETY: every pointer comes from a slice of the length beside it, and the kernel keeps none.
        unsafe {
            match family {
                Family::Set => {
                    kernel_sweep_set(self.set, sweep, len, row, rows_len, code, codes_len)
                }
                Family::Word => kernel_sweep_word(
                    word.as_ptr(),
                    word.len(),
                    sweep,
                    len,
                    row,
                    rows_len,
                    code,
                    codes_len,
                ),
                Family::Table => kernel_sweep_table(
                    steps.as_ptr(),
                    steps.len(),
                    sweep,
                    len,
                    row,
                    rows_len,
                    code,
                    codes_len,
                ),
            }
        }
    }

    /// Runs one rule on each case.
    pub fn run(&mut self, family: Family, rule: &Rule, cases: &mut [Case]) {
        let fields = fields_of(family, rule);
        let (word, steps) = (&self.word, &self.steps);
        let (case, cases_len) = (cases.as_mut_ptr(), cases.len());
        let (work, work_len) = (self.workspace.as_mut_ptr(), self.workspace.len());
        // SAFETY: as above.
        let done = unsafe {
            match family {
                Family::Set => kernel_run_set(self.set, &fields, case, cases_len, work, work_len),
                Family::Word => kernel_run_word(
                    word.as_ptr(),
                    word.len(),
                    &fields,
                    case,
                    cases_len,
                    work,
                    work_len,
                ),
                Family::Table => kernel_run_table(
                    steps.as_ptr(),
                    steps.len(),
                    &fields,
                    case,
                    cases_len,
                    work,
                    work_len,
                ),
            }
        };
        assert!(done, "the kernel refused a rule");
    }

    /// Settles each case with all rules.
    pub fn settle(&mut self, cases: &mut [Masks], outcomes: &mut [Outcome]) {
        // SAFETY: as above.
        let done = unsafe {
            kernel_settle(
                self.set,
                self.word.as_ptr(),
                self.word.len(),
                self.steps.as_ptr(),
                self.steps.len(),
                self.rules.as_ptr(),
                self.rules.len(),
                cases.as_mut_ptr(),
                cases.len(),
                outcomes.as_mut_ptr(),
                outcomes.len(),
                self.workspace.as_mut_ptr(),
                self.workspace.len(),
            )
        };
        assert!(done, "the kernel refused a rule");
    }

    /// Starts a plan and makes the calls; the first outcome is that of the start.
    pub fn tries(
        &mut self,
        cells: &Cells,
        calls: &[CallFields],
        outcomes: &mut [Outcome],
        end: &mut Masks,
    ) {
        // SAFETY: as above.
        let done = unsafe {
            kernel_tries(
                self.set,
                self.word.as_ptr(),
                self.word.len(),
                self.steps.as_ptr(),
                self.steps.len(),
                self.rules.as_ptr(),
                self.rules.len(),
                cells,
                calls.as_ptr(),
                calls.len(),
                outcomes.as_mut_ptr(),
                outcomes.len(),
                end,
                self.workspace.as_mut_ptr(),
                self.workspace.len(),
            )
        };
        assert!(done, "the kernel refused a rule");
    }
}

impl From<Call> for CallFields {
    fn from(call: Call) -> CallFields {
        let (kind, target, mask) = match call {
            Call::Decide { cell, mask } => (0, cell, u64::from(mask)),
            Call::Bound { rule, tally } => (1, rule, tally),
            Call::Mark => (2, 0, 0),
            Call::Back => (3, 0, 0),
        };
        CallFields { kind, target, mask }
    }
}

impl From<&PlainMasks> for Masks {
    fn from(masks: &PlainMasks) -> Masks {
        Masks {
            cells: masks.cells,
            tallies: masks.tallies,
        }
    }
}

impl From<Work> for Outcome {
    fn from(Work { runs, removed }: Work) -> Outcome {
        Outcome {
            runs,
            removed,
            ..Outcome::default()
        }
    }
}

impl From<Failure> for Outcome {
    fn from(
        Failure {
            rule,
            spot,
            work: Work { runs, removed },
        }: Failure,
    ) -> Outcome {
        let cell = match spot {
            Spot::Cell(cell) => cell,
            Spot::Tally => CELLS,
        };
        Outcome {
            kind: 1,
            rule: rule as u32,
            cell: cell as u32,
            runs,
            removed,
        }
    }
}

impl From<Result<Work, Failure>> for Outcome {
    fn from(settled: Result<Work, Failure>) -> Outcome {
        settled.map_or_else(Outcome::from, Outcome::from)
    }
}

impl From<Answer> for Outcome {
    fn from(answer: Answer) -> Outcome {
        match answer {
            Answer::Tried(Try::Settled(work)) => work.into(),
            Answer::Tried(Try::Failed(failure)) => failure.into(),
            Answer::Tried(Try::Own) => Outcome {
                kind: 2,
                ..Outcome::default()
            },
            Answer::Level(level) => Outcome {
                kind: 3,
                rule: level as u32,
                ..Outcome::default()
            },
            Answer::Refused(number) => Outcome {
                kind: 4,
                rule: u32::from(number),
                ..Outcome::default()
            },
        }
    }
}
