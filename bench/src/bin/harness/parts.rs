//! Sweeps, runs and settling, each for itself.

use plain::automata::Automaton;
use plain::depot::Depot;
use plain::measures::{Greatest, Least, Measure, Totals};
use plain::random::Random;
use plain::rules::{CELLS, Rule, Scratch, Sense, run};
use plain::setup::{Family, Setup};
use plain::sweeps::{Codes, LONGEST, backward, forward};

use crate::clock::{Times, compare};
use crate::inputs;
use crate::kernel::{Case, Kernel, Masks, Outcome};

pub const FAMILIES: [Family; 3] = [Family::Set, Family::Word, Family::Table];
pub const SENSES: [Sense; 3] = [Sense::AtMost, Sense::AtLeast, Sense::Exactly];
const SWEEPS: [&str; 6] = [
    "forward, least",
    "forward, greatest",
    "forward, totals",
    "backward, least",
    "backward, greatest",
    "backward, totals",
];

pub const ROUNDS: usize = 30;
const BATCH: usize = 128;

pub fn print_times(name: &str, Times { kernel, plain }: Times) {
    let ratio = kernel / plain;
    println!("  {name:<44} {kernel:>10.0} {plain:>10.0} {ratio:>7.2}");
}

pub fn print_head(title: &str) {
    println!("{title}");
    println!(
        "  {:<44} {:>10} {:>10} {:>7}",
        "", "kernel", "plain", "ratio"
    );
}

/// Sweeps forward over rows of `len` masks, and gives a number that depends on every sweep.
fn forward_rows<M: Measure, A: Automaton>(
    automaton: &A,
    len: usize,
    rows: &[u16],
    codes: &mut [Codes],
) -> u64 {
    rows.chunks_exact(len).fold(0, |sum: u64, masks| {
        forward::<M, A>(automaton, masks, codes);
        sum.rotate_left(1) ^ codes[len][0]
    })
}

/// The same, backward.
fn backward_rows<M: Measure, A: Automaton>(
    automaton: &A,
    len: usize,
    rows: &[u16],
    codes: &mut [Codes],
) -> u64 {
    rows.chunks_exact(len).fold(0, |sum: u64, masks| {
        backward::<M, A>(automaton, masks, codes);
        sum.rotate_left(1) ^ codes[0][0]
    })
}

fn plain_sweep<A: Automaton>(
    automaton: &A,
    sweep: u32,
    len: usize,
    rows: &[u16],
    codes: &mut [Codes],
) -> u64 {
    match sweep {
        0 => forward_rows::<Least, A>(automaton, len, rows, codes),
        1 => forward_rows::<Greatest, A>(automaton, len, rows, codes),
        2 => forward_rows::<Totals, A>(automaton, len, rows, codes),
        3 => backward_rows::<Least, A>(automaton, len, rows, codes),
        4 => backward_rows::<Greatest, A>(automaton, len, rows, codes),
        _ => backward_rows::<Totals, A>(automaton, len, rows, codes),
    }
}

/// Times one kind of sweep over many rows, and compares every code of every row.
pub fn sweep_times(setup: &Setup, family: Family, sweep: u32, len: usize, rows: &[u16]) -> Times {
    match family {
        Family::Set => sweep_times_of(&setup.among(), setup, family, sweep, len, rows),
        Family::Word => sweep_times_of(&setup.mapped_word(), setup, family, sweep, len, rows),
        Family::Table => sweep_times_of(&setup.table(), setup, family, sweep, len, rows),
    }
}

fn sweep_times_of<A: Automaton>(
    automaton: &A,
    setup: &Setup,
    family: Family,
    sweep: u32,
    len: usize,
    rows: &[u16],
) -> Times {
    let kernel = Kernel::new(setup);
    let mut codes = vec![0; 16 * (LONGEST + 1)];
    let mut plain_codes = [[0; 16]; LONGEST + 1];
    for row in rows.chunks(len) {
        kernel.sweep(family, sweep, len, row, &mut codes);
        plain_sweep(automaton, sweep, len, row, &mut plain_codes);
        assert_eq!(
            codes[..16 * (len + 1)],
            plain_codes[..=len].concat(),
            "sweeps differ"
        );
    }
    let mut sums = [0; 2];
    let [kernel_sum, plain_sum] = &mut sums;
    let times = compare(
        ROUNDS,
        rows.len() / len,
        &(),
        |()| *kernel_sum = kernel.sweep(family, sweep, len, rows, &mut codes),
        |()| *plain_sum = plain_sweep(automaton, sweep, len, rows, &mut plain_codes),
    );
    assert_eq!(sums[0], sums[1], "sweeps differ");
    times
}

/// Every kind of sweep with every kind of automaton.
pub fn sweeps() {
    let mut random = Random::new(11);
    let (len, states, open) = (28, 8, inputs::duties(8));
    let setup = inputs::setup(&mut random, states);
    let rows = inputs::rows(&mut random, BATCH, len, open);
    print_head("one sweep: 28 masks of up to 8 duties; set 1 state, word and table 8 states");
    for sweep in 0..6 {
        for family in FAMILIES {
            let times = sweep_times(&setup, family, sweep, len, &rows);
            print_times(&format!("{}, {family:?}", SWEEPS[sweep as usize]), times);
        }
    }
    println!();
}

fn plain_cases<A: Automaton>(
    automaton: &A,
    rule: &Rule,
    cases: &mut [Case],
    scratch: &mut Scratch,
) {
    for Case {
        cells,
        tally,
        removed,
    } in cases
    {
        *removed = run(automaton, rule, cells, tally, scratch);
    }
}

/// Times one rule over many cases, and compares what it leaves of each.
pub fn run_times(setup: &Setup, family: Family, rule: &Rule, cases: &Vec<Case>) -> Times {
    match family {
        Family::Set => run_times_of(&setup.among(), setup, family, rule, cases),
        Family::Word => run_times_of(&setup.mapped_word(), setup, family, rule, cases),
        Family::Table => run_times_of(&setup.table(), setup, family, rule, cases),
    }
}

fn run_times_of<A: Automaton>(
    automaton: &A,
    setup: &Setup,
    family: Family,
    rule: &Rule,
    cases: &Vec<Case>,
) -> Times {
    let mut kernel = Kernel::new(setup);
    let mut scratch = Scratch::new();
    let mut by_kernel = cases.clone();
    kernel.run(family, rule, &mut by_kernel);
    let mut by_plain = cases.clone();
    plain_cases(automaton, rule, &mut by_plain, &mut scratch);
    assert_eq!(by_kernel, by_plain, "runs differ");
    compare(
        ROUNDS,
        cases.len(),
        cases,
        |cases| kernel.run(family, rule, cases),
        |cases| plain_cases(automaton, rule, cases, &mut scratch),
    )
}

/// One run of each sense with every kind of automaton.
pub fn runs() {
    let mut random = Random::new(12);
    let (len, states, open) = (28, 8, inputs::duties(8));
    let setup = inputs::setup(&mut random, states);
    print_head("one run: 28 cells of up to 8 duties; set 1 state, word and table 8 states");
    for sense in SENSES {
        for family in FAMILIES {
            let tally = inputs::tally(&mut random, sense, len);
            let rule = Rule {
                row: inputs::row(&mut random, CELLS, len),
                sense,
                tally,
            };
            let cases = inputs::cases(&mut random, BATCH, &rule, open);
            print_times(
                &format!("{sense:?}, {family:?}"),
                run_times(&setup, family, &rule, &cases),
            );
        }
    }
    println!();
}

/// Times settling over many cases, and compares what it leaves and answers.
pub fn settle_times(setup: &Setup, cases: &[Masks]) -> (Times, f64) {
    let mut kernel = Kernel::new(setup);
    let rules = setup.build();
    let mut scratch = Scratch::new();
    let fresh = (cases.to_vec(), vec![Outcome::default(); cases.len()]);
    let mut plain = |cases: &mut [Masks], outcomes: &mut [Outcome]| {
        for (Masks { cells, tallies }, outcome) in cases.iter_mut().zip(outcomes) {
            *outcome = rules.settle(cells, tallies, &mut scratch).into();
        }
    };
    let mut by_kernel = fresh.clone();
    kernel.settle(&mut by_kernel.0, &mut by_kernel.1);
    let mut by_plain = fresh.clone();
    plain(&mut by_plain.0, &mut by_plain.1);
    assert_eq!(by_kernel, by_plain, "settling differs");
    let runs: u32 = by_plain.1.iter().map(Outcome::runs).sum();
    let times = compare(
        ROUNDS,
        cases.len(),
        &fresh,
        |(cases, outcomes)| kernel.settle(cases, outcomes),
        |(cases, outcomes)| plain(cases, outcomes),
    );
    (times, f64::from(runs) / cases.len() as f64)
}

/// Settling the depot: from its start, and after one more decision each.
pub fn settling(depot: &Depot) {
    let rules = depot.setup.build();
    let start = Masks {
        cells: depot.cells,
        tallies: rules.start_tallies(),
    };
    print_head("settling the depot's 66 rules");
    let (times, runs) = settle_times(&depot.setup, &[start; 8]);
    print_times(&format!("from the start, {runs:.0} runs"), times);

    let mut settled = start;
    let _ = rules.settle(
        &mut settled.cells,
        &mut settled.tallies,
        &mut Scratch::new(),
    );
    let mut random = Random::new(13);
    let decided = |_| {
        let mut masks = settled;
        let cell = random.below(depot.limit);
        masks.cells[cell] = random.bit(masks.cells[cell]);
        masks
    };
    let cases: Vec<Masks> = (0..32).map(decided).collect();
    let (times, runs) = settle_times(&depot.setup, &cases);
    print_times(
        &format!("after one decision each, {runs:.0} runs on average"),
        times,
    );
    println!();
}
