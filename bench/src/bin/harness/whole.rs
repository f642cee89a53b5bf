//! Whole days at the depot, files of frames, and memory.

use plain::depot::{Call, Depot, make};
use plain::frames::carry_out;
use plain::plan::{LEVELS, Plan};
use plain::random::Random;
use plain::rules::CELLS;
use plain::settling::RULES;
use plain::setup::Setup;

use crate::clock::compare;
use crate::inputs;
use crate::kernel::{CallFields, Kernel, Masks, Outcome, WORKSPACE};
use crate::parts::{print_head, print_times};

const SEEDS: std::ops::RangeInclusive<u64> = 1..=4;
const CALLS: usize = 600;
const SMALL_PLANS: u64 = 1000;

#[inline(never)]
fn plain_tries(depot: &Depot, outcomes: &mut [Outcome], end: &mut Masks) {
    let (mut plan, started) = Plan::start(depot.limit, depot.cells, depot.setup.build());
    outcomes[0] = started.into();
    for (&call, outcome) in depot.calls.iter().zip(&mut outcomes[1..]) {
        *outcome = make(&mut plan, call).into();
    }
    *end = plan.masks().into();
}

/// Room for the outcomes of a start and of all calls, and for the masks at the end.
fn room(depot: &Depot) -> (Vec<Outcome>, Masks) {
    let nothing = Masks {
        cells: [0; CELLS],
        tallies: [0; RULES],
    };
    (vec![Outcome::default(); 1 + depot.calls.len()], nothing)
}

fn call_fields(depot: &Depot) -> Vec<CallFields> {
    depot.calls.iter().map(|&call| call.into()).collect()
}

/// The kernel's side of the depot, once.
pub fn kernel_alone(depot: &Depot) {
    let (mut outcomes, mut end) = room(depot);
    let calls = call_fields(depot);
    Kernel::new(&depot.setup).tries(&depot.cells, &calls, &mut outcomes, &mut end);
    println!("{:?}", outcomes.last());
}

/// The plain side of the depot, once.
pub fn plain_alone(depot: &Depot) {
    let (mut outcomes, mut end) = room(depot);
    plain_tries(depot, &mut outcomes, &mut end);
    println!("{:?}", outcomes.last());
}

/// Calls of any kind, most of them on cells that some rule reads.
fn any_calls(random: &mut Random, number: usize, setup: &Setup, open: u16) -> Vec<Call> {
    let rules = &setup.rules;
    let call = |_| match random.below(12) {
        0 => Call::Mark,
        1 => Call::Back,
        2 => Call::Bound {
            rule: random.below(rules.len() + 1) as u8,
            tally: random.number() & random.number(),
        },
        3 => Call::Decide {
            cell: random.below(256) as u8,
            mask: random.number() as u16,
        },
        _ => {
            let row = &rules[random.below(rules.len())].1.row;
            Call::Decide {
                cell: row[random.below(row.len())],
                mask: random.within(open, 20),
            }
        }
    };
    (0..number).map(call).collect()
}

/// A small plan of a seed, with automata, rules, masks and calls of any kind.
fn small_plan(seed: u64) -> Depot {
    let mut random = Random::new(seed);
    let states = 1 + random.below(16);
    let mut setup = inputs::setup(&mut random, states);
    let (rules, len) = (1 + random.below(12), 1 + random.below(12));
    inputs::rules(&mut random, &mut setup, rules, 14, len);
    let open = inputs::duties(1 + random.below(16));
    let cells = inputs::masks(&mut random, 1, &setup, open)[0].cells;
    let calls = any_calls(&mut random, 60, &setup, open);
    Depot {
        limit: CELLS,
        setup,
        cells,
        calls,
    }
}

/// Compares many small plans, call by call.
pub fn small_plans() {
    let (mut tries, mut failed, mut void) = (0, 0, 0);
    for seed in 0..SMALL_PLANS {
        let plan = small_plan(seed);
        let mut by_kernel = room(&plan);
        let mut kernel = Kernel::new(&plan.setup);
        kernel.tries(
            &plan.cells,
            &call_fields(&plan),
            &mut by_kernel.0,
            &mut by_kernel.1,
        );
        let mut by_plain = room(&plan);
        plain_tries(&plan, &mut by_plain.0, &mut by_plain.1);
        let started = !by_plain.0[0].failed_at_a_rule();
        assert_eq!(
            by_kernel.0, by_plain.0,
            "answers of the small plan {seed} differ"
        );
        if started {
            assert_eq!(
                by_kernel.1, by_plain.1,
                "masks of the small plan {seed} differ"
            );
        }
        void += usize::from(!started);
        tries += plan.calls.len();
        failed += by_plain.0[1..]
            .iter()
            .filter(|outcome| outcome.failed_at_a_rule())
            .count();
    }
    println!(
        "{SMALL_PLANS} small plans, {void} of them void, with {tries} calls, of which {failed} fail at a rule: all alike\n"
    );
}

/// A plan's start and hundreds of tries, with marks, backs and failures.
pub fn tries() {
    print_head("the depot: a start and 600 calls, per call");
    for seed in SEEDS {
        let depot = Depot::new(seed, CALLS);
        let calls = call_fields(&depot);
        let mut kernel = Kernel::new(&depot.setup);
        let fresh = room(&depot);
        let mut by_kernel = fresh.clone();
        kernel.tries(&depot.cells, &calls, &mut by_kernel.0, &mut by_kernel.1);
        let mut by_plain = fresh.clone();
        plain_tries(&depot, &mut by_plain.0, &mut by_plain.1);
        assert_eq!(by_kernel, by_plain, "tries differ");
        let failed = by_plain
            .0
            .iter()
            .filter(|outcome| outcome.failed_at_a_rule())
            .count();
        let times = compare(
            20,
            1 + CALLS,
            &fresh,
            |(outcomes, end)| kernel.tries(&depot.cells, &calls, outcomes, end),
            |(outcomes, end)| plain_tries(&depot, outcomes, end),
        );
        print_times(
            &format!("seed {seed}, {failed} tries fail at a rule"),
            times,
        );
    }
    println!();
}

/// The whole way from a file's text to what is printed, by the kernel: its export goes here. It would
/// take the file and room for the text, and tell how many bytes it wrote.
fn kernel_file(_file: &[u8]) -> Option<Vec<u8>> {
    None
}

/// Files of frames, from their text to what is printed.
pub fn files() {
    print_head("a file of frames, from its text to what is printed");
    for seed in SEEDS {
        let file = Depot::new(seed, CALLS).to_file().into_bytes();
        let name = format!("seed {seed}, {} bytes", file.len());
        match kernel_file(&file) {
            Some(text) => {
                assert_eq!(text, carry_out(&file).0.as_bytes(), "files differ");
                let times = compare(
                    8,
                    1,
                    &(),
                    |()| drop(std::hint::black_box(kernel_file(&file))),
                    |()| drop(std::hint::black_box(carry_out(&file))),
                );
                print_times(&name, times);
            }
            None => println!("  {name:<44} the kernel exports no such function yet"),
        }
    }
    println!();
}

/// How much memory a plan takes, by counting.
pub fn memory() {
    let level = 2 * CELLS + 8 * RULES;
    println!("memory, in bytes");
    println!("  a level: {CELLS} cells of 2 and {RULES} tallies of 8: {level}");
    println!(
        "  the masks of a plan, with {LEVELS} levels: {}",
        (1 + LEVELS) * level
    );
    println!("  while a try is under way, one copy more: {level}");
    println!(
        "  a workspace of {WORKSPACE} numbers, lent by the caller: {}",
        8 * WORKSPACE
    );
    println!("  a rule of 64 cells: 64 bytes of its own, and its tally and sense");
}
