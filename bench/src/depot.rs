//! A depot of six crews over four weeks, with agreements and a planner who tries things out.
//!
//! The cell of a crew and a day is 28 * crew + day. Everything follows from a seed.

use std::fmt::Write;

use crate::plan::{Plan, Try};
use crate::random::Random;
use crate::rules::{CELLS, Cells, Rule, Sense};
use crate::setup::{Family, Setup};

pub const CREWS: usize = 6;
pub const DAYS: usize = 28;

const FREE: u16 = 1;
const EARLY: u16 = 2;
const LATE: u16 = 4;
const NIGHT: u16 = 8;
const STANDBY: u16 = 16;
const TRAINING: u16 = 32;
const ALL: u16 = FREE | EARLY | LATE | NIGHT | STANDBY | TRAINING;

#[derive(Clone, Copy, PartialEq, Eq, Debug)]
pub enum Call {
    Decide { cell: u8, mask: u16 },
    Bound { rule: u8, tally: u64 },
    Mark,
    Back,
}

pub struct Depot {
    pub limit: usize,
    pub setup: Setup,
    pub cells: Cells,
    pub calls: Vec<Call>,
}

/// Points for a day, by what the day before was: 0 rested, 1 worked, 2 night.
const POINTS: [[(u8, u8); 6]; 3] = [
    // free, early, late, night, standby, training
    [(0, 0), (1, 1), (1, 2), (2, 3), (0, 1), (1, 1)],
    [(0, 0), (1, 1), (1, 2), (2, 3), (1, 1), (1, 1)],
    [(0, 0), (1, 4), (1, 3), (2, 2), (1, 2), (1, 2)],
];

fn points_table() -> Vec<u8> {
    let mut steps = vec![0; 16 * POINTS.len()];
    for (state, row) in POINTS.iter().enumerate() {
        for (duty, &(next, gain)) in row.iter().enumerate() {
            steps[16 * state + duty] = 16 * next + gain;
        }
    }
    steps
}

fn up_to(count: u32) -> u64 {
    (1 << (count + 1)) - 1
}

fn from(count: u32) -> u64 {
    u64::MAX << count
}

fn between(low: u32, high: u32) -> u64 {
    from(low) & up_to(high)
}

fn cell(crew: usize, day: usize) -> u8 {
    (DAYS * crew + day) as u8
}

/// Some days of one crew.
fn days(crew: usize, days: std::ops::Range<usize>) -> Vec<u8> {
    days.map(|day| cell(crew, day)).collect()
}

/// One day of all crews.
fn crews(day: usize) -> Vec<u8> {
    (0..CREWS).map(|crew| cell(crew, day)).collect()
}

fn rule(row: Vec<u8>, sense: Sense, tally: u64) -> Rule {
    Rule { row, sense, tally }
}

/// Lates and nights: each working day of all crews, and the month of four crews.
fn post_lates(setup: &mut Setup) {
    for day in (0..DAYS).filter(|day| day % 7 < 5) {
        let (sense, tally) = match day % 3 {
            0 => (Sense::AtLeast, from(3)),
            1 => (Sense::Exactly, between(2, 2)),
            _ => (Sense::AtMost, up_to(2)),
        };
        setup.post(Family::Set, rule(crews(day), sense, tally));
    }
    for crew in 0..4 {
        setup.post(
            Family::Set,
            rule(days(crew, 0..DAYS), Sense::AtMost, up_to(6)),
        );
    }
}

/// Two free days in a row in each crew's week.
fn post_free_pairs(setup: &mut Setup) {
    for crew in 0..CREWS {
        for week in 0..4 {
            let row = days(crew, 7 * week..7 * week + 7);
            let (sense, tally) = if crew == 5 {
                (Sense::Exactly, between(1, 2))
            } else {
                (Sense::AtLeast, from(1))
            };
            setup.post(Family::Word, rule(row, sense, tally));
        }
    }
}

/// Points of each crew's fortnights and months.
fn post_points(setup: &mut Setup) {
    for crew in 0..CREWS {
        for half in 0..2 {
            let row = days(crew, 14 * half..14 * half + 14);
            setup.post(Family::Table, rule(row, Sense::AtMost, up_to(13)));
        }
        let month = days(crew, 0..DAYS);
        let (sense, tally) = match crew % 3 {
            0 => (Sense::AtLeast, from(20)),
            1 => (Sense::Exactly, between(18, 30)),
            _ => (Sense::Exactly, between(20, 28) & !(1 << 24)),
        };
        setup.post(Family::Table, rule(month, sense, tally));
    }
}

fn agreements() -> Setup {
    // free days are one class, standbys another, all else a third
    let mut classes = [2; 16];
    classes[0] = 0;
    classes[4] = 1;
    let mut setup = Setup::new(
        LATE | NIGHT,
        classes,
        &[0, 0],
        POINTS.len(),
        &points_table(),
    );
    post_lates(&mut setup);
    post_free_pairs(&mut setup);
    post_points(&mut setup);
    setup
}

/// What each cell may be at first: no training at weekends, and some crews do no nights.
fn first_masks(random: &mut Random) -> Cells {
    let mut cells = [u16::MAX; CELLS];
    for crew in 0..CREWS {
        let skills = if random.percent(30) {
            ALL & !NIGHT
        } else {
            ALL
        };
        for day in 0..DAYS {
            let weekend = day % 7 >= 5;
            cells[usize::from(cell(crew, day))] = if weekend { skills & !TRAINING } else { skills };
        }
    }
    cells
}

/// What the planner asks next, looking at the plan.
fn next_call(random: &mut Random, plan: &Plan, limit: usize) -> Call {
    let open = (0..limit)
        .filter(|&cell| plan.cell(cell).count_ones() > 1)
        .count();
    if open < 12 && plan.levels() > 0 || random.percent(4) {
        return Call::Back;
    }
    if random.percent(8) {
        return Call::Mark;
    }
    if random.percent(6) {
        let rule = random.below(plan.rule_count());
        let tally = plan.tally(rule);
        let lowest = tally & tally.wrapping_neg();
        return Call::Bound {
            rule: rule as u8,
            tally: tally & !lowest | random.number() & tally,
        };
    }
    let mut cell = random.below(limit);
    if random.percent(85) && open > 0 {
        while plan.cell(cell).count_ones() < 2 {
            cell = random.below(limit);
        }
    }
    let mask = plan.cell(cell);
    let mask = match random.below(20) {
        0 => random.within(ALL, 20),
        1..=3 => !random.bit(mask),
        _ => random.bit(mask),
    };
    Call::Decide {
        cell: cell as u8,
        mask,
    }
}

impl Depot {
    /// The depot of a seed, with so many calls after the start.
    pub fn new(seed: u64, calls: usize) -> Depot {
        let mut random = Random::new(seed);
        let limit = CREWS * DAYS;
        let setup = agreements();
        let cells = first_masks(&mut random);
        let (mut plan, _) = Plan::start(limit, cells, setup.build());
        let calls = (0..calls).map(|_| {
            let call = next_call(&mut random, &plan, limit);
            let _ = make(&mut plan, call);
            call
        });
        Depot {
            limit,
            cells,
            calls: calls.collect(),
            setup,
        }
    }

    /// The depot as a file of frames, published at the end.
    pub fn to_file(&self) -> String {
        let mut file = format!("01{:02x}\n", self.limit);
        for (cell, mask) in self.cells[..self.limit].iter().enumerate() {
            let _ = writeln!(file, "02{cell:02x}01{mask:04x}");
        }
        let _ = writeln!(file, "03{:04x}", self.setup.set);
        let _ = writeln!(file, "04{}", hex(&self.setup.word));
        let _ = writeln!(
            file,
            "05{:02x}{}",
            self.setup.states,
            hex(&self.setup.steps)
        );
        let _ = writeln!(file, "06{}", hex(&self.setup.classes));
        for (family, Rule { row, sense, tally }) in &self.setup.rules {
            let (family, sense) = (*family as u8 + 3, *sense as u8);
            let _ = writeln!(file, "07{family:02x}{sense:02x}{tally:016x}{}", hex(row));
        }
        file.push_str("08\n");
        for call in &self.calls {
            let _ = match call {
                Call::Decide { cell, mask } => writeln!(file, "09{cell:02x}{mask:04x}"),
                Call::Bound { rule, tally } => writeln!(file, "0a{rule:02x}{tally:016x}"),
                Call::Mark => writeln!(file, "0b"),
                Call::Back => writeln!(file, "0c"),
            };
        }
        file.push_str("0d\n");
        file
    }
}

fn hex(bytes: &[u8]) -> String {
    bytes.iter().fold(String::new(), |mut text, byte| {
        let _ = write!(text, "{byte:02x}");
        text
    })
}

/// How a call went.
#[derive(Clone, Copy, PartialEq, Eq, Debug)]
pub enum Answer {
    Tried(Try),
    Level(usize),
    Refused(u8),
}

/// Makes one call on a plan.
pub fn make(plan: &mut Plan, call: Call) -> Answer {
    let answer = match call {
        Call::Decide { cell, mask } => plan.decide(usize::from(cell), mask).map(Answer::Tried),
        Call::Bound { rule, tally } => plan.bound(usize::from(rule), tally).map(Answer::Tried),
        Call::Mark => plan.mark().map(Answer::Level),
        Call::Back => plan.back().map(Answer::Level),
    };
    answer.unwrap_or_else(|refusal| Answer::Refused(refusal as u8))
}
