//! How cost grows with rules, cells, states and duties.

use plain::random::Random;
use plain::rules::{CELLS, Rule, Sense};
use plain::setup::Family;

use crate::clock::Times;
use crate::inputs;
use crate::parts::{SENSES, run_times, settle_times, sweep_times};

const BATCH: usize = 64;

fn print_row(size: usize, times: &[Times]) {
    print!("  {size:>6}");
    for &times in times {
        print!(
            "   {:>8.0} {:>8.0} {:>5.2}",
            times.kernel,
            times.plain,
            times.ratio()
        );
    }
    println!();
}

fn print_head(title: &str, size: &str, columns: &[String]) {
    println!("{title}: kernel, plain, ratio");
    print!("  {size:>6}");
    for column in columns {
        print!("   {column:>23}");
    }
    println!();
}

fn sense_columns() -> Vec<String> {
    let mut columns = vec![String::from("forward, least")];
    columns.extend(SENSES.iter().map(|sense| format!("{sense:?}")));
    columns
}

/// A forward sweep and a run of each sense, at one size.
fn at_size(
    random: &mut Random,
    family: Family,
    states: usize,
    len: usize,
    duties: usize,
) -> Vec<Times> {
    let open = inputs::duties(duties);
    let setup = inputs::setup(random, states);
    let rows = inputs::rows(random, BATCH, len, open);
    let mut all = vec![sweep_times(&setup, family, 0, len, &rows)];
    for sense in SENSES {
        let tally = inputs::tally(random, sense, len);
        let rule = Rule {
            row: inputs::row(random, CELLS, len),
            sense,
            tally,
        };
        let cases = inputs::cases(random, BATCH, &rule, open);
        all.push(run_times(&setup, family, &rule, &cases));
    }
    all
}

fn cells(random: &mut Random) {
    for family in [Family::Set, Family::Table] {
        let title = format!("cells in a rule, {family:?}, 8 duties (table: 8 states)");
        print_head(&title, "cells", &sense_columns());
        for len in [1, 2, 4, 8, 16, 24, 32, 48, 64] {
            print_row(len, &at_size(random, family, 8, len, 8));
        }
        println!();
    }
}

fn states(random: &mut Random) {
    for family in [Family::Word, Family::Table] {
        let title = format!("states, {family:?}, 28 cells, 8 duties");
        print_head(&title, "states", &sense_columns());
        for states in [1, 2, 3, 4, 6, 8, 12, 16] {
            print_row(states, &at_size(random, family, states, 28, 8));
        }
        println!();
    }
}

fn duties(random: &mut Random) {
    for family in [Family::Set, Family::Table] {
        let title = format!("duties, {family:?}, 28 cells (table: 8 states)");
        print_head(&title, "duties", &sense_columns());
        for duties in [1, 2, 4, 6, 8, 12, 16] {
            print_row(duties, &at_size(random, family, 8, 28, duties));
        }
        println!();
    }
}

/// Settling with so many rules of all families, all of the same tally; fewer rules are the first of more.
fn settle_at_most(number: usize, tally: u64) -> (Times, f64) {
    let random = &mut Random::new(31);
    let mut setup = inputs::setup(random, 3);
    inputs::rules(random, &mut setup, number, CELLS, 12);
    for (_, rule) in &mut setup.rules {
        rule.sense = Sense::AtMost;
        rule.tally = tally;
    }
    let cases = inputs::masks(random, 16, &setup, inputs::duties(6));
    settle_times(&setup, &cases)
}

/// Settling with more and more rules, which leave all counts open or just 0 to 5.
fn rules() {
    println!("rules, 12 cells each, 6 duties, at most, all families (word and table: 3 states)");
    println!("         all counts: runs, kernel, plain, ratio       0 to 5 alone: the same");
    for number in [1, 2, 4, 8, 16, 24, 36, 48, 60, 72] {
        print!("  {number:>6}");
        for tally in [u64::MAX, 0x3f] {
            let (times, runs) = settle_at_most(number, tally);
            print!(
                "   {runs:>7.1} {:>9.0} {:>9.0} {:>5.2}",
                times.kernel,
                times.plain,
                times.ratio()
            );
        }
        println!();
    }
    println!();
}

pub fn all() {
    let mut random = Random::new(21);
    rules();
    cells(&mut random);
    states(&mut random);
    duties(&mut random);
}
