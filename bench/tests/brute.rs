//! The plain program against counting over all sequences.

use plain::automata::{Among, Automaton, Dense};
use plain::random::Random;
use plain::rules::{CELLS, Cells, Rule, Scratch, Sense, run};
use plain::sweeps::{LONGEST, bits, figures};

/// Every way to choose an open duty from each mask.
fn sequences(masks: &[u16]) -> Vec<Vec<usize>> {
    masks.iter().fold(vec![vec![]], |fronts, &mask| {
        let longer = |front: Vec<usize>| {
            bits(mask).map(move |duty| front.iter().copied().chain([duty]).collect())
        };
        fronts.into_iter().flat_map(longer).collect()
    })
}

/// The states that a sequence goes through, its end state included, and its total.
fn walk<A: Automaton>(automaton: &A, duties: &[usize]) -> (Vec<usize>, u64) {
    let mut states = vec![0];
    let mut total = 0;
    for &duty in duties {
        let step = automaton.step(states[states.len() - 1], duty);
        states.push(usize::from(step.next));
        total += u64::from(step.gain);
    }
    (states, total)
}

fn meets(sense: Sense, total: u64, count: u64) -> bool {
    match sense {
        Sense::AtMost => total <= count,
        Sense::AtLeast => total >= count,
        Sense::Exactly => total == count,
    }
}

fn counts(tally: u64) -> impl Iterator<Item = u64> + Clone {
    (0..64).filter(move |count| tally >> count & 1 == 1)
}

/// Whether some open count lies between the least and the greatest of the totals.
fn encloses(totals: &[u64], tally: u64) -> bool {
    match (totals.iter().min(), totals.iter().max()) {
        (Some(&low), Some(&high)) => counts(tally).any(|count| low <= count && count <= high),
        _ => false,
    }
}

/// What a run leaves, from the explicit list of sequences.
fn expected<A: Automaton>(
    automaton: &A,
    masks: &[u16],
    sense: Sense,
    tally: u64,
) -> (Vec<u16>, u64) {
    let all: Vec<_> = sequences(masks)
        .into_iter()
        .map(|duties| {
            let (states, total) = walk(automaton, &duties);
            (duties, states, total)
        })
        .collect();
    let stays = |place: usize, duty: usize| match sense {
        Sense::Exactly => (0..16).any(|state| {
            let by_way = |(duties, states, total): &(Vec<usize>, Vec<usize>, u64)| {
                (duties[place] == duty && states[place] == state).then_some(*total)
            };
            encloses(&all.iter().filter_map(by_way).collect::<Vec<_>>(), tally)
        }),
        _ => all.iter().any(|(duties, _, total)| {
            duties[place] == duty && counts(tally).any(|count| meets(sense, *total, count))
        }),
    };
    let keep = |(place, &mask): (usize, &u16)| {
        bits(mask)
            .filter(|&duty| stays(place, duty))
            .fold(0, |kept, duty| kept | 1 << duty)
    };
    let met = |&count: &u64| match sense {
        Sense::Exactly => (0..16).any(|state| {
            let at_end = |(_, states, total): &(Vec<usize>, Vec<usize>, u64)| {
                (states[masks.len()] == state).then_some(*total)
            };
            encloses(
                &all.iter().filter_map(at_end).collect::<Vec<_>>(),
                1 << count,
            )
        }),
        _ => all.iter().any(|(_, _, total)| meets(sense, *total, count)),
    };
    let cells = masks.iter().enumerate().map(keep).collect();
    (
        cells,
        counts(tally)
            .filter(met)
            .fold(0, |kept, count| kept | 1 << count),
    )
}

fn check_run<A: Automaton>(random: &mut Random, automaton: &A) {
    let row: Vec<u8> = vec![7, 3, 190, 4, 0][..1 + random.below(5)].to_vec();
    let sense = [Sense::AtMost, Sense::AtLeast, Sense::Exactly][random.below(3)];
    let mut tally = random.number() & random.number() & 0x3ff;
    let mut cells: Cells = [0xffff; CELLS];
    for &cell in &row {
        cells[usize::from(cell)] = (random.number() & random.number() & 0x3f) as u16;
    }
    let before: Vec<u16> = row.iter().map(|&cell| cells[usize::from(cell)]).collect();
    let (wanted, met) = expected(automaton, &before, sense, tally);
    let rule = Rule {
        row: row.clone(),
        sense,
        tally,
    };
    let gone = |after: &[u16]| -> u32 {
        before
            .iter()
            .zip(after)
            .map(|(before, after)| (before & !after).count_ones())
            .sum()
    };
    let lost = gone(&wanted) + (tally & !met).count_ones();
    let removed = run(
        automaton,
        &rule,
        &mut cells,
        &mut tally,
        &mut Scratch::new(),
    );
    let after: Vec<u16> = row.iter().map(|&cell| cells[usize::from(cell)]).collect();
    assert_eq!(
        (after, tally, removed),
        (wanted, met, lost),
        "{sense:?} {before:?}"
    );
}

fn check_figures<A: Automaton>(random: &mut Random, automaton: &A) {
    let masks: Vec<u16> = (0..random.below(6))
        .map(|_| (random.number() & 0x2b) as u16)
        .collect();
    let totals: Vec<u64> = sequences(&masks)
        .iter()
        .map(|s| walk(automaton, s).1)
        .collect();
    let mut codes = [[0; 16]; LONGEST + 1];
    let told = figures(automaton, &masks, &mut codes);
    assert_eq!(
        told.map(|figures| figures.least),
        totals.iter().min().copied()
    );
    assert_eq!(
        told.map(|figures| figures.greatest),
        totals.iter().max().copied()
    );
    let set = totals
        .iter()
        .filter(|&&total| total < 64)
        .fold(0, |set, total| set | 1 << total);
    assert_eq!(told.map_or(0, |figures| figures.totals), set);
}

fn random_table(random: &mut Random) -> Dense {
    let states = 1 + random.below(4);
    let bytes: Vec<u8> = (0..16 * states)
        .map(|_| (16 * random.below(states) + random.below(16)) as u8)
        .collect();
    Dense::table(states, &bytes)
}

#[test]
fn runs_and_figures_are_those_of_all_sequences() {
    let mut random = Random::new(5);
    for _ in 0..400 {
        let among = Among(random.number() as u16);
        check_run(&mut random, &among);
        check_figures(&mut random, &among);
        let table = random_table(&mut random);
        check_run(&mut random, &table);
        check_figures(&mut random, &table);
    }
}

/// The occurrences of a pattern, read from left to right, no two of which overlap.
fn occurrences(pattern: &[u8], duties: &[usize]) -> u64 {
    let mut found = 0;
    let mut at = 0;
    while at + pattern.len() <= duties.len() {
        if pattern
            .iter()
            .zip(&duties[at..])
            .all(|(&wanted, &duty)| usize::from(wanted) == duty)
        {
            found += 1;
            at += pattern.len();
        } else {
            at += 1;
        }
    }
    found
}

#[test]
fn words_count_occurrences() {
    let mut random = Random::new(6);
    for _ in 0..2000 {
        let pattern: Vec<u8> = (0..1 + random.below(6))
            .map(|_| random.below(2) as u8)
            .collect();
        let duties: Vec<usize> = (0..random.below(30)).map(|_| random.below(2)).collect();
        let word = Dense::word(&pattern);
        assert_eq!(
            walk(&word, &duties).1,
            occurrences(&pattern, &duties),
            "{pattern:?} {duties:?}"
        );
        let mut classes = [9; 16];
        classes[2] = 0;
        classes[5] = 1;
        let moved: Vec<usize> = duties.iter().map(|duty| [2, 5][*duty]).collect();
        let total = walk(&word.mapped(&classes), &moved).1;
        assert_eq!(total, occurrences(&pattern, &duties));
    }
}
