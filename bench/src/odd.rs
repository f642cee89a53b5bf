//! Small files of frames from a seed, most of them with something wrong somewhere.

use std::fmt::Write;

use crate::random::Random;

fn bytes(random: &mut Random, number: usize, below: usize) -> String {
    let mut text = String::new();
    for _ in 0..number {
        let _ = write!(text, "{:02x}", random.below(below));
    }
    text
}

/// A tally with few counts, most of them small.
fn tally(random: &mut Random) -> u64 {
    match random.below(100) {
        0 => 0,
        1..=4 => random.number(),
        5..=34 => (2 << random.below(6)) - 1,
        35..=64 => 0x3f << random.below(4),
        _ => 1 << random.below(4) | random.number() & random.number() & 0x3f,
    }
}

fn mask(random: &mut Random) -> u16 {
    match random.below(100) {
        0 => 0,
        1..=4 => random.number() as u16,
        5..=54 => 1 << random.below(4),
        _ => random.within(0x0f, 60),
    }
}

/// A number that is seldom not below the limit.
fn cell(random: &mut Random, limit: usize) -> usize {
    if random.below(200) == 0 {
        random.below(256)
    } else {
        random.below(limit)
    }
}

fn row(random: &mut Random, limit: usize) -> String {
    let len = if random.percent(1) {
        random.below(70)
    } else {
        1 + random.below(limit.min(8))
    };
    let mut left: Vec<usize> = (0..limit).collect();
    let mut text = String::new();
    for _ in 0..len {
        let cell = if left.is_empty() || random.below(200) == 0 {
            cell(random, limit)
        } else {
            left.swap_remove(random.below(left.len()))
        };
        let _ = write!(text, "{cell:02x}");
    }
    text
}

fn table(random: &mut Random) -> String {
    let most = if random.percent(90) { 3 } else { 16 };
    let states = 1 + random.below(most);
    let mut text = format!("05{states:02x}");
    for _ in 0..16 * states {
        let bad = random.below(3000) == 0;
        let next = if bad {
            random.below(16)
        } else {
            random.below(states)
        };
        let _ = write!(text, "{:02x}", 16 * next + random.below(3));
    }
    text
}

fn word(random: &mut Random) -> String {
    let len = if random.percent(3) {
        random.below(19)
    } else {
        1 + random.below(4)
    };
    let below = if random.percent(2) { 20 } else { 3 };
    format!("04{}", bytes(random, len, below))
}

fn post(random: &mut Random, limit: usize) -> String {
    match random.below(300) {
        0 => format!("03{:04x}", random.number() as u16),
        1 => word(random),
        2 => table(random),
        3..=9 => format!("06{}", bytes(random, 16, 4)),
        10..=60 => {
            let first = cell(random, limit);
            let number = match random.below(100) {
                0 => random.below(256),
                _ => 1 + random.below(limit.saturating_sub(first).max(1)),
            };
            format!("02{first:02x}{number:02x}{:04x}", mask(random))
        }
        _ => {
            let family = if random.below(500) > 0 {
                3 + random.below(3)
            } else {
                random.below(9)
            };
            let sense = if random.below(500) > 0 {
                random.below(3)
            } else {
                random.below(5)
            };
            let tally = tally(random);
            format!(
                "07{family:02x}{sense:02x}{tally:016x}{}",
                row(random, limit)
            )
        }
    }
}

fn call(random: &mut Random, limit: usize) -> String {
    match random.below(12) {
        0 => String::from("0b"),
        1 => String::from("0c"),
        2 | 3 => {
            let rule = random.below(10);
            format!("0a{rule:02x}{:016x}", tally(random))
        }
        _ => {
            let cell = cell(random, limit);
            format!("09{cell:02x}{:04x}", mask(random))
        }
    }
}

/// Spoils a line: a character is changed, left out or put in, or the line is doubled or cut.
fn spoil(random: &mut Random, line: &mut String) {
    let at = random.below(line.len() + 1);
    let character = b"0123456789abcdefAg \r"[random.below(20)] as char;
    match random.below(6) {
        0 | 1 if at < line.len() => line.replace_range(at..=at, &character.to_string()),
        2 if at < line.len() => drop(line.remove(at)),
        3 => line.insert(at, character),
        4 => line.truncate(at),
        _ => {
            let number = random.below(300);
            let more = bytes(random, number, 256);
            line.push_str(&more);
        }
    }
}

/// The file of a seed.
pub fn file(seed: u64) -> Vec<u8> {
    let mut random = Random::new(seed);
    let random = &mut random;
    let limit = if random.percent(95) {
        1 + random.below(12)
    } else {
        1 + random.below(192)
    };
    let mut lines = vec![format!("01{limit:02x}")];
    if random.percent(90) {
        lines.push(format!("0200{limit:02x}{:04x}", random.within(0x0f, 80)));
    }
    if random.percent(95) {
        lines.push(format!("03{:04x}", random.number() as u16 & 0x1f));
        lines.push(word(random));
        lines.push(table(random));
    }
    let posts = if random.percent(97) {
        random.below(14)
    } else {
        random.below(100)
    };
    lines.extend((0..posts).map(|_| post(random, limit)));
    lines.push(String::from("08"));
    let calls = if random.percent(95) {
        random.below(20)
    } else {
        random.below(120)
    };
    lines.extend((0..calls).map(|_| call(random, limit)));
    if random.percent(80) {
        lines.push(String::from("0d"));
    }
    if random.percent(25) {
        let at = random.below(lines.len());
        spoil(random, &mut lines[at]);
    }
    let mut text = lines.join("\n");
    if random.percent(95) {
        text.push('\n');
    }
    text.into_bytes()
}
