//! Prints the depot of a seed as a file of frames: `depot_file SEED CALLS`.

use plain::depot::Depot;

fn main() {
    let mut words = std::env::args().skip(1).map(|word| word.parse::<u64>());
    let seed = words.next().and_then(Result::ok).unwrap_or(1);
    let calls = words.next().and_then(Result::ok).unwrap_or(600);
    print!("{}", Depot::new(seed, calls as usize).to_file());
}
