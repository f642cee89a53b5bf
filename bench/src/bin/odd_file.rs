//! Prints the small file of a seed: `odd_file SEED`.

use std::io::{self, Write};

fn main() -> io::Result<()> {
    let seed = std::env::args()
        .nth(1)
        .and_then(|word| word.parse().ok())
        .unwrap_or(1);
    io::stdout().write_all(&plain::odd::file(seed))
}
