//! Reads a file of frames from standard input and prints what it answers. Ends with status 1 where
//! a line is refused for more than a call on the plan.

use std::io::{self, Read, Write};
use std::process::ExitCode;

fn main() -> io::Result<ExitCode> {
    let mut file = Vec::new();
    io::stdin().read_to_end(&mut file)?;
    let (text, whole) = plain::frames::carry_out(&file);
    io::stdout().write_all(text.as_bytes())?;
    Ok(if whole {
        ExitCode::SUCCESS
    } else {
        ExitCode::FAILURE
    })
}
