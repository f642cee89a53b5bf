//! Times the verified kernel against the plain program, and compares all their results.
//!
//! Every figure is nanoseconds per unit of work, the least of several rounds in which the two take
//! turns. In no figure is lent memory cleared beforehand: workspaces and codes hold what the call
//! before left there, on both sides. Masks, tallies and plans are fresh copies, which are made before
//! the clock starts. A result that differs ends the harness.
//!
//! With the word `kernel` or `plain` it makes the depot's calls on that side alone, for a profiler.

mod clock;
mod growth;
mod inputs;
mod kernel;
mod parts;
mod whole;

use plain::depot::Depot;

fn main() {
    let depot = Depot::new(1, 600);
    match std::env::args().nth(1).as_deref() {
        Some("kernel") => whole::kernel_alone(&depot),
        Some("plain") => whole::plain_alone(&depot),
        _ => everything(&depot),
    }
}

fn everything(depot: &Depot) {
    println!("nanoseconds per unit, least of several rounds; lent memory is never cleared first\n");
    parts::sweeps();
    parts::runs();
    parts::settling(depot);
    whole::tries();
    whole::files();
    whole::small_plans();
    growth::all();
    whole::memory();
    println!("\nall results agree");
}
