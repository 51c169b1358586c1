//! Whole sequences of calls on a mesh, and replays of them, the library's beside those of a mesh in plain Rust.

mod account;
mod bad_records;
mod bad_tables;
mod calls;
mod crowds;
mod damage;
mod every_byte;
mod every_place;
mod every_word;
mod flood_model;
mod flood_tally;
pub mod flooding;
mod groups;
mod kept;
mod known;
mod layout;
mod lending;
mod model;
mod most_units;
mod packets;
mod pair;
mod passing;
mod paying;
mod place_tally;
mod refusals;
mod refused_steps;
mod replay;
mod replay_tally;
mod replaying;
mod room_tally;
mod sequence;
mod steps;
mod tables;
mod tally;
mod traces;

pub use crowds::run as run_crowd;
pub use flood_tally::FloodTally;
pub use sequence::run;
pub use tally::MeshTally;
pub use traces::run as run_trace;

/// What is no sequence of random calls: the known passes, every word of some buffers, every byte of some traces, tables
/// that are wrong at every place, more drops on a chip than its registers count, and where groups begin to pay.
pub fn systematic(tally: &mut MeshTally, seed: u64) {
    known::all();
    every_word::all(tally, seed);
    every_byte::all(tally, seed);
    every_place::all(tally, seed);
    most_units::all(tally, seed);
    paying::all(tally, seed);
}
