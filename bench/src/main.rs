//! Times the static library beside the plain Rust model, which makes the same checks, and measures the library's stack.
//! The pass has two plain versions: as one first writes it, and tuned, with the numbers of a table joined before the
//! test. Rounds of all are interleaved, so that what else the machine does falls on all. Argument: rounds (300).

mod busy_mesh;
#[path = "../../tests/compare/src/fewer_calls.rs"]
mod fewer_calls;
mod fewer_times;
mod flood_times;
mod growth;
#[path = "../../tests/compare/src/interface.rs"]
mod interface;
mod kept_trace;
#[path = "../../tests/compare/src/lib_calls.rs"]
mod lib_calls;
#[path = "../../tests/compare/src/mesh_calls.rs"]
mod mesh_calls;
mod mesh_times;
#[path = "../../tests/compare/src/model.rs"]
mod model;
mod no_room;
mod packet_times;
mod pass_times;
mod plain_fewer;
mod plain_mesh;
mod plain_tree;
#[path = "../../tests/compare/src/random.rs"]
mod random;
mod replay_times;
mod room_times;
mod stack;
mod timing;
#[path = "../../tests/compare/src/trace_calls.rs"]
mod trace_calls;
#[path = "../../tests/compare/src/tree_calls.rs"]
mod tree_calls;
mod tree_times;

fn main() {
    let rounds: usize = std::env::args().nth(1).map_or(300, |text| text.parse().expect("the rounds are a number"));
    timing::print_head();
    pass_times::all(rounds);
    packet_times::all(rounds);
    mesh_times::all(rounds);
    replay_times::all(rounds);
    room_times::all(rounds);
    flood_times::all(rounds);
    tree_times::all(rounds);
    growth::all(rounds);
    fewer_times::all(rounds);
    stack::print_use();
}
