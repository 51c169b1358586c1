//! Versions of one function timed in turns, and the line that says how they did.

use crate::busy_mesh::BusyMesh;
use crate::interface::Added;
use std::fmt::Debug;
use std::hint::black_box;
use std::time::Instant;

/// About how long one version runs before the next has its turn.
const TURN_SECONDS: f64 = 0.001;

pub fn print_head() {
    print!("{:<34} {:>14}", "calls per second", "library");
    println!(" {:>14} {:>7} {:>14} {:>7}", "plain Rust", "ratio", "tuned plain", "ratio");
}

/// Times the versions, the library's first, and prints the best rate of each, which other work on the machine disturbs
/// least. The ratio is library to plain, above 1 where the library is faster: the middle one of all turns, each held to the
/// turn of the other that follows at once, so that what slows both for a while does not count. All must give the same
/// answer.
pub fn line<Input, Answer: Debug + PartialEq, const VERSIONS: usize>(
    name: &str,
    rounds: usize,
    input: &Input,
    versions: [fn(&Input) -> Answer; VERSIONS],
) {
    for version in versions {
        assert_eq!(version(input), versions[0](input), "{name}");
    }
    let calls = calls_in_a_turn(input, versions[0]);
    let turns: Vec<_> = (0..rounds).map(|_| versions.map(|version| rate(calls, input, version))).collect();
    print_rates(name, &turns);
}

/// The same for calls that change a mesh. Every turn of every version starts from the same mesh, and all must leave the same
/// words and log.
pub fn line_from<const VERSIONS: usize>(
    name: &str,
    turns: usize,
    start: &BusyMesh,
    versions: [fn(&mut BusyMesh) -> Added; VERSIONS],
) {
    let mut mesh = start.copy();
    let calls = mesh_calls_in_a_turn(&mut mesh, start, versions[0]);
    let mut expected = start.copy();
    (0..calls).for_each(|_| assert_eq!(versions[0](&mut expected).refusal, 0));
    for version in versions {
        mesh_rate(calls, &mut mesh, start, version);
        assert!(mesh.words == expected.words && mesh.log == expected.log, "{name}: words or log differ");
    }
    let turns: Vec<_> =
        (0..turns).map(|_| versions.map(|version| mesh_rate(calls, &mut mesh, start, version))).collect();
    print_rates(name, &turns);
}

/// How long the best turn of a call took, by call.
pub fn nanoseconds(name: &str, turns: usize, start: &BusyMesh, call: fn(&mut BusyMesh) -> Added) {
    let mut mesh = start.copy();
    let calls = mesh_calls_in_a_turn(&mut mesh, start, call);
    let best = (0..turns).map(|_| mesh_rate(calls, &mut mesh, start, call)).fold(0.0, f64::max);
    println!("{name:<44} {:>14.0}", 1e9 / best);
}

/// `turns` has a rate of each version in each turn.
pub fn print_rates<const VERSIONS: usize>(name: &str, turns: &[[f64; VERSIONS]]) {
    let best = |version: usize| turns.iter().map(|rates| rates[version]).fold(0.0, f64::max);
    print!("{name:<34} {:>14.0}", best(0));
    for plain in 1..VERSIONS {
        print!(" {:>14.0} {:>7.2}", best(plain), middle(turns.iter().map(|rates| rates[0] / rates[plain]).collect()));
    }
    println!();
}

fn middle(mut numbers: Vec<f64>) -> f64 {
    numbers.sort_by(f64::total_cmp);
    numbers[numbers.len() / 2]
}

fn mesh_calls_in_a_turn(mesh: &mut BusyMesh, start: &BusyMesh, call: fn(&mut BusyMesh) -> Added) -> u32 {
    let mut calls = 4;
    while f64::from(calls) / mesh_rate(calls, mesh, start, call) < TURN_SECONDS {
        calls *= 2;
    }
    calls
}

/// The copy of the mesh is not timed.
fn mesh_rate(calls: u32, mesh: &mut BusyMesh, from: &BusyMesh, call: fn(&mut BusyMesh) -> Added) -> f64 {
    let call = black_box(call);
    mesh.copy_from(from);
    let start = Instant::now();
    for _ in 0..calls {
        black_box(call(black_box(mesh)));
    }
    f64::from(calls) / start.elapsed().as_secs_f64()
}

fn calls_in_a_turn<Input, Answer>(input: &Input, function: fn(&Input) -> Answer) -> u32 {
    let mut calls = 16;
    loop {
        let rate = rate(calls, input, function);
        if f64::from(calls) / rate > TURN_SECONDS {
            return calls;
        }
        calls *= 2;
    }
}

fn rate<Input, Answer>(calls: u32, input: &Input, function: fn(&Input) -> Answer) -> f64 {
    let function = black_box(function);
    let start = Instant::now();
    for _ in 0..calls {
        black_box(&function(black_box(input)));
    }
    f64::from(calls) / start.elapsed().as_secs_f64()
}
