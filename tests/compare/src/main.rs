//! Compares the static library with the model, every field of every answer, and counts what was reached. Arguments: how
//! many times the usual count (1), the seed (1), and at choice the number of one sequence of calls on a mesh: that one
//! alone is then run, with the kept trace and the crowd of that number, and the calls are printed.

mod compare;
mod fewer;
mod fewer_calls;
mod finding;
mod interface;
mod known;
mod lib_calls;
mod mesh;
mod mesh_calls;
mod model;
mod pass_case;
mod random;
mod records;
mod systematic;
mod tally;
mod trace_calls;
mod tree;
mod tree_calls;

use fewer::FewerTally;
use finding::FindTally;
use interface::Fields;
use mesh::{FloodTally, MeshTally};
use pass_case::{PassCase, DAMAGES};
use random::Random;
use records::RecordTally;
use tally::Tally;
use tree::TreeTally;

const PASSES: f64 = 8e6;
const READS: f64 = 2e6;
const PACKS: f64 = 4e6;
const FINDS: f64 = 2e6;
const RECORDS: f64 = 4e6;
const SEQUENCES: f64 = 3e5;
const TRACES: f64 = 1e5;
const CROWDS: f64 = 2e4;
const FLOODS: f64 = 1e4;
const FEWERS: f64 = 1e6;
const TREES: f64 = 1e5;

fn main() {
    let arguments: Vec<String> = std::env::args().collect();
    let scale: f64 = arguments.get(1).map_or(1.0, |text| text.parse().expect("the scale is a number"));
    let seed: u64 = arguments.get(2).map_or(1, |text| text.parse().expect("the seed is a number"));
    let only: Option<u64> = arguments.get(3).map(|text| text.parse().expect("the sequence is a number"));
    let (mut tally, mut random) = (Tally::default(), Random::new(seed));
    let (mut record_tally, mut find_tally) = (RecordTally::default(), FindTally::default());
    let mut mesh_tally = MeshTally::default();
    let mut flood_tally = FloodTally::default();
    let mut fewer_tally = FewerTally::default();
    let mut tree_tally = TreeTally::default();

    if let Some(number) = only {
        mesh::run(&mut mesh_tally, seed, number, true);
        mesh::run_trace(&mut mesh_tally, seed, number, true);
        return mesh::run_crowd(&mut mesh_tally, seed, number, true);
    }
    known::all();
    systematic::all(&mut tally, &mut random);
    random_reads(&mut tally, &mut random, (READS * scale) as u64);
    random_packs(&mut tally, &mut random, (PACKS * scale) as u64);
    random_passes(&mut tally, &mut random, (PASSES * scale) as u64);
    finding::systematic(&mut find_tally, &mut random);
    finding::random(&mut find_tally, &mut random, (FINDS * scale) as u64);
    records::systematic(&mut record_tally, &mut random);
    records::random(&mut record_tally, &mut random, (RECORDS * scale) as u64);
    mesh::systematic(&mut mesh_tally, seed);
    for number in 0..(SEQUENCES * scale) as u64 {
        mesh::run(&mut mesh_tally, seed, number, false);
    }
    for number in 0..(TRACES * scale) as u64 {
        mesh::run_trace(&mut mesh_tally, seed, number, false);
    }
    for number in 0..(CROWDS * scale) as u64 {
        mesh::run_crowd(&mut mesh_tally, seed, number, false);
    }
    mesh::flooding::systematic(&mut flood_tally, &mut random);
    mesh::flooding::random(&mut flood_tally, &mut random, (FLOODS * scale) as u64);
    fewer::systematic(&mut fewer_tally, &mut random);
    fewer::random(&mut fewer_tally, &mut random, (FEWERS * scale) as u64);
    tree::systematic(&mut tree_tally, &mut random);
    tree::random(&mut tree_tally, &mut random, (TREES * scale) as u64);

    if !(tally.print()
        & find_tally.print()
        & record_tally.print()
        & mesh_tally.print()
        & flood_tally.print()
        & fewer_tally.print()
        & tree_tally.print())
    {
        std::process::exit(1);
    }
    println!("no difference (scale {scale}, seed {seed})");
}

fn random_reads(tally: &mut Tally, random: &mut Random, count: u64) {
    let mut bytes = [0; 12];
    for _ in 0..count {
        bytes.fill_with(|| random.word() as u8);
        let any = random.below(13);
        let length = random.pick(&[5, 5, 9, 9, any]) as usize;
        compare::read(tally, &bytes[..length]);
    }
}

fn random_packs(tally: &mut Tally, random: &mut Random, count: u64) {
    for _ in 0..count {
        let fields = random_fields(random);
        compare::pack(tally, &fields);
    }
}

/// Fields as a packet would give them, and then, mostly, one or two of them anything.
fn random_fields(random: &mut Random) -> Fields {
    let kind = random.below(4);
    let nine = random.below(2);
    let only = |has: bool, value: u32| if has { value } else { 0 };
    let mut fields = Fields {
        kind,
        mark: only(kind == 0 || kind == 3, random.below(4)),
        sequence: only(kind == 1, random.below(4)),
        stamp: only(kind != 2, random.below(4)),
        direct: only(kind == 2, random.below(2)),
        route: only(kind == 2, random.below(8)),
        carries: random.below(2),
        parity: random.below(2),
        nine,
        word: only(kind != 1, random.word()),
        source: only(kind == 1, random.word() >> 16),
        destination: only(kind == 1, random.word() >> 16),
        payload: only(nine == 1, random.word()),
    };
    for _ in 0..random.below(3) {
        let any = random.word();
        let value = random.pick(&[0, 1, 2, 3, 4, 7, 8, 0xffff, 0x1_0000, 0x8000_0000, u32::MAX, any]);
        *field(&mut fields, random.below(13)) = value;
    }
    fields
}

fn field(fields: &mut Fields, number: u32) -> &mut u32 {
    match number {
        0 => &mut fields.kind,
        1 => &mut fields.mark,
        2 => &mut fields.sequence,
        3 => &mut fields.stamp,
        4 => &mut fields.direct,
        5 => &mut fields.route,
        6 => &mut fields.carries,
        7 => &mut fields.parity,
        8 => &mut fields.nine,
        9 => &mut fields.word,
        10 => &mut fields.source,
        11 => &mut fields.destination,
        _ => &mut fields.payload,
    }
}

/// Accepted inputs, half of them damaged once or more.
fn random_passes(tally: &mut Tally, random: &mut Random, count: u64) {
    let mut case = PassCase::default();
    for _ in 0..count {
        case.fill(random);
        for _ in 0..random.pick(&[0, 0, 0, 0, 1, 1, 2, 3]) {
            DAMAGES[random.below(DAMAGES.len() as u32) as usize](&mut case, random);
        }
        compare::pass(tally, &case);
    }
}
