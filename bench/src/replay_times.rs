//! A kept trace replayed, and beside that the same calls made one by one: each is read from its record, and tests buffer
//! and tables anew. The plain versions test them once, as the replay does. A rate is in records a second.

use crate::interface::{Added, KeptCall, LentTables, Replayed};
use crate::kept_trace::{KeptTrace, CALLS};
use crate::{mesh_calls, no_room, plain_mesh, timing, trace_calls};
use std::hint::black_box;
use std::time::Instant;

/// A turn is a whole trace, so that there are fewer of them. One by one, with many rows, a turn takes many seconds.
const FEWER: usize = 10;
const FEWER_ONE_BY_ONE: usize = 300;
/// Packets in flight when a round begins, on the average.
const SOME_TENS: std::ops::Range<u32> = 20..100;

type Version = fn(&mut KeptTrace) -> Replayed;

const REPLAY: Version = |kept| kept.on(no_room::replay);
const ONE_BY_ONE: Version = |kept| kept.on(one_by_one);
const PLAIN: Version = |kept| kept.on(plain_mesh::replay::<false>);
const TUNED: Version = |kept| kept.on(plain_mesh::replay::<true>);

pub fn all(turns: usize) {
    for (name, rows) in [("few rows", 4), ("1024 rows", 1024)] {
        let start = KeptTrace::new(rows);
        all_alike(name, &start);
        line(&format!("replay, {name}"), turns.div_ceil(FEWER), &start, [REPLAY, PLAIN, TUNED]);
        let name = format!("replay, {name}, one by one");
        line(&name, turns.div_ceil(FEWER_ONE_BY_ONE), &start, [ONE_BY_ONE, PLAIN, TUNED]);
    }
}

/// All versions have to give one answer, and to leave the same words and log.
fn all_alike(name: &str, start: &KeptTrace) {
    let mut expected = start.clone();
    let answer = REPLAY(&mut expected);
    assert_eq!((answer.refusal, answer.at), (0, start.trace.len()), "{name}: all of it is accepted");
    for version in [ONE_BY_ONE, PLAIN, TUNED] {
        let mut kept = start.clone();
        assert_eq!(version(&mut kept), answer, "{name}");
        assert!(kept.words == expected.words && kept.log == expected.log, "{name}: words or log differ");
    }
    let in_flight = in_flight(start);
    assert!(SOME_TENS.contains(&in_flight), "{name}: {in_flight} packets in flight when a round begins");
}

fn line<const VERSIONS: usize>(name: &str, turns: usize, start: &KeptTrace, versions: [Version; VERSIONS]) {
    let mut kept = start.clone();
    let turns: Vec<_> = (0..turns).map(|_| versions.map(|version| rate(&mut kept, start, version))).collect();
    timing::print_rates(name, &turns);
}

/// The copy of mesh and log is not timed.
fn rate(kept: &mut KeptTrace, start: &KeptTrace, version: Version) -> f64 {
    let version = black_box(version);
    kept.copy_from(start);
    let begun = Instant::now();
    black_box(version(black_box(kept)));
    f64::from(CALLS) / begun.elapsed().as_secs_f64()
}

/// The library's calls, one for each record.
fn one_by_one(mesh: &mut [u32], log: &mut [u32], trace: &[u8], tables: &LentTables) -> Replayed {
    let mut replayed = Replayed::default();
    while replayed.at < trace.len() && replayed.refusal == 0 {
        let record = trace_calls::read_record(&trace[replayed.at..]);
        let rest = &mut log[6 * replayed.added..];
        let made = if record.refusal == 0 { call(mesh, rest, &record.call, tables) } else { refused(record.refusal) };
        (replayed.refusal, replayed.place) = (made.refusal, made.place);
        replayed.added += made.added as usize;
        replayed.at += if made.refusal == 0 { record.length } else { 0 };
    }
    replayed
}

fn call(mesh: &mut [u32], log: &mut [u32], call: &KeptCall, tables: &LentTables) -> Added {
    match call.kind {
        1 => mesh_calls::inject(mesh, log, call.chip, &call.bytes[..call.length as usize], tables),
        2 => mesh_calls::round(mesh, log, tables),
        3 => refused(mesh_calls::set_link(mesh, call.chip, call.link, call.up == 1)),
        _ => refused(mesh_calls::read_registers(mesh, call.chip).refusal),
    }
}

/// Nothing is added; 0 is no refusal.
fn refused(refusal: u32) -> Added {
    Added { refusal, added: 0, place: 0 }
}

/// Packets in flight when a round begins, on the average.
fn in_flight(start: &KeptTrace) -> u32 {
    let mut kept = start.clone();
    let (mut at, mut packets) = (0, 0);
    for round in start.rounds.iter().copied() {
        assert_eq!(kept.on_part(at..round, no_room::replay).refusal, 0);
        packets += mesh_calls::look(&kept.words).in_flight;
        at = round;
    }
    packets / start.rounds.len() as u32
}
