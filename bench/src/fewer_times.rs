//! Tables made fewer rows, beside plain Rust of the same method; and how the time grows with the rows.

use crate::interface::{Fewer, Row};
use crate::random::Random;
use crate::{fewer_calls, plain_fewer, timing};
use std::cell::RefCell;
use std::hint::black_box;
use std::time::Instant;

/// A call takes up to a second, so that there are fewer turns of the longer ones.
const FEWER_TURNS: usize = 100;

type Version = fn(&[u32], &mut [u32], &mut [u32]) -> Fewer;

thread_local! {
    /// The room for rows and numbers.
    static ROOM: RefCell<(Vec<u32>, Vec<u32>)> = const { RefCell::new((Vec::new(), Vec::new())) };
}

pub fn all(turns: usize) {
    for rows in [1_024, 16_384] {
        for (name, table) in [("random", random(rows)), ("in runs", in_runs(rows)), ("made one", made_one(rows))] {
            all_alike(&table);
            let versions: [fn(&Vec<u32>) -> Fewer; 2] =
                [|rows| on(fewer_calls::fewer, rows), |rows| on(plain_fewer::fewer, rows)];
            let turns = if rows == 1_024 { turns.div_ceil(10) } else { turns.div_ceil(FEWER_TURNS) };
            let rates: Vec<_> = (0..turns).map(|_| versions.map(|version| rate(&table, version))).collect();
            timing::print_rates(&format!("fewer, {rows} rows, {name}"), &rates);
        }
    }
    println!("{:<44} {:>14}", "microseconds of the library's fewer", "");
    for rows in [0, 256, 1_024, 4_096, 16_384] {
        for (name, table) in [("random", random(rows)), ("in runs", in_runs(rows)), ("made one", made_one(rows))] {
            let best = (0..3).map(|_| rate(&table, |rows| on(fewer_calls::fewer, rows))).fold(0.0, f64::max);
            println!("{:<44} {:>14.0}", format!("{rows} rows, {name}"), 1e6 / best);
        }
    }
}

fn on(version: Version, rows: &[u32]) -> Fewer {
    ROOM.with_borrow_mut(|(left, gone)| {
        left.resize(rows.len(), 0);
        gone.resize(rows.len() / 3, 0);
        version(rows, left, gone)
    })
}

fn rate(rows: &Vec<u32>, version: fn(&Vec<u32>) -> Fewer) -> f64 {
    let version = black_box(version);
    let begun = Instant::now();
    black_box(version(black_box(rows)));
    1.0 / begun.elapsed().as_secs_f64()
}

fn all_alike(rows: &[u32]) {
    let ends = [fewer_calls::fewer as Version, plain_fewer::fewer].map(|version| {
        let (mut left, mut gone) = (vec![0; rows.len()], vec![0; rows.len() / 3]);
        (version(rows, &mut left, &mut gone), left, gone)
    });
    assert_eq!(ends[0].0.refusal, 0);
    assert!(ends[0] == ends[1], "the two ends differ");
}

/// Keys of 32 bits and no two alike: nothing goes, and each row is held to each above it.
fn random(rows: u32) -> Vec<u32> {
    let mut random = Random::new(1);
    let row = |number| Row { key: random.word() << 14 | number, mask: u32::MAX, route: random.below(1 << 26) };
    words((0..rows).map(row))
}

/// Runs of up to 64 keys with one route, as a tool makes them chip by chip; one in four with a row for all of them behind it.
fn in_runs(rows: u32) -> Vec<u32> {
    let mut random = Random::new(2);
    let mut table = Vec::new();
    while table.len() < rows as usize {
        let (start, route) = (random.word() & !0xff, random.below(1 << 26));
        table.extend((0..=random.below(64)).map(|key| Row { key: start + key, mask: u32::MAX, route }));
        if random.one_in(4) {
            table.push(Row { key: start, mask: !0x3f, route });
        }
    }
    words(table.into_iter().take(rows as usize))
}

/// Keys in order, with one route: as many joinings as there are rows, but one.
fn made_one(rows: u32) -> Vec<u32> {
    words((0..rows).map(|key| Row { key, mask: u32::MAX, route: 1 }))
}

fn words(rows: impl Iterator<Item = Row>) -> Vec<u32> {
    rows.flat_map(|row| [row.key, row.mask, row.route]).collect()
}
