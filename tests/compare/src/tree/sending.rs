//! A multicast packet sent with the rows of a tree, by the library's own mesh: "with only these rows, all links up, nothing else in flight
//! and the tree at most F links deep, one matching packet, injected at the source without error, reaches each named processor exactly
//! once and no other, and nothing is dropped."

use super::model::{Grown, PROCESSORS};
use super::tally::Sent;
use crate::compare::same;
use crate::interface::{LentTables, TreeCall};
use crate::mesh_calls;
use crate::model::kind;
use crate::random::Random;

const LOG: usize = 6;
/// Counters: those that stay at 0, and those that are counted here.
const ERRORS: [u32; 4] = [1, 2, 3, 4];
const SENT: u32 = 5;
const DELIVERED: u32 = 6;
const DROPPED: u32 = 7;
const SWALLOWED: u32 = 8;
const LOCAL_MISSES: u32 = 9;

/// `rows` and `starts` are those that the library's call wrote.
pub fn send(random: &mut Random, grown: &Grown, rows: &[u32], starts: &[u32]) -> Sent {
    let call = &grown.call;
    let chips = (call.width * call.height) as usize;
    let tables = LentTables { rows, starts, codes: &vec![6; chips * chips], fixed: &vec![0; chips], room: 0 };
    let deep = grown.deep();
    let rounds_per_phase = deep.max(1) + if random.one_in(2) { 0 } else { random.below(40) };
    let mut words = vec![0; mesh_calls::size(call.width, call.height).words as usize];
    let monitor = random.below(PROCESSORS);
    assert_eq!(mesh_calls::open(&mut words, call.width, call.height, rounds_per_phase, monitor), 0);
    let rounds_before = random.below(rounds_per_phase * 4);
    // as many packets as the tree has links are in flight at most
    let log = &mut vec![0; LOG * (grown.links() as usize + 1)];
    for _ in 0..rounds_before {
        assert_eq!(mesh_calls::round(&mut words, log, &tables).refusal, 0, "rows are accepted by a round: {call:x?}");
    }

    let key = call.key | random.word() & !call.mask;
    let packet = multicast(random, key);
    let stamped_anew = u32::from(packet[0]) >> 2 & 3 != mesh_calls::look(&words).phase;
    let passed = mesh_calls::inject(&mut words, log, call.source, &packet, &tables);
    assert_eq!(passed.refusal, 0, "rows are accepted by injection: {call:x?}");
    let mut records = log[..LOG * passed.added as usize].to_vec();
    let mut rounds = 0;
    while mesh_calls::look(&words).in_flight > 0 && rounds <= deep {
        let passed = mesh_calls::round(&mut words, log, &tables);
        assert_eq!(passed.refusal, 0, "rows are accepted by a round: {call:x?}");
        records.extend(&log[..LOG * passed.added as usize]);
        rounds += 1;
    }
    same("rounds of a packet by its tree", call, &deep, &rounds);
    check_records(call, &packet, &records);
    check_counters(grown, &words);
    Sent {
        deep,
        rounds_per_phase,
        processors: named(call),
        targets: call.targets.len() / 2,
        over_a_phase: rounds_before % rounds_per_phase + deep > rounds_per_phase,
        stamped_anew,
        other_key: key != call.key,
    }
}

/// Each named chip has one record, with its whole processor set and without error, and no other chip has one.
fn check_records(call: &TreeCall, packet: &[u8], records: &[u32]) {
    let mut reached: Vec<(u32, u32)> = records.chunks(LOG).map(|record| (record[0], record[1])).collect();
    let mut wanted: Vec<(u32, u32)> = call.targets.chunks(2).map(|target| (target[0], target[1])).collect();
    reached.sort_unstable();
    wanted.sort_unstable();
    same("processors reached by a tree", call, &wanted, &reached);
    let number = |bytes: &[u8]| bytes.iter().fold(0, |number, &byte| number << 8 | u32::from(byte));
    for record in records.chunks(LOG) {
        let (errors, mark) = (record[2], record[3] >> 4);
        let arrived = (errors, mark, record[4], record[5]);
        same("a packet by its tree", call, &(0, 0, number(&packet[1..5]), number(&packet[5..])), &arrived);
    }
}

fn check_counters(grown: &Grown, words: &[u32]) {
    let call = &grown.call;
    let chips = 0..call.width * call.height;
    let total = |counter: u32| chips.clone().map(|chip| mesh_calls::read_counter(words, chip, counter).count).sum();
    let counted = |counters: &[u32]| counters.iter().map(|&counter| total(counter)).collect::<Vec<u32>>();
    let swallowed = u32::from(call.targets.is_empty());
    same("errors by a tree", call, &vec![0; ERRORS.len()], &counted(&ERRORS));
    same(
        "sent, delivered, dropped, swallowed and missed by a tree",
        call,
        &vec![grown.links(), named(call), 0, swallowed, 0],
        &counted(&[SENT, DELIVERED, DROPPED, SWALLOWED, LOCAL_MISSES]),
    );
}

/// How many processors are named.
fn named(call: &TreeCall) -> u32 {
    call.targets.chunks(2).map(|target| target[1].count_ones()).sum()
}

/// A multicast packet without error, marked 00, with any stamp, and a payload or none.
fn multicast(random: &mut Random, key: u32) -> Vec<u8> {
    let nine = random.one_in(2);
    let payload = if nine { random.word() } else { 0 };
    let even = kind::MC << 6 | random.below(4) << 2 | u32::from(nine) << 1;
    let right = 1 ^ (even.count_ones() + key.count_ones() + payload.count_ones()) & 1;
    let mut bytes = vec![(even | right) as u8];
    bytes.extend_from_slice(&key.to_be_bytes());
    if nine {
        bytes.extend_from_slice(&payload.to_be_bytes());
    }
    bytes
}
