//! Tables made fewer rows, beside the process as the document has it: what is left, what went and in which order, every word of
//! the room that is lent, every refusal and its place; and, by trying keys, that the old and the new table give the same route.

mod process;
mod quick;
mod tables;
mod tally;

use crate::compare::same;
use crate::fewer_calls;
use crate::interface::{Fewer, Row};
use crate::random::Random;
use process::{matches, matches_all_of, matches_none, route_of, Ended};
pub use tally::FewerTally;
use tally::Seen;

/// "Up to 16,384 go in here."
const MOST_ROWS: usize = 16_384;
const MANY_ROWS: u32 = 16;
const ROUTE: u32 = 17;
const FEWER_ROOM: u32 = 28;
const ROUTE_BITS: u32 = 0x03ff_ffff;

/// The words that are lent, beyond what is needed or short of it.
#[derive(Clone, Copy, Default)]
struct Room {
    left: isize,
    gone: isize,
}

pub fn systematic(tally: &mut FewerTally, random: &mut Random) {
    tests_are_exact();
    small_tables(tally, random);
    refusals(tally, random);
    for rows in tables::large(random) {
        large(tally, random, &rows);
    }
}

pub fn random(tally: &mut FewerTally, random: &mut Random, times: u64) {
    for _ in 0..times {
        let rows = tables::random(random);
        let mut words = words_of(&rows);
        let room = Room { left: around(random), gone: around(random) };
        if random.one_in(8) {
            words.truncate(random.below(words.len() as u32 + 1) as usize);
        }
        if random.one_in(8) && !words.is_empty() {
            let at = random.below(words.len() as u32) as usize;
            words[at] ^= 1 << random.below(32);
        }
        call(tally, random, &words, room);
    }
}

/// Mostly as long as is needed or longer, at times too short.
fn around(random: &mut Random) -> isize {
    random.pick(&[0, 0, 1, 7, 40]) as isize - if random.one_in(10) { 1 + random.below(3) as isize } else { 0 }
}

/// The tests by masks are those by keys, for each two rows over four bits.
fn tests_are_exact() {
    let all = || (0..256).map(|bits: u32| Row { key: bits & 15, mask: bits >> 4, route: 0 });
    for row in all() {
        let keys: Vec<u32> = (0..16).filter(|&key| matches(&row, key)).collect();
        assert_eq!(matches_none(&row), keys.is_empty(), "{row:x?}");
        for earlier in all().filter(|_| !keys.is_empty()) {
            let by_keys = keys.iter().all(|&key| matches(&earlier, key));
            assert_eq!(matches_all_of(&earlier, &row), by_keys, "{earlier:x?} {row:x?}");
        }
    }
}

/// All tables of up to three rows over three key bits, the routes equal or not in every way; the bits stand at places that change.
fn small_tables(tally: &mut FewerTally, random: &mut Random) {
    const WAYS: [[u32; 3]; 5] = [[1, 1, 1], [1, 1, 2], [1, 2, 1], [1, 2, 2], [1, 2, 3]];
    const PLACES: [[u32; 3]; 4] = [[0, 1, 2], [29, 30, 31], [3, 17, 31], [15, 16, 8]];
    for count in 0..=3 {
        for routes in WAYS.iter().take([1, 1, 2, 5][count]) {
            let routes = if count == 2 && routes[2] == 2 { &WAYS[3] } else { routes };
            for number in 0..1 << (6 * count) {
                let places = &PLACES[number as usize % PLACES.len()];
                let row = |at: usize| {
                    let bits: u32 = number >> (6 * at);
                    Row { key: spread(bits & 7, places), mask: spread(bits >> 3 & 7, places), route: routes[at] }
                };
                let rows: Vec<Row> = (0..count).map(row).collect();
                let ended = call(tally, random, &words_of(&rows), Room::default());
                for key in 0..8 {
                    same_route(&rows, &ended.left, spread(key, places));
                    same_route(&rows, &ended.left, !spread(key, places));
                }
            }
        }
    }
}

fn spread(bits: u32, places: &[u32; 3]) -> u32 {
    (0..3).map(|bit| (bits >> bit & 1) << places[bit as usize]).sum()
}

/// Each refusal at each place that it can have, and the first of those that apply.
fn refusals(tally: &mut FewerTally, random: &mut Random) {
    let good = |count: u32| (0..count).flat_map(|key| [key, u32::MAX, ROUTE_BITS]).collect::<Vec<u32>>();
    for count in 0..8 {
        for more in 0..3 {
            let mut words = good(count);
            words.extend(&[u32::MAX; 2][..more]);
            for left in -3..3 {
                for gone in -3..3 {
                    call(tally, random, &words, Room { left, gone });
                }
            }
            for bad in 0..count as usize {
                for bit in 26..32 {
                    let mut words = words.clone();
                    words[3 * bad + 2] = 1 << bit;
                    words[3 * (bad / 2) + 1] = 0;
                    call(tally, random, &words, Room::default());
                    call(tally, random, &words, Room { left: -1, gone: -1 });
                    words[3 * count as usize - 1] = u32::MAX;
                    call(tally, random, &words, Room::default());
                }
            }
        }
    }
    let most = MOST_ROWS as u32;
    let room = Room { left: -1, gone: -1 };
    for (count, more, bad) in [
        (most, 0, 0),
        (most, 1, 0),
        (most, 2, 0),
        (most, 0, 1),
        (most, 2, 1),
        (most + 1, 0, 0),
        (most + 1, 1, 1),
        (most + 700, 0, 1),
    ] {
        let mut words: Vec<u32> = (0..count).flat_map(|_| [1, 0, ROUTE_BITS]).collect();
        words.extend(&[u32::MAX; 2][..more]);
        if bad == 1 {
            words[3 * 16_000 + 2] = ROUTE_BITS + 1;
        }
        call(tally, random, &words, Room::default());
        call(tally, random, &words, room);
    }
}

/// A table that is too large for the process: its end is the quick one's, and keys are tried.
fn large(tally: &mut FewerTally, random: &mut Random, rows: &[Row]) {
    let ended = call(tally, random, &words_of(rows), Room { left: 3, gone: 1 });
    for _ in 0..2_000 {
        let row = rows[random.below(rows.len() as u32) as usize];
        same_route(rows, &ended.left, row.key | random.word() & !row.mask);
    }
}

/// One call of the library, all that it can do held to what it should.
fn call(tally: &mut FewerTally, random: &mut Random, words: &[u32], room: Room) -> Ended {
    let (rows, whole) = (rows_of(words), words.len() / 3);
    let (mut left, mut gone) = (lent(random, words.len(), room.left), lent(random, whole, room.gone));
    let refused = refusal_of(words, left.len(), gone.len());
    let ended = if refused.refusal == 0 { ended(&rows) } else { nothing() };
    let answer = Fewer { rows: ended.left.len() as u32, gone: ended.gone.len() as u32, ..refused };
    let (mut left_after, mut gone_after) = (left.clone(), gone.clone());
    left_after[..3 * ended.left.len()].copy_from_slice(&words_of(&ended.left));
    gone_after[..ended.gone.len()].copy_from_slice(&ended.gone);
    let given = fewer_calls::fewer(words, &mut left, &mut gone);
    same("fewer", &words, &(answer, &left_after, &gone_after), &(given, &left, &gone));
    if refused.refusal == 0 && rows.len() <= 64 {
        for row in &rows {
            same_route(&rows, &ended.left, row.key | random.word() & !row.mask);
            same_route(&rows, &ended.left, row.key ^ 1 << random.below(32));
        }
    }
    let seen = Seen { rows, words: words.len(), left_room: left.len(), gone_room: gone.len(), answer, ended };
    tally.count(&seen);
    seen.ended
}

/// Room with one word throughout, which what is left and what went need not hold.
fn lent(random: &mut Random, needed: usize, more: isize) -> Vec<u32> {
    vec![random.word(); needed.saturating_add_signed(more)]
}

/// "Refusals: 16 above 16,384 rows, 17, then 28 room for fewer rows or list entries than go in."
fn refusal_of(words: &[u32], left_room: usize, gone_room: usize) -> Fewer {
    let whole = words.len() / 3;
    let bad_route = (0..whole).find(|row| words[3 * row + 2] > ROUTE_BITS);
    let bad_row = bad_route.or((words.len() % 3 != 0).then_some(whole));
    let refused = |refusal: u32, place: usize| Fewer { refusal, place: place as u32, ..Fewer::default() };
    match bad_row {
        _ if whole > MOST_ROWS => refused(MANY_ROWS, 0),
        Some(row) => refused(ROUTE, row),
        None if left_room < words.len() || gone_room < whole => refused(FEWER_ROOM, 0),
        None => Fewer::default(),
    }
}

/// By the process where the table is small, and then by the quick one too.
fn ended(rows: &[Row]) -> Ended {
    const SMALL: usize = 64;
    let (left, gone) = quick::ended(rows);
    if rows.len() > SMALL {
        return Ended { left, gone, steps: Vec::new() };
    }
    let ended = process::ended(rows);
    assert_eq!((&ended.left, &ended.gone), (&left, &gone), "the two models differ: {rows:x?}");
    ended
}

fn nothing() -> Ended {
    Ended { left: Vec::new(), gone: Vec::new(), steps: Vec::new() }
}

fn same_route(old: &[Row], new: &[Row], key: u32) {
    same("the route of a key after fewer", &(old, new, key), &route_of(old, key), &route_of(new, key));
}

fn words_of(rows: &[Row]) -> Vec<u32> {
    rows.iter().flat_map(|row| [row.key, row.mask, row.route]).collect()
}

/// The whole ones.
fn rows_of(words: &[u32]) -> Vec<Row> {
    words.chunks_exact(3).map(|row| Row { key: row[0], mask: row[1], route: row[2] }).collect()
}
