//! A round that goes by groups where that pays, in plain Rust: the same groups, rules and checks as the library's. The groups
//! that a chip's packets ask for are built, each in a block of its own, in one walk over the rows.

use super::{accepted, arrival_at, checks, chips_of, end_round, pass_chip, place_of, set_aside, ASIDE, PLACE};
use crate::interface::{Added, LentTables};
use crate::model::{first_match, LINKS, MOST_ROWS};

const GROUPS: usize = 256;
/// Where the blocks begin.
const BLOCKS: usize = GROUPS + 1;
const ROW: usize = 3;
/// Of so many rows the first is looked at before groups are built.
const SAMPLE: usize = 13;
/// The most packets that come to a chip in a round.
const MOST_PACKETS: usize = 48;

pub fn round_in<const JOINED: bool>(mesh: &mut [u32], log: &mut [u32], tables: &LentTables, room: &mut [u32]) -> Added {
    if let Err(refusal) = checks::round::<JOINED>(mesh, log, tables) {
        return Added { refusal, added: 0, place: place_of(refusal, mesh, tables) };
    }
    set_aside(mesh);
    let mut records = 0;
    for chip in 0..chips_of(mesh) {
        let rows = &tables.rows[ROW * tables.starts[chip] as usize..ROW * tables.starts[chip + 1] as usize];
        records = if group(mesh, chip, rows, room) {
            let groups = &*room;
            pass_chip(mesh, log, records, chip, tables, |rows, key| grouped_match(rows, groups, key))
        } else {
            pass_chip(mesh, log, records, chip, tables, first_match)
        };
    }
    end_round(mesh);
    accepted(records)
}

/// Answers whether the chip's groups were built.
fn group(mesh: &[u32], chip: usize, rows: &[u32], room: &mut [u32]) -> bool {
    if room.is_empty() {
        return false;
    }
    let packets = arriving(mesh, chip);
    if !worth(packets, rows.len() / ROW) {
        return false;
    }
    let (mut marks, mut tops) = ([0; GROUPS], [0; MOST_PACKETS]);
    let asked = ask(mesh, chip, &mut marks, &mut tops);
    let pays = pays(packets, rows, &marks);
    if pays {
        build(rows, &tops[..asked], &marks, room);
    }
    pays
}

fn arriving(mesh: &[u32], chip: usize) -> usize {
    (0..LINKS as usize).map(|source| mesh[arrival_at(mesh, chip, source) + ASIDE] as usize).sum()
}

/// Before a row is looked at.
fn worth(packets: usize, rows: usize) -> bool {
    (64..=MOST_ROWS).contains(&rows) && 6 * rows + 1600 < packets * (rows - 40)
}

/// Marks the groups that are asked for, and answers how many they are; their numbers stand first in `tops`.
fn ask(mesh: &[u32], chip: usize, marks: &mut [u8; GROUPS], tops: &mut [u32; MOST_PACKETS]) -> usize {
    let mut asked = 0;
    for source in 0..LINKS as usize {
        let aside = &mesh[arrival_at(mesh, chip, source) + ASIDE..];
        for packet in aside[1..1 + aside[0] as usize * PLACE].chunks_exact(PLACE) {
            let mark = &mut marks[top_of(packet[1])];
            if *mark == 0 {
                *mark = 1;
                tops[asked] = top_of(packet[1]) as u32;
                asked += 1;
            }
        }
    }
    asked
}

/// What building takes is less than what the lookups spare.
fn pays(packets: usize, rows: &[u32], marks: &[u8; GROUPS]) -> bool {
    let goes_in = |row: &[u32]| !fixes_top(row) || marks[top_of(row[0])] != 0;
    let taken = rows.chunks_exact(SAMPLE * ROW).filter(|thirteen| goes_in(&thirteen[..ROW])).count();
    let count = rows.len() / ROW;
    6 * count + 104 * taken + 1600 < packets * count.saturating_sub(40 * taken + 40)
}

fn fixes_top(row: &[u32]) -> bool {
    row[1] >> 24 == 0xff
}

fn top_of(key: u32) -> usize {
    (key >> 24) as usize
}

/// The word of a group that is asked for is one more than the rows that it has so far.
fn build(rows: &[u32], tops: &[u32], marks: &[u8; GROUPS], room: &mut [u32]) {
    room.iter_mut().zip(marks).for_each(|(word, &mark)| *word = mark.into());
    let count = rows.len() / ROW;
    let (words, blocks) = room.split_at_mut(BLOCKS);
    let mut put = |group: usize, number: u32| {
        let word = words[group];
        if word != 0 {
            blocks[group * count + word as usize - 1] = number;
            words[group] = word + 1;
        }
    };
    for (row, number) in rows.chunks_exact(ROW).zip(0..) {
        if fixes_top(row) {
            put(top_of(row[0]), number);
        } else {
            tops.iter().for_each(|&top| put(top as usize, number));
        }
    }
}

fn grouped_match(rows: &[u32], groups: &[u32], key: u32) -> Option<u32> {
    let group = top_of(key);
    let first = BLOCKS + group * (rows.len() / ROW);
    let row = |&number: &u32| &rows[ROW * number as usize..][..ROW];
    let numbers = &groups[first..first + groups[group] as usize - 1];
    numbers.iter().map(row).find(|row| key & row[1] == row[0]).map(|row| row[2])
}
