//! What room for groups holds after a round, in plain Rust: "rows grouped by the top byte of the key where the mask fixes
//! it, other rows in every group, original order kept". A group is there if a packet asks for it, by the top byte of its
//! word. The model's own search stays row by row.

use super::model::Mesh;
use crate::interface::{LentTables, Packet};
use crate::model::{kind, kind_of};
use std::collections::BTreeSet;

const ROW: usize = 3;
const GROUPS: usize = 256;
/// Of so many rows the first is looked at before groups are built.
pub const SAMPLE: usize = 13;

/// "257 numbers plus 256 for each row".
pub fn room_for(rows: usize) -> usize {
    257 + GROUPS * rows
}

/// A chip for which a round asks whether groups pay, and what is written for it.
#[derive(Clone, Debug)]
pub struct Written {
    pub chip: u32,
    pub packets: usize,
    pub rows: usize,
    /// The groups that are asked for, and those of them that no MC packet asks for.
    pub asked: BTreeSet<usize>,
    pub by_others: usize,
    /// Whether the groups were built, and how many of those that are asked for then have no row.
    pub built: bool,
    pub empty: usize,
    /// Rows whose mask fixes none of the top byte, and some of it.
    pub fix_none: usize,
    pub fix_part: usize,
    /// How many numbers are lent.
    pub lent: usize,
    /// MC packets that arrive: those that a row of one group takes, one of every group, and no row.
    pub by_group: usize,
    pub by_every: usize,
    pub by_none: usize,
}

/// Chips by number: each for which groups pay has those that it asks for written over what those before left. The mesh is
/// that before the round.
pub fn after_round(mesh: &Mesh, tables: &LentTables, room: &mut [u32]) -> Vec<Written> {
    let mut all = vec![];
    for chip in 0..mesh.chips.len() as u32 {
        let (first, end) = (tables.starts[chip as usize] as usize, tables.starts[chip as usize + 1] as usize);
        let rows: Vec<&[u32]> = tables.rows[ROW * first..ROW * end].chunks_exact(ROW).collect();
        let packets: Vec<&Packet> = mesh.arriving(chip).collect();
        if !room.is_empty() && worth(packets.len(), rows.len()) {
            let asked = packets.iter().map(|packet| top(packet.word)).collect();
            let built = pays(packets.len(), &asked, &rows);
            if built {
                write(&asked, &rows, room);
            }
            all.push(written(chip, &packets, &rows, asked, built, room.len()));
        }
    }
    all
}

/// The team's rule for when it is worth it to ask.
fn worth(packets: usize, rows: usize) -> bool {
    (64..=1024).contains(&rows) && spares(packets, rows, 0)
}

/// And for when building pays.
fn pays(packets: usize, asked: &BTreeSet<usize>, rows: &[&[u32]]) -> bool {
    let samples = rows.chunks_exact(SAMPLE).map(|thirteen| thirteen[0]);
    let taken = samples.filter(|row| asked.iter().any(|&group| is_in(group, row))).count();
    spares(packets, rows.len(), taken)
}

/// Of the rows that are looked at, so many go into a group.
pub fn spares(packets: usize, rows: usize, taken: usize) -> bool {
    6 * rows + 104 * taken + 1600 < packets * rows.saturating_sub(40 * taken + 40)
}

fn top(word: u32) -> usize {
    (word >> 24) as usize
}

/// "Where the mask fixes it": all eight bits.
fn fixes_top(row: &[u32]) -> bool {
    top(row[1]) == 0xff
}

fn is_in(group: usize, row: &[u32]) -> bool {
    !fixes_top(row) || top(row[0]) == group
}

/// The numbers of a group's rows.
fn numbers(group: usize, rows: &[&[u32]]) -> Vec<u32> {
    (0..).zip(rows).filter(|(_, row)| is_in(group, row)).map(|(number, _)| number).collect()
}

/// A word for each group, 0 or one more than its rows, a word that stays, and a block of as many words as there are rows for
/// each group: a group that is asked for has its numbers at the start of its own.
fn write(asked: &BTreeSet<usize>, rows: &[&[u32]], room: &mut [u32]) {
    room[..GROUPS].fill(0);
    for &group in asked {
        let (numbers, block) = (numbers(group, rows), 257 + group * rows.len());
        room[group] = 1 + numbers.len() as u32;
        room[block..block + numbers.len()].copy_from_slice(&numbers);
    }
}

fn written(
    chip: u32,
    packets: &[&Packet],
    rows: &[&[u32]],
    asked: BTreeSet<usize>,
    built: bool,
    lent: usize,
) -> Written {
    let with_mask = |fits: fn(usize) -> bool| rows.iter().filter(|row| fits(top(row[1]))).count();
    let mc = || packets.iter().filter(|packet| kind_of(packet.control) == kind::MC);
    let by_mc: BTreeSet<usize> = mc().map(|packet| top(packet.word)).collect();
    let mut written = Written {
        chip,
        packets: packets.len(),
        rows: rows.len(),
        by_others: asked.difference(&by_mc).count(),
        built,
        empty: asked.iter().filter(|&&group| numbers(group, rows).is_empty()).count(),
        asked,
        fix_none: with_mask(|top| top == 0),
        fix_part: with_mask(|top| top != 0 && top != 0xff),
        lent,
        by_group: 0,
        by_every: 0,
        by_none: 0,
    };
    for packet in mc() {
        match rows.iter().find(|row| packet.word & row[1] == row[0]) {
            Some(row) if fixes_top(row) => written.by_group += 1,
            Some(_) => written.by_every += 1,
            None => written.by_none += 1,
        }
    }
    written
}
