//! What is wrong with lent tables, and the first place where it is: written after the sentences of the rules.
//! "15 bad starts, 16 too many rows, 17 route bits, .. in that order; a bad fixed route .. 18, after 17"; then 11; then 29,
//! "room under 257 numbers plus 256 for each row of the longest table".

use super::groups::room_for;
use crate::interface::LentTables;
use crate::model::{refusal, MOST_ROWS};

const ROW: usize = 3;
const ROUTE_BITS: u32 = 26;
const MOST_CODE: u8 = 7;

/// A refusal's number, or 0, and its place, "0 but for 15 to 18".
#[derive(Clone, Copy, Debug, Default, PartialEq, Eq)]
pub struct Refused {
    pub number: u32,
    pub place: u32,
}

impl From<u32> for Refused {
    fn from(number: u32) -> Refused {
        Refused { number, place: 0 }
    }
}

/// Each thing that is wrong with tables, by its first place.
#[derive(Clone, Copy, Debug, Default)]
pub struct Faults {
    pub start: Option<usize>,
    pub crowd: Option<usize>,
    pub row: Option<usize>,
    pub fixed: Option<usize>,
    pub codes: bool,
    pub room: bool,
}

impl Faults {
    pub fn of(tables: &LentTables, chips: usize) -> Faults {
        Faults {
            start: bad_start(tables.starts, chips, tables.rows.len() / ROW),
            crowd: crowded_chip(tables.starts),
            row: bad_row(tables.rows),
            fixed: bad_fixed(tables.fixed, chips),
            codes: tables.codes.len() != chips * chips || tables.codes.iter().any(|&code| code > MOST_CODE),
            room: tables.room != 0 && tables.room < room_for(longest_table(tables.starts)),
        }
    }

    /// "The numbers go before the places: a bad start at the end comes before a bad route in row 0."
    pub fn refused(&self) -> Refused {
        let numbers = [
            refusal::STARTS,
            refusal::MANY_ROWS,
            refusal::ROUTE,
            refusal::FIXED_ROUTE,
            refusal::CODES,
            refusal::GROUPS_ROOM,
        ];
        let (codes, room) = (self.codes.then_some(0), self.room.then_some(0));
        let places = [self.start, self.crowd, self.row, self.fixed, codes, room];
        let mut with_places = numbers.into_iter().zip(places);
        let refused = with_places.find_map(|(number, place)| Some(Refused { number, place: place? as u32 }));
        refused.unwrap_or_default()
    }
}

/// "15: 0 if their number is wrong or the first is not 0; p if the start at p is below the one before it; the number of
/// chips if the last is not the number of rows." Rows are whole rows here.
fn bad_start(starts: &[u32], chips: usize, rows: usize) -> Option<usize> {
    if starts.len() != chips + 1 || starts[0] != 0 {
        return Some(0);
    }
    let falls = (1..=chips).find(|&at| starts[at] < starts[at - 1]);
    falls.or((starts[chips] as usize != rows).then_some(chips))
}

/// The most rows of one chip; where starts fall, 15 goes before.
pub fn longest_table(starts: &[u32]) -> usize {
    starts.windows(2).map(|pair| pair[1].saturating_sub(pair[0]) as usize).max().unwrap_or(0)
}

/// "16: the lowest chip." Where starts fall, 15 goes before.
fn crowded_chip(starts: &[u32]) -> Option<usize> {
    starts.windows(2).position(|pair| pair[1].saturating_sub(pair[0]) as usize > MOST_ROWS)
}

/// "17: the row's number in the slice that is lent, over all chips. Words past the last whole row are a row without a route:
/// 17 at its number, after all whole rows".
fn bad_row(rows: &[u32]) -> Option<usize> {
    let whole = rows.len() / ROW;
    let bad = (0..whole).find(|row| !is_route(rows[ROW * row + 2]));
    bad.or((rows.len() > ROW * whole).then_some(whole))
}

/// "18: the lowest chip", "0 if their number is wrong".
fn bad_fixed(fixed: &[u32], chips: usize) -> Option<usize> {
    if fixed.len() != chips {
        return Some(0);
    }
    fixed.iter().position(|&route| !is_route(route))
}

/// No "bits 26 to 31 set".
fn is_route(route: u32) -> bool {
    route >> ROUTE_BITS == 0
}
