//! The same end, found faster, for large tables: rows in a list of neighbours, and the pairs that wait by their places. It is
//! held to the process on small tables.

use super::process::{joining_bit, matches_none};
use crate::interface::Row;
use std::collections::{BTreeSet, HashMap, HashSet};

pub fn ended(rows: &[Row]) -> (Vec<Row>, Vec<u32>) {
    let mut gone = Vec::new();
    let mut table = Table::new(rows, &mut gone);
    while let Some(upper) = table.pairs.first().copied() {
        let lower = table.below[upper];
        let bit = table.rows[upper].key ^ table.rows[lower].key;
        table.take_away(lower);
        gone.push(lower as u32);
        table.rows[upper].key &= !bit;
        table.rows[upper].mask &= !bit;
        table.look_around(upper);
        table.take_out_under(upper, &mut gone);
    }
    (table.all(), gone)
}

/// A place is the number that a row first had; the one past the last row ends the list, and stands above its first.
struct Table {
    rows: Vec<Row>,
    above: Vec<usize>,
    below: Vec<usize>,
    /// The upper place of each pair that can be joined.
    pairs: BTreeSet<usize>,
}

impl Table {
    /// The rows that nothing takes out before any two are joined.
    fn new(rows: &[Row], gone: &mut Vec<u32>) -> Table {
        let end = rows.len();
        let mut staying = Vec::new();
        let mut seen: HashMap<u32, HashSet<u32>> = HashMap::new();
        for (place, row) in rows.iter().enumerate() {
            let covered = || seen.iter().any(|(mask, keys)| mask & !row.mask == 0 && keys.contains(&(row.key & mask)));
            if matches_none(row) || covered() {
                gone.push(place as u32);
            } else {
                seen.entry(row.mask).or_default().insert(row.key);
                staying.push(place);
            }
        }
        let mut table =
            Table { rows: rows.to_vec(), above: vec![end; end + 1], below: vec![end; end + 1], pairs: BTreeSet::new() };
        let mut last = end;
        for place in staying {
            table.above[place] = last;
            table.below[last] = place;
            last = place;
        }
        table.above[end] = last;
        table.below[last] = end;
        let mut place = table.below[end];
        while place != end {
            table.look_at(place);
            place = table.below[place];
        }
        table
    }

    fn end(&self) -> usize {
        self.rows.len()
    }

    fn all(&self) -> Vec<Row> {
        let mut all = Vec::new();
        let mut place = self.below[self.end()];
        while place != self.end() {
            all.push(self.rows[place]);
            place = self.below[place];
        }
        all
    }

    fn take_away(&mut self, place: usize) {
        let (above, below) = (self.above[place], self.below[place]);
        self.below[above] = below;
        self.above[below] = above;
        self.pairs.remove(&place);
        self.look_at(above);
    }

    /// Whether a row and the one below it can be joined.
    fn look_at(&mut self, place: usize) {
        let below = self.below[place];
        let two = place != self.end() && below != self.end();
        if two && joining_bit(&self.rows[place], &self.rows[below]).is_some() {
            self.pairs.insert(place);
        } else {
            self.pairs.remove(&place);
        }
    }

    fn look_around(&mut self, place: usize) {
        self.look_at(self.above[place]);
        self.look_at(place);
    }

    /// The rows below a joined one that it now covers.
    fn take_out_under(&mut self, joined: usize, gone: &mut Vec<u32>) {
        let Row { key, mask, .. } = self.rows[joined];
        let mut place = self.below[joined];
        while place != self.end() {
            let (row, below) = (self.rows[place], self.below[place]);
            if mask & !row.mask == 0 && row.key & mask == key {
                self.take_away(place);
                gone.push(place as u32);
            }
            place = below;
        }
    }
}
