//! The lookup over a lent slice of row structs, beside a search from the last row to the first: the one that it keeps at
//! the end is the first that takes the key.

use crate::compare::same;
use crate::interface::{Found, Row};
use crate::lib_calls;
use crate::random::Random;
use crate::tally::{count, print_all, Events};

const MOST_ROWS: u32 = 40;

pub fn random(tally: &mut FindTally, random: &mut Random, times: u64) {
    for _ in 0..times {
        let key = random.word();
        let rows = random_rows(random, key);
        let lent = random.below(rows.len() as u32 + 1).min(MOST_ROWS) as usize;
        find(tally, &rows, lent, key);
    }
}

/// Each number of rows, and each place of each two that take the key; any number of rows is taken, and any route.
pub fn systematic(tally: &mut FindTally, random: &mut Random) {
    for lent in 0..=MOST_ROWS as usize {
        for first in 0..=lent {
            for second in first..=lent {
                let key = random.word();
                let other = Row { key: !key, mask: u32::MAX, route: random.word() };
                let mut rows = vec![other; lent + 1];
                for at in [first, second] {
                    let mask = random.word();
                    rows[at] = Row { key: key & mask, mask, route: random.word() };
                }
                find(tally, &rows, lent, key);
            }
        }
    }
    for lent in [1_023, 1_024, 1_025, 5_000, 70_000] {
        let mut rows: Vec<Row> = (0..=lent).map(|row| Row { key: row, mask: u32::MAX, route: random.word() }).collect();
        rows[0].route = u32::MAX;
        for key in [0, 1, lent / 2, lent - 2, lent - 1, lent, lent + 1] {
            find(tally, &rows, lent as usize, key);
        }
    }
}

fn random_rows(random: &mut Random, key: u32) -> Vec<Row> {
    let matching = random.pick(&[2, 8, 40]);
    let count = random.below(MOST_ROWS + 3);
    let row = |_| {
        let mask = match random.below(8) {
            0 => 0,
            1 | 2 => random.word(),
            3 => 1 << random.below(32),
            4 => u32::MAX << random.below(32),
            _ => u32::MAX,
        };
        let any = random.word();
        let near = key ^ 1 << random.below(32);
        let row_key = if random.one_in(matching) { key & mask } else { random.pick(&[any, near, key | !mask]) };
        let route = random.word();
        Row { key: row_key, mask, route: random.pick(&[route, route >> 6, 1, 0]) }
    };
    (0..count).map(row).collect()
}

/// The first `lent` rows are lent; what stands behind them, and may take the key too, does not count.
fn find(tally: &mut FindTally, rows: &[Row], lent: usize, key: u32) {
    let mut answer = Found::default();
    for (number, row) in rows[..lent].iter().enumerate().rev() {
        if takes(row, key) {
            answer = Found { found: 1, row: number as u32, route: row.route };
        }
    }
    same("find", &(&rows[..lent], key), &answer, &lib_calls::find(&rows[..lent], key));
    let taking = rows[..lent].iter().filter(|row| takes(row, key)).count();
    let behind = rows.get(lent).is_some_and(|row| takes(row, key));
    let unused = rows[..lent].first().is_some_and(is_unused);
    count(FIND, &mut tally.0, &FindCase { lent, taking, behind, unused, answer });
}

/// "A row matches when packet key AND mask equals the row key itself"
fn takes(row: &Row, key: u32) -> bool {
    key & row.mask == row.key
}

/// A row with a key bit outside its mask matches nothing.
fn is_unused(row: &Row) -> bool {
    row.key & !row.mask != 0
}

struct FindCase {
    lent: usize,
    /// How many rows take the key, and whether the one behind them does.
    taking: usize,
    behind: bool,
    /// Whether the first row is unused.
    unused: bool,
    answer: Found,
}

const FIND: Events<FindCase> = &[
    ("in the first of many rows", |case| case.answer.found == 1 && case.answer.row == 0 && case.lent > 1),
    ("in the last of many rows", |case| case.answer.found == 1 && case.answer.row > 0 && is_last(case)),
    ("in a middle row", |case| case.answer.found == 1 && case.answer.row > 0 && !is_last(case)),
    ("with a row after it that takes the key too", |case| case.taking > 1),
    ("behind an unused row", |case| case.unused && case.answer.found == 1),
    ("with a route of 0", |case| case.answer.found == 1 && case.answer.route == 0),
    ("with route bits above 25", |case| case.answer.route >> 26 != 0),
    ("beyond row 1,024", |case| case.answer.row > 1_024),
    ("no row", |case| case.lent == 0),
    ("nowhere", |case| case.lent > 0 && case.answer.found == 0),
    ("nowhere, though just behind what is lent", |case| case.behind && case.answer.found == 0),
];

fn is_last(case: &FindCase) -> bool {
    case.answer.row as usize + 1 == case.lent
}

#[derive(Default)]
pub struct FindTally([u64; FIND.len()]);

impl FindTally {
    pub fn print(&self) -> bool {
        print_all("find, ", FIND, &self.0)
    }
}
