//! Fewer rows as the document has it, step by step, each begun from the top of what is left.

use crate::interface::Row;

/// A row, the number that it first had, and how many rows it was made of.
#[derive(Clone, Copy, Debug, PartialEq, Eq)]
pub struct Numbered {
    pub row: Row,
    pub number: u32,
    pub made_of: u32,
}

#[derive(Clone, Copy, Debug)]
pub enum Step {
    /// Taken out, as it matches no key.
    Unused,
    /// Taken out, as an earlier row matches all its keys, the topmost such being `by`.
    Covered {
        by: Numbered,
        neighbour: bool,
    },
    Joined {
        upper: Numbered,
        lower: Numbered,
    },
}

pub struct Ended {
    pub left: Vec<Row>,
    pub gone: Vec<u32>,
    pub steps: Vec<Step>,
}

pub fn numbered(rows: &[Row]) -> Vec<Numbered> {
    (0..).zip(rows).map(|(number, &row)| Numbered { row, number, made_of: 1 }).collect()
}

/// "Taking out comes before joining, the topmost first, until neither can be done."
pub fn ended(rows: &[Row]) -> Ended {
    let mut left = numbered(rows);
    let mut ended = Ended { left: Vec::new(), gone: Vec::new(), steps: Vec::new() };
    while let Some(step) = take_out(&mut left, &mut ended.gone).or_else(|| join(&mut left, &mut ended.gone)) {
        ended.steps.push(step);
    }
    ended.left = left.iter().map(|one| one.row).collect();
    ended
}

/// "A row that matches no key, or whose keys one earlier row matches all, goes"
fn take_out(left: &mut Vec<Numbered>, gone: &mut Vec<u32>) -> Option<Step> {
    for at in 0..left.len() {
        let row = left[at].row;
        let covering = (0..at).find(|&above| matches_all_of(&left[above].row, &row));
        let step = match covering {
            _ if matches_none(&row) => Step::Unused,
            Some(above) => Step::Covered { by: left[above], neighbour: above + 1 == at },
            None => continue,
        };
        gone.push(left.remove(at).number);
        return Some(step);
    }
    None
}

/// "Two neighbouring rows with equal mask and route, keys differing in a single masked bit, become one without that bit in key
/// and mask"; "the joined row keeps the upper's number".
fn join(left: &mut Vec<Numbered>, gone: &mut Vec<u32>) -> Option<Step> {
    for at in 1..left.len() {
        let (upper, lower) = (left[at - 1], left[at]);
        if let Some(bit) = joining_bit(&upper.row, &lower.row) {
            left.remove(at);
            gone.push(lower.number);
            left[at - 1].row.key &= !bit;
            left[at - 1].row.mask &= !bit;
            left[at - 1].made_of += lower.made_of;
            return Some(Step::Joined { upper, lower });
        }
    }
    None
}

pub fn joining_bit(upper: &Row, lower: &Row) -> Option<u32> {
    if upper.mask != lower.mask || upper.route != lower.route {
        return None;
    }
    (0..32).map(|place| 1 << place).find(|bit| upper.mask & bit != 0 && upper.key ^ lower.key == *bit)
}

pub fn matches(row: &Row, key: u32) -> bool {
    key & row.mask == row.key
}

/// A key that has a bit where its row's mask has none is met by no key under that mask.
pub fn matches_none(row: &Row) -> bool {
    !matches(row, row.key)
}

/// Of two rows that match some keys. Those of `row` are its own key with any bits outside its mask: where the other looks at such
/// a bit, it misses half of them; where it does not, it matches all or none.
pub fn matches_all_of(earlier: &Row, row: &Row) -> bool {
    (0..32).map(|place| 1 << place).all(|bit| earlier.mask & bit == 0 || row.mask & bit != 0)
        && matches(earlier, row.key)
}

pub fn route_of(rows: &[Row], key: u32) -> Option<u32> {
    rows.iter().find(|row| matches(row, key)).map(|row| row.route)
}
