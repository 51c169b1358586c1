//! What the calls reached.

use super::process::{matches_all_of, matches_none, Ended, Step};
use super::{FEWER_ROOM, MANY_ROWS, MOST_ROWS, ROUTE, ROUTE_BITS};
use crate::interface::{Fewer, Row};
use crate::tally::{count, print_all, Events};

pub struct Seen {
    pub rows: Vec<Row>,
    pub words: usize,
    pub left_room: usize,
    pub gone_room: usize,
    pub answer: Fewer,
    pub ended: Ended,
}

impl Seen {
    fn accepted(&self) -> bool {
        self.answer.refusal == 0
    }

    fn refused(&self, refusal: u32) -> bool {
        self.answer.refusal == refusal
    }

    fn whole(&self) -> usize {
        self.words / 3
    }

    fn bad_routes(&self) -> usize {
        self.rows.iter().filter(|row| row.route > ROUTE_BITS).count()
    }

    fn any_step(&self, is: fn(&Step) -> bool) -> bool {
        self.ended.steps.iter().any(is)
    }

    /// A step right after one of another kind.
    fn follows(&self, before: fn(&Step) -> bool, after: fn(&Step) -> bool) -> bool {
        self.ended.steps.windows(2).any(|two| before(&two[0]) && after(&two[1]))
    }

    /// Two neighbours of what is left for which this holds.
    fn any_two_left(&self, is: fn(&Row, &Row) -> bool) -> bool {
        self.ended.left.windows(2).any(|two| is(&two[0], &two[1]))
    }
}

const FEWER: Events<Seen> = &[
    ("no row", |seen| seen.accepted() && seen.whole() == 0),
    ("nothing went", |seen| seen.accepted() && seen.whole() > 2 && seen.answer.gone == 0),
    ("nothing is left of many", |seen| seen.accepted() && seen.whole() > 2 && seen.answer.rows == 0),
    ("one row is left of many", |seen| seen.accepted() && seen.whole() > 7 && seen.answer.rows == 1),
    ("an unused row taken out", |seen| seen.any_step(|step| matches!(step, Step::Unused))),
    ("a row taken out that its neighbour covers", |seen| {
        seen.any_step(|step| matches!(step, Step::Covered { neighbour: true, .. }))
    }),
    ("a row taken out that one further up covers", |seen| {
        seen.any_step(|step| matches!(step, Step::Covered { neighbour: false, .. }))
    }),
    ("a row taken out that a joined one covers", |seen| {
        seen.any_step(|step| matches!(step, Step::Covered { by, .. } if by.made_of > 1))
    }),
    ("two rows joined", |seen| seen.any_step(is_joined)),
    ("joined across a row that was taken out", |seen| {
        seen.any_step(
            |step| matches!(step, Step::Joined { upper, lower } if upper.number + upper.made_of < lower.number),
        )
    }),
    ("a joined row joined again, as the upper", |seen| {
        seen.any_step(|step| matches!(step, Step::Joined { upper, .. } if upper.made_of > 1))
    }),
    ("a joined row joined again, as the lower", |seen| {
        seen.any_step(|step| matches!(step, Step::Joined { lower, .. } if lower.made_of > 1))
    }),
    ("eight rows made one", |seen| {
        seen.any_step(|step| matches!(step, Step::Joined { upper, lower } if upper.made_of + lower.made_of >= 8))
    }),
    ("the upper's bit set", |seen| {
        seen.any_step(|step| matches!(step, Step::Joined { upper, lower } if upper.row.key > lower.row.key))
    }),
    ("taken out after a joining", |seen| seen.follows(is_joined, |step| !is_joined(step))),
    ("joined after a taking out", |seen| seen.follows(|step| !is_joined(step), is_joined)),
    ("joined after a taking out after a joining", |seen| {
        seen.ended.steps.windows(3).any(|three| is_joined(&three[0]) && !is_joined(&three[1]) && is_joined(&three[2]))
    }),
    ("the numbers out of order", |seen| seen.ended.gone.windows(2).any(|two| two[0] > two[1])),
    ("left: a pair but for its routes", |seen| {
        seen.any_two_left(|a, b| a.mask == b.mask && a.route != b.route && (a.key ^ b.key).is_power_of_two())
    }),
    ("left: a pair but for its masks", |seen| {
        seen.any_two_left(|a, b| a.mask != b.mask && a.route == b.route && (a.key ^ b.key).is_power_of_two())
    }),
    ("left: a pair but for a second bit", |seen| {
        seen.any_two_left(|a, b| a.mask == b.mask && a.route == b.route && (a.key ^ b.key).count_ones() == 2)
    }),
    ("left: a row that a later one covers", |seen| seen.any_two_left(|a, b| matches_all_of(b, a))),
    ("an unused row that would be one of a pair", |seen| {
        seen.accepted()
            && seen.rows.windows(2).any(|two| {
                matches_none(&two[0])
                    && two[0].mask == two[1].mask
                    && two[0].route == two[1].route
                    && (two[0].key ^ two[1].key).is_power_of_two()
            })
    }),
    ("a row that takes every key", |seen| seen.accepted() && seen.rows.iter().any(|row| row.key == 0 && row.mask == 0)),
    ("more than 1,024 rows", |seen| seen.accepted() && seen.whole() > 1_024),
    ("16,384 rows, most left", |seen| seen.accepted() && seen.whole() == MOST_ROWS && seen.answer.rows > 8_192),
    ("16,384 rows, most gone", |seen| seen.accepted() && seen.whole() == MOST_ROWS && seen.answer.gone > 8_192),
    ("16,384 rows made one", |seen| seen.accepted() && seen.whole() == MOST_ROWS && seen.answer.rows == 1),
    ("room for just the rows and numbers", |seen| {
        seen.accepted() && seen.left_room == seen.words && seen.gone_room == seen.whole() && seen.words > 0
    }),
    ("longer room for both", |seen| seen.accepted() && seen.left_room > seen.words && seen.gone_room > seen.whole()),
    ("refusal 16, many rows", |seen| seen.refused(MANY_ROWS)),
    ("refusal 16, one row too many", |seen| seen.refused(MANY_ROWS) && seen.whole() == MOST_ROWS + 1),
    ("refusal 16 before 17", |seen| seen.refused(MANY_ROWS) && seen.bad_routes() > 0),
    ("refusal 16 before 28", |seen| seen.refused(MANY_ROWS) && is_short(seen)),
    ("refusal 17 at the first row", |seen| seen.refused(ROUTE) && seen.whole() > 1 && seen.answer.place == 0),
    ("refusal 17 at a middle row", |seen| {
        seen.refused(ROUTE) && seen.answer.place > 0 && (seen.answer.place as usize) + 1 < seen.whole()
    }),
    ("refusal 17 at the last row", |seen| {
        seen.refused(ROUTE) && seen.whole() > 1 && seen.answer.place as usize + 1 == seen.whole()
    }),
    ("refusal 17, two bad routes", |seen| seen.refused(ROUTE) && seen.bad_routes() > 1),
    ("refusal 17 at an unused row", |seen| {
        seen.refused(ROUTE) && seen.rows.get(seen.answer.place as usize).is_some_and(matches_none)
    }),
    ("refusal 17, one word past the rows", |seen| is_cut(seen, 1)),
    ("refusal 17, two words past the rows", |seen| is_cut(seen, 2)),
    ("refusal 17, words past 16,384 rows", |seen| seen.refused(ROUTE) && seen.answer.place as usize == MOST_ROWS),
    ("refusal 17, a route before words past the rows", |seen| {
        seen.refused(ROUTE) && seen.bad_routes() > 0 && seen.words % 3 != 0
    }),
    ("refusal 17 before 28", |seen| seen.refused(ROUTE) && is_short(seen)),
    ("refusal 28 for the rows", |seen| seen.refused(FEWER_ROOM) && seen.gone_room >= seen.whole()),
    ("refusal 28 for the numbers", |seen| seen.refused(FEWER_ROOM) && seen.left_room >= seen.words),
    ("refusal 28 for both", |seen| {
        seen.refused(FEWER_ROOM) && seen.left_room < seen.words && seen.gone_room < seen.whole()
    }),
];

fn is_joined(step: &Step) -> bool {
    matches!(step, Step::Joined { .. })
}

fn is_short(seen: &Seen) -> bool {
    seen.left_room < seen.words || seen.gone_room < seen.whole()
}

fn is_cut(seen: &Seen, words: usize) -> bool {
    seen.refused(ROUTE) && seen.words % 3 == words && seen.answer.place as usize == seen.whole()
}

pub struct FewerTally([u64; FEWER.len()]);

impl Default for FewerTally {
    fn default() -> FewerTally {
        FewerTally([0; FEWER.len()])
    }
}

impl FewerTally {
    pub fn count(&mut self, seen: &Seen) {
        count(FEWER, &mut self.0, seen);
    }

    pub fn print(&self) -> bool {
        print_all("fewer, ", FEWER, &self.0)
    }
}
