//! How often each thing that can be wrong with lent tables was told, and that each place where it can be was.

use super::bad_tables::{Faults, Refused};
use super::model::Mesh;
use crate::interface::LentTables;
use crate::model::{is_route, refusal, MOST_ROWS};
use crate::tally::{count, print_all, print_line, Events};
use std::collections::BTreeSet;

/// What a call was lent, and how it was refused.
struct PlaceCase {
    refused: Refused,
    faults: Faults,
    chips: usize,
    starts: Vec<u32>,
    /// Whole rows, words past them, and rows with a bad route.
    rows: usize,
    words_past: usize,
    bad_rows: usize,
    /// Fixed routes, and bad ones.
    fixed: usize,
    bad_fixed: usize,
}

impl PlaceCase {
    fn new(chips: usize, tables: &LentTables, refused: Refused) -> PlaceCase {
        let rows = tables.rows.chunks_exact(3);
        PlaceCase {
            refused,
            faults: Faults::of(tables, chips),
            chips,
            starts: tables.starts.to_vec(),
            rows: rows.len(),
            words_past: rows.remainder().len(),
            bad_rows: rows.filter(|row| !is_route(row[2])).count(),
            fixed: tables.fixed.len(),
            bad_fixed: tables.fixed.iter().filter(|&&route| !is_route(route)).count(),
        }
    }

    fn is(&self, number: u32) -> bool {
        self.refused.number == number
    }

    fn place(&self) -> usize {
        self.refused.place as usize
    }

    /// Refused for its starts, of which there are as many as there have to be, and the first is 0.
    fn at_a_start(&self) -> bool {
        self.is(refusal::STARTS) && self.starts.len() == self.chips + 1 && self.starts[0] == 0
    }

    fn falls(&self) -> usize {
        self.starts.windows(2).filter(|pair| pair[1] < pair[0]).count()
    }

    fn last_start(&self) -> usize {
        self.starts.last().map_or(0, |&last| last as usize)
    }

    /// The rows of a chip, where starts do not fall.
    fn rows_of(&self, chip: usize) -> usize {
        (self.starts[chip + 1] - self.starts[chip]) as usize
    }

    fn crowded_chips(&self) -> usize {
        (0..self.chips).filter(|&chip| self.rows_of(chip) > MOST_ROWS).count()
    }
}

const STARTS: Events<PlaceCase> = &[
    ("15, no starts", |case| case.is(refusal::STARTS) && case.starts.is_empty()),
    ("15, as many starts as chips", |case| case.is(refusal::STARTS) && case.starts.len() == case.chips),
    ("15, too many starts", |case| case.is(refusal::STARTS) && case.starts.len() > case.chips + 1),
    ("15, wrong number of starts, and a fall", |case| {
        case.is(refusal::STARTS) && case.starts.len() != case.chips + 1 && case.falls() > 0
    }),
    ("15, the first not 0", |case| {
        case.is(refusal::STARTS) && case.starts.len() == case.chips + 1 && case.starts[0] != 0
    }),
    ("15, a fall before the last", |case| case.at_a_start() && case.place() < case.chips),
    ("15, a fall at the last", |case| case.at_a_start() && case.place() == case.chips && case.falls() == 1),
    ("15, the first fall of some", |case| case.at_a_start() && case.falls() > 1),
    ("15, a fall, and the last wrong", |case| {
        case.at_a_start() && case.place() < case.chips && case.last_start() != case.rows
    }),
    ("15, the last above the rows", |case| case.at_a_start() && case.falls() == 0 && case.last_start() > case.rows),
    ("15, the last below the rows", |case| case.at_a_start() && case.falls() == 0 && case.last_start() < case.rows),
    ("15, the last counts words past the rows", |case| {
        case.at_a_start() && case.falls() == 0 && case.words_past > 0 && case.last_start() == case.rows + 1
    }),
    ("15 before 16", |case| case.is(refusal::STARTS) && case.faults.crowd.is_some()),
    ("15 at the last before 17 at row 0", |case| {
        case.is(refusal::STARTS) && case.place() == case.chips && case.faults.row == Some(0)
    }),
    ("15 before 18", |case| case.is(refusal::STARTS) && case.faults.fixed.is_some()),
    ("15 before 11", |case| case.is(refusal::STARTS) && case.faults.codes),
];

const ROWS: Events<PlaceCase> = &[
    ("16, 1,025 rows", |case| case.is(refusal::MANY_ROWS) && case.rows_of(case.place()) == MOST_ROWS + 1),
    ("16, more rows", |case| case.is(refusal::MANY_ROWS) && case.rows_of(case.place()) > MOST_ROWS + 1),
    ("16, the first chip of some", |case| case.is(refusal::MANY_ROWS) && case.crowded_chips() > 1),
    ("16, with words past the rows", |case| case.is(refusal::MANY_ROWS) && case.words_past > 0),
    ("16 at a later chip before 17 at row 0", |case| {
        case.is(refusal::MANY_ROWS) && case.place() > 0 && case.faults.row == Some(0)
    }),
    ("16 before 18", |case| case.is(refusal::MANY_ROWS) && case.faults.fixed.is_some()),
    ("16 before 11", |case| case.is(refusal::MANY_ROWS) && case.faults.codes),
    ("17, a row of a later chip", |case| {
        case.is(refusal::ROUTE) && case.place() < case.rows && case.refused.place >= case.starts[1]
    }),
    ("17, the first row of some", |case| case.is(refusal::ROUTE) && case.bad_rows > 1),
    ("17, the last row", |case| case.is(refusal::ROUTE) && case.place() + 1 == case.rows),
    ("17, one word past the rows", |case| case.is(refusal::ROUTE) && case.place() == case.rows && case.words_past == 1),
    ("17, two words past the rows", |case| {
        case.is(refusal::ROUTE) && case.place() == case.rows && case.words_past == 2
    }),
    ("17, words and no row", |case| case.is(refusal::ROUTE) && case.rows == 0),
    ("17, a row, and words past the rows", |case| {
        case.is(refusal::ROUTE) && case.place() < case.rows && case.words_past > 0
    }),
    ("17, beside 1,024 rows of a chip", |case| {
        case.is(refusal::ROUTE) && (0..case.chips).any(|chip| case.rows_of(chip) == MOST_ROWS)
    }),
    ("17 at a later row before 18 at chip 0", |case| {
        case.is(refusal::ROUTE) && case.place() > 0 && case.faults.fixed == Some(0)
    }),
    ("17 before 11", |case| case.is(refusal::ROUTE) && case.faults.codes),
];

const FIXED: Events<PlaceCase> = &[
    ("18, a bad route", |case| case.is(refusal::FIXED_ROUTE) && case.fixed == case.chips),
    ("18, the first route of some", |case| {
        case.is(refusal::FIXED_ROUTE) && case.fixed == case.chips && case.bad_fixed > 1
    }),
    ("18, no routes", |case| case.is(refusal::FIXED_ROUTE) && case.fixed == 0),
    ("18, too few routes", |case| case.is(refusal::FIXED_ROUTE) && (1..case.chips).contains(&case.fixed)),
    ("18, too many routes", |case| case.is(refusal::FIXED_ROUTE) && case.fixed > case.chips),
    ("18, wrong number of routes, and a bad one", |case| {
        case.is(refusal::FIXED_ROUTE) && case.fixed != case.chips && case.bad_fixed > 0
    }),
    ("18 at a later chip before 11", |case| case.is(refusal::FIXED_ROUTE) && case.place() > 0 && case.faults.codes),
    ("11 alone", |case| case.is(refusal::CODES)),
];

#[derive(Default)]
pub struct PlaceTally {
    starts: [u64; STARTS.len()],
    rows: [u64; ROWS.len()],
    fixed: [u64; FIXED.len()],
    /// Number, chips of the mesh, place.
    told: BTreeSet<(u32, usize, u32)>,
}

impl PlaceTally {
    /// A call on a mesh was refused, if it was, with these tables.
    pub fn tables(&mut self, mesh: Option<&Mesh>, tables: &LentTables, refused: Refused) {
        let Some(mesh) = mesh.filter(|_| refused.number >= refusal::CODES) else { return };
        let chips = mesh.chips.len();
        let case = PlaceCase::new(chips, tables, refused);
        count(STARTS, &mut self.starts, &case);
        count(ROWS, &mut self.rows, &case);
        count(FIXED, &mut self.fixed, &case);
        self.told.insert((refused.number, chips, refused.place));
    }

    fn print(&self, call: &str, places: &BTreeSet<(u32, usize, u32)>) -> bool {
        let call = format!("{call}, ");
        let mut all = print_all(&call, STARTS, &self.starts) & print_all(&call, ROWS, &self.rows);
        all &= print_all(&call, FIXED, &self.fixed);
        for number in [refusal::STARTS, refusal::MANY_ROWS, refusal::ROUTE, refusal::FIXED_ROUTE] {
            let mut of_number = places.iter().filter(|place| place.0 == number);
            let each_told = of_number.clone().all(|place| self.told.contains(place));
            let name = format!("{call}{number}, every place on some meshes");
            all &= print_line(&name, if each_told { of_number.by_ref().count() as u64 } else { 0 });
        }
        all
    }
}

/// Of the calls that are lent tables.
#[derive(Default)]
pub struct PlaceTallies {
    pub inject: PlaceTally,
    pub round: PlaceTally,
    pub replay: PlaceTally,
    /// Each place that each call has to tell.
    pub places: BTreeSet<(u32, usize, u32)>,
    /// Which damages stood in one call together.
    pub together: BTreeSet<u32>,
}

impl PlaceTallies {
    /// Prints a line for each, and answers whether all were reached.
    pub fn print(&self) -> bool {
        let calls = [("inject", &self.inject), ("round", &self.round), ("replay", &self.replay)];
        let told = calls.iter().fold(true, |all, (name, tally)| all & tally.print(name, &self.places));
        told & print_line("sets of damages in one call", self.together.len() as u64)
    }
}
