//! How often each thing that a flood can find, and that a packet can do with its codes, was reached.

use super::flood_model::{first_links, Ways, NOWHERE, ONESELF};
use super::layout::MOST_HELD;
use super::model::Mesh;
use crate::tally::{count, print_all, print_line, Events};

/// A flood that was asked for.
pub struct Asked {
    /// The codes of the mesh that the buffer holds, None where it holds none.
    pub right: Option<usize>,
    pub chips: usize,
    /// A word of the buffer was changed; or the buffer is shorter, or longer, than its mesh needs.
    pub damaged: bool,
    pub short: bool,
    pub long: bool,
    /// The codes that were lent, and whether they are as many as the header asks for.
    pub lent: usize,
    pub fits: bool,
    pub answer: u32,
}

const ASKED: Events<Asked> = &[
    ("accepted", |asked| asked.answer == 0),
    ("accepted, buffer longer than needed", |asked| asked.answer == 0 && asked.long),
    ("accepted, a word changed, still a mesh", |asked| asked.answer == 0 && asked.damaged),
    ("refusal 8, a word changed", |asked| asked.answer == 8 && asked.damaged),
    ("refusal 8, buffer too short", |asked| asked.answer == 8 && asked.short),
    ("refusal 8, table of wrong size too", |asked| asked.answer == 8 && !asked.fits),
    ("refusal 11, table too short", |asked| asked.answer == 11 && asked.lent != 0 && Some(asked.lent) < asked.right),
    ("refusal 11, table too long", |asked| asked.answer == 11 && Some(asked.lent) > asked.right),
    ("refusal 11, no table", |asked| asked.answer == 11 && asked.lent == 0),
    ("refusal 11, table of one chip", |asked| asked.answer == 11 && asked.lent == asked.chips),
];

/// A code that was compared, and the ways that it stands for.
pub struct Told {
    code: u8,
    /// The fewest links there, and back.
    far: Option<u32>,
    back: Option<u32>,
    /// Links of the chip that are up, and how many of them begin a shortest way.
    links_up: usize,
    choices: usize,
    /// How many packets the code's link holds.
    held: Option<usize>,
    /// A lower link is down, holds packets, and leads to a chip as near as the code's link does.
    passed_over: bool,
    /// A lower link that is up leads to its own chip, on a mesh one wide or one high.
    has_loop: bool,
}

const TOLD: Events<Told> = &[
    ("code 0", |told| told.code == 0),
    ("code 1", |told| told.code == 1),
    ("code 2", |told| told.code == 2),
    ("code 3", |told| told.code == 3),
    ("code 4", |told| told.code == 4),
    ("code 5", |told| told.code == 5),
    ("code 6, no way", |told| told.code == NOWHERE),
    ("code 6, though a way leads back", |told| told.code == NOWHERE && told.back.is_some()),
    ("code 7", |told| told.code == ONESELF),
    ("code 7, all links of the chip down", |told| told.code == ONESELF && told.links_up == 0),
    ("several links begin a shortest way", |told| told.choices > 1),
    ("all six links begin a shortest way", |told| told.choices == 6),
    ("the way back is of another length", |told| told.code < NOWHERE && told.back != told.far),
    ("one link", |told| told.far == Some(1)),
    ("over 12 links", |told| told.far > Some(12)),
    ("over 24 links", |told| told.far > Some(24)),
    ("by a link that is full", |told| told.held == Some(MOST_HELD as usize)),
    ("not by a lower link, down, that holds packets", |told| told.passed_over),
    ("not by a lower link, to its own chip", |told| told.has_loop),
];

impl Told {
    pub fn of(mesh: &Mesh, ways: &Ways, from: usize, to: usize, code: u8) -> Told {
        let links = &mesh.chips[from].links;
        let over = |link: usize| mesh.neighbour(from as u32, link as u32) as usize;
        let (far, back) = (ways[from][to], ways[to][from]);
        let lower = if code < NOWHERE { 0..usize::from(code) } else { 0..0 };
        let busy = |link: usize| !links[link].up && !links[link].held.is_empty();
        Told {
            code,
            far,
            back,
            links_up: links.iter().filter(|link| link.up).count(),
            choices: if code < NOWHERE { first_links(mesh, ways, from, to).len() } else { 0 },
            held: links.get(usize::from(code)).map(|link| link.held.len()),
            passed_over: lower.clone().any(|link| busy(link) && ways[over(link)][to].map(|rest| rest + 1) == far),
            has_loop: lower.clone().any(|link| links[link].up && over(link) == from),
        }
    }
}

/// A P2P packet that was sent with the codes of a flood.
pub struct Sent {
    pub links: Option<u32>,
    pub rounds_per_phase: u32,
    /// A phase ends while it is on its way.
    pub over_a_phase: bool,
    pub stamped_anew: bool,
}

const SENT: Events<Sent> = &[
    ("packet to oneself, at the monitor at once", |sent| sent.links == Some(0)),
    ("packet over one link", |sent| sent.links == Some(1)),
    ("packet over several links", |sent| sent.links > Some(1)),
    ("packet over more than 12 links", |sent| sent.links > Some(12)),
    ("packet over F links", |sent| sent.links == Some(sent.rounds_per_phase)),
    ("packet over F links, a phase ends meanwhile", |sent| {
        sent.over_a_phase && sent.links == Some(sent.rounds_per_phase)
    }),
    ("packet with another stamp than the phase's", |sent| sent.stamped_anew),
    ("packet to where no way leads, swallowed", |sent| sent.links.is_none()),
];

/// The kinds of link states, by name, each counted apart.
pub const STATES: [&str; 6] = ["all up", "a third down", "most down", "up one way only", "up in rings", "all down"];

#[derive(Default)]
pub struct FloodTally {
    asked: [u64; ASKED.len()],
    told: [u64; TOLD.len()],
    sent: [u64; SENT.len()],
    pub states: [u64; STATES.len()],
    pub sizes: u64,
}

impl FloodTally {
    pub fn ask(&mut self, asked: &Asked) {
        count(ASKED, &mut self.asked, asked);
    }

    pub fn tell(&mut self, told: &Told) {
        count(TOLD, &mut self.told, told);
    }

    pub fn send(&mut self, sent: &Sent) {
        count(SENT, &mut self.sent, sent);
    }

    /// Prints a line for each, and answers whether all were reached.
    pub fn print(&self) -> bool {
        let states = STATES.iter().zip(self.states);
        let each = states.fold(true, |all, (name, count)| all & print_line(&format!("flood, links {name}"), count));
        let sizes = print_line("flood, sizes of a mesh", self.sizes) & (self.sizes >= 144);
        let asked = print_all("flood, ", ASKED, &self.asked);
        each & sizes & asked & print_all("flood, ", TOLD, &self.told) & print_all("flood, ", SENT, &self.sent)
    }
}
