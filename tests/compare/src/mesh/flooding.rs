//! P2P codes by flooding: meshes of every size and links in many states, the library's codes beside those of the model, what is
//! refused, and packets sent with the codes.

use super::damage::damage;
use super::flood_model::{codes, refusal, ways, Ways};
use super::flood_tally::{Asked, FloodTally, Sent, Told, STATES};
use super::layout::{link_at, mesh_in, words_for, HEADER, HELD, MOST_HELD, PLACE, PLACES_AT};
use super::model::Mesh;
use crate::compare::same;
use crate::interface::LentTables;
use crate::mesh_calls;
use crate::model::{kind, LINKS, MOST_SIDE};
use crate::random::Random;

/// Packets that are sent with the codes of a flood.
const PACKETS: u32 = 6;
/// Counters.
const SENT: u32 = 5;
const DELIVERED: u32 = 6;
const DROPPED: u32 = 7;
const SWALLOWED: u32 = 8;

/// Every size with every kind of link state.
pub fn systematic(tally: &mut FloodTally, random: &mut Random) {
    for width in 1..=MOST_SIDE {
        for height in 1..=MOST_SIDE {
            (0..STATES.len()).for_each(|state| flood(tally, random, width, height, state));
            tally.sizes += 1;
        }
    }
}

pub fn random(tally: &mut FloodTally, random: &mut Random, times: u64) {
    for _ in 0..times {
        let (width, height) = (1 + random.below(MOST_SIDE), 1 + random.below(MOST_SIDE));
        let state = random.below(STATES.len() as u32) as usize;
        flood(tally, random, width, height, state);
    }
}

fn flood(tally: &mut FloodTally, random: &mut Random, width: u32, height: u32, state: usize) {
    let rounds_per_phase = 1 + random.below(200);
    let monitor = random.below(20);
    let needed = words_for(width, height);
    let mut words = vec![0; needed + random.pick(&[0, 0, 1, 40]) as usize];
    words.iter_mut().for_each(|word| *word = random.word());
    assert_eq!(mesh_calls::open(&mut words, width, height, rounds_per_phase, monitor), 0);
    set_links(random, width, height, state, &mut words);
    tally.states[state] += 1;

    let mesh = mesh_in(&words).expect("an opened buffer holds a mesh");
    let far = ways(&mesh);
    let own = asked(tally, random, &words, far.len() * far.len(), false);
    tell(tally, &mesh, &far, &own);
    send_some(tally, random, &mesh, &words, &far, &own);

    hold_packets(random, &mut words);
    let busy = mesh_in(&words).expect("a buffer with packets holds a mesh");
    assert_eq!(asked(tally, random, &words, own.len(), false), own, "what links hold counts for nothing");
    tell(tally, &busy, &far, &own);
    ask_wrongly(tally, random, &busy, &mut words);
}

/// Asks for a flood of a buffer in a room that holds anything, compares it with the model's, and answers what is then in the
/// room.
fn asked(tally: &mut FloodTally, random: &mut Random, words: &[u32], length: usize, damaged: bool) -> Vec<u8> {
    let before: Vec<u8> = (0..length).map(|_| random.word() as u8).collect();
    let mut room = before.clone();
    let answer = mesh_calls::flood(words, &mut room);
    let mesh = mesh_in(words);
    let expected = refusal(mesh.as_ref(), length);
    let input = (&words[..words.len().min(HEADER)], length);
    same("flood", &input, &expected, &answer);
    let left = match &mesh {
        Some(mesh) if expected == 0 => codes(mesh, &ways(mesh)),
        _ => before,
    };
    same("flood, codes", &input, &left, &room);
    let needed = mesh.as_ref().map_or(0, |mesh| words_for(mesh.width, mesh.height));
    tally.ask(&Asked {
        right: mesh.as_ref().map(|mesh| mesh.chips.len() * mesh.chips.len()),
        chips: mesh.as_ref().map_or(0, |mesh| mesh.chips.len()),
        damaged,
        short: mesh.is_none() && !damaged,
        long: words.len() > needed,
        lent: length,
        fits: fits(words, length),
        answer,
    });
    room
}

/// Whether the table has the size that a header of this width and height would ask for.
fn fits(words: &[u32], length: usize) -> bool {
    let chips = words.first().zip(words.get(1)).map(|(&width, &height)| u64::from(width) * u64::from(height));
    chips.and_then(|chips| chips.checked_mul(chips)) == Some(length as u64)
}

fn tell(tally: &mut FloodTally, mesh: &Mesh, ways: &Ways, codes: &[u8]) {
    let chips = ways.len();
    for (place, &code) in codes.iter().enumerate() {
        tally.tell(&Told::of(mesh, ways, place / chips, place % chips, code));
    }
}

/// Tables of wrong sizes, buffers that are too short, and one word of a buffer changed, alone and together.
fn ask_wrongly(tally: &mut FloodTally, random: &mut Random, mesh: &Mesh, words: &mut Vec<u32>) {
    let chips = mesh.chips.len();
    let right = chips * chips;
    let wrong = [0, 1, chips, right - 1, right + 1, right + chips, 2 * right, (chips + 1) * (chips + 1)];
    for &length in &wrong {
        asked(tally, random, words, length, false);
    }
    let needed = words_for(mesh.width, mesh.height);
    for short in [0, 1, 5, 6, needed - 1, random.below(needed as u32) as usize] {
        let length = if random.one_in(2) { right } else { wrong[random.below(wrong.len() as u32) as usize] };
        asked(tally, random, &words[..short], length, false);
    }
    for _ in 0..8 {
        let (at, old) = damage(random, mesh, words);
        let length = if random.one_in(4) { right + 1 } else { right };
        asked(tally, random, words, length, true);
        words[at] = old;
    }
}

/// Takes links down, all by the library's own call.
fn set_links(random: &mut Random, width: u32, height: u32, state: usize, words: &mut [u32]) {
    let mesh = Mesh::open(width, height, 1, 0);
    let ring = random.below(LINKS);
    for (chip, link) in (0..width * height).flat_map(|chip| (0..LINKS).map(move |link| (chip, link))) {
        let back = (mesh.neighbour(chip, link), (link + 3) % LINKS);
        let down = match STATES[state] {
            "all up" => None,
            "a third down" => random.one_in(3).then_some((chip, link)),
            "most down" => (random.below(8) < 5).then_some((chip, link)),
            // of each link and the link back, one
            "up one way only" => (link < 3).then(|| if random.one_in(2) { (chip, link) } else { back }),
            "up in rings" => (link != ring && !random.one_in(width * height)).then_some((chip, link)),
            _ => Some((chip, link)),
        };
        if let Some((chip, link)) = down {
            assert_eq!(mesh_calls::set_link(words, chip, link, false), 0);
        }
    }
}

/// Puts packets on some links, up or down: any number that a link can hold.
fn hold_packets(random: &mut Random, words: &mut [u32]) {
    let chips = words[0] as usize * words[1] as usize;
    for chip in 0..chips {
        for link in 0..LINKS as usize {
            let held = random.pick(&[0, 0, 1, 3, 6, 7, MOST_HELD]);
            let at = link_at(chip, link);
            words[at + HELD] = held;
            // multicast, key 1: an odd number of ones
            for place in 0..held as usize {
                words[at + PLACES_AT + PLACE * place..][..PLACE].copy_from_slice(&[0, 1, 0]);
            }
        }
    }
}

/// P2P packets from anywhere to anywhere, one at a time on a mesh with nothing else in flight.
fn send_some(tally: &mut FloodTally, random: &mut Random, mesh: &Mesh, words: &[u32], ways: &Ways, codes: &[u8]) {
    let chips = ways.len() as u32;
    for number in 0..PACKETS {
        let from = random.below(chips);
        let to = if number == 0 { from } else { random.below(chips) };
        let links = ways[from as usize][to as usize];
        // "if that number is at most F"
        let least = links.map_or(1, |links| links.max(1));
        let rounds_per_phase = if random.one_in(2) { least } else { least + random.below(40) };
        let mut words = words.to_vec();
        words[2] = rounds_per_phase;
        let mut way = OneWay { width: mesh.width, monitor: mesh.monitor, from, to, links, words };
        let rounds_before = random.below(rounds_per_phase.min(20) * 4);
        let stamped_anew = way.send(random, rounds_before, codes);
        // a phase ends before the last of its passes
        let over_a_phase = rounds_before % rounds_per_phase + links.unwrap_or(0) > rounds_per_phase;
        tally.send(&Sent { links, rounds_per_phase, over_a_phase, stamped_anew });
    }
}

/// A packet's way over a mesh with nothing else in flight: the fewest links, or None.
struct OneWay {
    width: u32,
    monitor: u32,
    from: u32,
    to: u32,
    links: Option<u32>,
    words: Vec<u32>,
}

impl OneWay {
    /// Sends a packet after some rounds. It crosses exactly the fewest links, one a round, and reaches the monitor of its
    /// destination alone. Answers whether it came with another stamp than the phase's.
    fn send(&mut self, random: &mut Random, rounds_before: u32, codes: &[u8]) -> bool {
        let chips = codes.len().isqrt();
        let tables = LentTables { rows: &[], starts: &vec![0; chips + 1], codes, fixed: &vec![0; chips], room: 0 };
        let log = &mut [0; 6];
        (0..rounds_before).for_each(|_| assert_eq!(self.round(log, &tables), 0, "{}: before it", self.name()));
        let packet = p2p(random, self.id(self.from), self.id(self.to));
        let stamped_anew = u32::from(packet[0]) >> 2 & 3 != mesh_calls::look(&self.words).phase;
        let passed = mesh_calls::inject(&mut self.words, log, self.from, &packet, &tables);
        assert_eq!(passed.refusal, 0, "{}: a flooded table is accepted by injection", self.name());
        let mut records = passed.added;
        for _ in 0..self.links.unwrap_or(0) {
            assert_eq!((records, self.in_flight()), (0, 1), "{}: it is on its way", self.name());
            records += self.round(log, &tables);
        }
        self.check_arrival(records, log);
        stamped_anew
    }

    fn round(&mut self, log: &mut [u32; 6], tables: &LentTables) -> u32 {
        let passed = mesh_calls::round(&mut self.words, log, tables);
        assert_eq!(passed.refusal, 0, "{}: a flooded table is accepted by a round", self.name());
        passed.added
    }

    fn check_arrival(&self, records: u32, log: &[u32; 6]) {
        let name = self.name();
        let arrived = u32::from(self.links.is_some());
        assert_eq!(self.in_flight(), 0, "{name}: it has ended");
        assert_eq!((records, self.total(DELIVERED)), (arrived, arrived), "{name}: it has arrived where it can");
        assert_eq!(self.total(SWALLOWED), 1 - arrived, "{name}: else it is swallowed");
        assert_eq!(self.total(SENT), self.links.unwrap_or(0), "{name}: links crossed");
        assert_eq!(self.total(DROPPED), 0, "{name}: nothing is dropped");
        if arrived == 1 {
            assert_eq!(
                (log[0], log[1], log[2]),
                (self.to, 1 << self.monitor, 0),
                "{name}: at the monitor, without error"
            );
            assert_eq!(log[4], self.id(self.from) << 16 | self.id(self.to), "{name}");
        }
    }

    /// A counter summed over all chips.
    fn total(&self, counter: u32) -> u32 {
        let chips = 0..self.words[0] * self.words[1];
        chips.map(|chip| mesh_calls::read_counter(&self.words, chip, counter).count).sum()
    }

    fn in_flight(&self) -> u32 {
        mesh_calls::look(&self.words).in_flight
    }

    /// "An ID is x in its high byte, y in its low byte"
    fn id(&self, chip: u32) -> u32 {
        chip % self.width << 8 | chip / self.width
    }

    fn name(&self) -> String {
        format!("a packet from {} to {}, header {:?}", self.from, self.to, &self.words[..HEADER])
    }
}

/// A P2P packet without error, with any sequence and stamp, and a payload or none.
fn p2p(random: &mut Random, from: u32, to: u32) -> Vec<u8> {
    let word = from << 16 | to;
    let nine = random.one_in(2);
    let payload = if nine { random.word() } else { 0 };
    let even = kind::P2P << 6 | random.below(16) << 2 | u32::from(nine) << 1;
    let right = 1 ^ (even.count_ones() + word.count_ones() + payload.count_ones()) & 1;
    let mut bytes = vec![(even | right) as u8];
    bytes.extend_from_slice(&word.to_be_bytes());
    if nine {
        bytes.extend_from_slice(&payload.to_be_bytes());
    }
    bytes
}
