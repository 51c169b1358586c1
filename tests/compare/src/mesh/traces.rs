//! One run kept as a trace and replayed on a second mesh opened alike: buffer, log and answer have to be those of the
//! direct calls and of the model. Then the same trace damaged, with less log, with bad tables or on a bad buffer.

use super::bad_records;
use super::damage::damage;
use super::kept::Kept;
use super::layout::{link_at, mesh_in, HELD, LINK, PLACE, PLACES_AT};
use super::pair::Pair;
use super::sequence::{new_pair, random_size, CANARY};
use super::tables::{Tables, TABLE_DAMAGES};
use super::tally::MeshTally;
use crate::interface::{CountRead, Flight, LinkLook, MeshLook, RegistersRead, Replayed};
use crate::mesh_calls;
use crate::random::Random;

const DAMAGED_TRACES: usize = 8;
/// Chips of which all is looked at, where there are more.
const CHIPS_SEEN: u32 = 9;

/// Runs the trace of this seed and number.
pub fn run(tally: &mut MeshTally, seed: u64, number: u64, prints: bool) {
    let mut random = Random::new(!(seed << 32 ^ number));
    let (width, height) = random_size(&mut random);
    let name = format!("trace {number} of seed {seed}");
    let mut kept = kept_run(tally, &mut random, &name, prints, width, height);
    fill_unused(&mut random, &mut kept);
    let mut twin = Pair::new(name, prints, kept.start.clone(), kept.pair.lent, spare_log(&mut random, kept.room));
    as_direct(tally, &mut random, &kept, &mut twin);
    one_word_short(tally, &kept, &mut twin);
    in_parts(tally, &mut random, &kept, &mut twin);
    twin.lender.lends_short = true;
    for _ in 0..DAMAGED_TRACES {
        damaged(tally, &mut random, &kept, &mut twin);
    }
}

/// Opens a mesh, makes some calls that nobody keeps, and then some that are kept.
fn kept_run(tally: &mut MeshTally, random: &mut Random, name: &str, prints: bool, width: u32, height: u32) -> Kept {
    let mut pair = new_pair(random, name.to_string(), prints, width, height);
    let few = 1 + random.below(4);
    pair.open(tally, width, height, random.pick(&[1, 2, few, 65_535]), random.below(20));
    let keys: Vec<u32> = (0..1 + random.below(4)).map(|_| random.word()).collect();
    let tables = Tables::random(random, (width * height) as usize, &keys);
    let mut kept = Kept::new(pair, tables, keys);
    for _ in 0..random.pick(&[0, 4, 16]) {
        call(tally, random, &mut kept);
    }
    let mut kept = kept.forget();
    for _ in 0..random.pick(&[1, 4, 16, 32, 32]) {
        call(tally, random, &mut kept);
    }
    kept
}

fn call(tally: &mut MeshTally, random: &mut Random, kept: &mut Kept) {
    match random.below(16) {
        0..=8 => kept.inject(tally, random),
        9..=11 => kept.round(tally, random),
        12 | 13 => kept.change_link(tally, random),
        _ => kept.read_registers(tally, random),
    }
}

/// The trace is replayed from the same mesh in other words: those that are no part of it, what is behind it too, hold
/// anything.
fn fill_unused(random: &mut Random, kept: &mut Kept) {
    for (chip, link) in (0..kept.chips() as usize).flat_map(|chip| (0..6).map(move |link| (chip, link))) {
        let words = &mut kept.start[link_at(chip, link)..][..LINK];
        let used = PLACES_AT + PLACE * words[HELD] as usize;
        words[used..].fill_with(|| random.word());
    }
    let needed = kept.words_needed();
    kept.start[needed..].fill_with(|| random.word());
}

/// Words for so many, full of anything, with a canary behind them.
pub fn spare_log(random: &mut Random, room: usize) -> Vec<u32> {
    (0..room + 2 * CANARY).map(|_| random.word()).collect()
}

impl Pair {
    /// The buffer holds these words again.
    pub fn go_back_to(&mut self, words: &[u32]) {
        self.words.copy_from_slice(words);
        self.read_anew();
    }
}

/// The whole trace, with just the log that it needs or some more.
fn as_direct(tally: &mut MeshTally, random: &mut Random, kept: &Kept, twin: &mut Pair) {
    let room = kept.room + random.pick(&[0, 0, 1, 6, 13]) as usize;
    let played = twin.replay(tally, room, &kept.trace, &kept.tables.lent());
    let expected = Replayed { refusal: 0, at: kept.trace.len(), added: kept.log.len() / 6, place: 0 };
    twin.same("answer beside the direct calls'", &expected, &played.answer);
    twin.same_words("log beside the direct calls'", &kept.log, &twin.log[..kept.log.len()]);
    same_looks(random, kept, twin);
    tally.replays.as_direct += 1;
}

/// 10 at a record of the trace, unless it needs no log at all.
fn one_word_short(tally: &mut MeshTally, kept: &Kept, twin: &mut Pair) {
    if kept.room > 0 {
        twin.go_back_to(&kept.start);
        let played = twin.replay(tally, kept.room - 1, &kept.trace, &kept.tables.lent());
        twin.same("refusal with the log one word short", &10, &played.answer.refusal);
        tally.replays.one_word_short += 1;
    }
}

/// Two replays or three, each of which goes on where the one before ended.
fn in_parts(tally: &mut MeshTally, random: &mut Random, kept: &Kept, twin: &mut Pair) {
    twin.go_back_to(&kept.start);
    let mut ends: Vec<usize> = (0..random.pick(&[1, 2])).map(|_| any_record(random, kept)).collect();
    ends.push(kept.trace.len());
    ends.sort();
    let (mut at, mut log) = (0, vec![]);
    for end in ends {
        let played = twin.replay(tally, kept.room, &kept.trace[at..end], &kept.tables.lent());
        log.extend(played.done.records.concat());
        at = end;
    }
    twin.same_words("joined log of the parts", &kept.log, &log);
    same_looks(random, kept, twin);
    tally.replays.in_parts += 1;
}

/// The trace with one thing wrong with it or with what is lent beside it, or two.
fn damaged(tally: &mut MeshTally, random: &mut Random, kept: &Kept, twin: &mut Pair) {
    twin.go_back_to(&kept.start);
    let (lent, mut room) = (twin.lent, kept.room);
    let (mut trace, mut tables) = (kept.trace.clone(), kept.tables.clone());
    for _ in 0..random.pick(&[1, 1, 2]) {
        match random.below(8) {
            0 => change_byte(random, &mut trace),
            1 => trace.truncate(random.below(trace.len() as u32 + 1) as usize),
            2 => room = random.below(room as u32 + 1) as usize,
            3 => TABLE_DAMAGES[random.below(TABLE_DAMAGES.len() as u32) as usize](&mut tables, random),
            4 => worsen_buffer(random, kept, twin),
            5 => twin.lent = random.pick(&[0, 5, 6, kept.words_needed() as u32 - 1]) as usize,
            _ => put_in(random, kept, &mut trace),
        }
    }
    twin.read_anew();
    let given = trace.clone();
    let tables_given = tables.clone();
    twin.replay(tally, room, &trace, &tables.lent());
    twin.same("trace that was lent", &given, &trace);
    twin.same("tables that were lent", &tables_given, &tables);
    twin.lent = lent;
}

fn change_byte(random: &mut Random, trace: &mut [u8]) {
    if !trace.is_empty() {
        let at = random.below(trace.len() as u32) as usize;
        let any = random.below(256);
        trace[at] = random.pick(&[any, any, 0, 1, 2, 3, 4, 5, 200, 255, u32::from(trace[at]) ^ 1]) as u8;
    }
}

fn worsen_buffer(random: &mut Random, kept: &Kept, twin: &mut Pair) {
    if let Some(mesh) = mesh_in(&kept.start[..kept.pair.lent]) {
        damage(random, &mesh, &mut twin.words);
    }
}

/// A bad record between two others, or behind all of them.
fn put_in(random: &mut Random, kept: &Kept, trace: &mut Vec<u8>) {
    let at = any_record(random, kept).min(trace.len());
    let records = bad_records::all(random, kept.chips());
    let record = &records[random.below(records.len() as u32) as usize];
    trace.splice(at..at, record.iter().copied());
}

/// Where a record of the trace starts, or where the last one ends.
fn any_record(random: &mut Random, kept: &Kept) -> usize {
    let number = random.below(kept.records.len() as u32 + 1) as usize;
    kept.records.get(number).copied().unwrap_or(kept.trace.len())
}

/// All that the library shows of a chip, and of the mesh.
#[derive(Debug, PartialEq)]
struct Looks {
    mesh: MeshLook,
    links: Vec<LinkLook>,
    flights: Vec<Flight>,
    counters: Vec<CountRead>,
    registers: RegistersRead,
}

fn same_looks(random: &mut Random, kept: &Kept, twin: &Pair) {
    let chips = kept.chips();
    for number in 0..chips.min(CHIPS_SEEN) {
        let chip = if chips > CHIPS_SEEN { random.below(chips) } else { number };
        let what = format!("look at chip {chip} beside that after the direct calls");
        twin.same(&what, &looks_at(&kept.pair.words, chip), &looks_at(&twin.words, chip));
    }
}

fn looks_at(words: &[u32], chip: u32) -> Looks {
    let places = |link: u32| (0..9).map(move |place| (link, place));
    Looks {
        mesh: mesh_calls::look(words),
        links: (0..6).map(|link| mesh_calls::look_at_link(words, chip, link)).collect(),
        flights: (0..6).flat_map(places).map(|(link, place)| mesh_calls::flight(words, chip, link, place)).collect(),
        counters: (0..10).map(|counter| mesh_calls::read_counter(words, chip, counter)).collect(),
        registers: mesh_calls::read_registers(&mut words.to_vec(), chip),
    }
}
