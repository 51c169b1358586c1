//! One pass through a chip's router, steps 1 to 7, and what it leaves in registers, counters and log. Written from the
//! rules, without sight of the Rattle sources.

use crate::interface::{Counters, Packet, Pass, Registers};
use crate::model::{error, kind, kind_of, mark, LINKS, LOCAL};

const MARK_AT: u32 = 4;
const STAMP_AT: u32 = 2;
const CODE_NOWHERE: u32 = 6;
const CODE_MONITOR: u32 = 7;
const ROUTE_ALL: u32 = 6;
const ROUTE_MONITOR: u32 = 7;
const ALL_LINKS: u32 = (1 << LINKS) - 1;
pub const MOST_UNITS: u32 = 65_535;

/// Where a packet comes from.
#[derive(Clone, Copy, PartialEq)]
pub enum Source {
    Link(u32),
    Local,
}

/// A chip's router at one moment, its tables included.
pub struct Router<'a> {
    pub width: u32,
    pub height: u32,
    pub monitor: u32,
    pub phase: u32,
    pub rows: &'a [u32],
    pub codes: &'a [u8],
    pub fixed: u32,
    pub ready: [bool; 6],
}

/// A unit that was dropped.
#[derive(Clone, Copy)]
struct Dropped {
    link: u32,
    leg: bool,
}

/// What one pass did.
#[derive(Default)]
pub struct Passed {
    /// Its number: 0 to 5 a link, 7 local.
    source: u32,
    phase: u32,
    errors: u32,
    /// Bits as in a route.
    wanted: u32,
    /// The packet after stamping, its mark as it came.
    packet: Packet,
    sent: [Option<Packet>; 6],
    leg: Option<(u32, Packet)>,
    /// By link 0 to 5, the second leg last.
    dropped: Vec<Dropped>,
    swallowed: bool,
    local_miss: bool,
}

impl Router<'_> {
    pub fn pass(&self, packet: Packet, source: Source) -> Passed {
        let errors = self.errors(&packet, source);
        if errors != 0 {
            return Passed { errors, wanted: self.to_monitor(), packet, ..Passed::default() };
        }
        let number = match source {
            Source::Link(link) => link,
            Source::Local => LOCAL,
        };
        let packet = self.stamped(packet, source);
        let mut passed = Passed { source: number, phase: self.phase, packet, ..Passed::default() };
        match kind_of(packet.control) {
            kind::MC => self.pass_multicast(&mut passed, source),
            kind::FIXED => self.pass_fixed(&mut passed, source),
            _ => self.pass_other(&mut passed, source),
        }
        passed
    }

    /// Step 1.
    fn errors(&self, packet: &Packet, source: Source) -> u32 {
        let (kind, control) = (kind_of(packet.control), packet.control);
        let stamped_kind = kind == kind::MC || kind == kind::P2P || kind == kind::FIXED;
        let marked_kind = kind == kind::MC || kind == kind::FIXED;
        let too_old = stamp_of(control) == !self.phase & 3;
        let flag = |found: bool, number: u32| if found { number } else { 0 };
        flag(!is_odd(packet), error::PARITY)
            + flag(source != Source::Local && stamped_kind && too_old, error::AGE)
            + flag(carries_payload(control) != (packet.nine == 1), error::LENGTH)
            + flag(source == Source::Local && marked_kind && mark_of(control) != mark::NORMAL, error::BAD_LOCAL)
    }

    /// Step 2.
    fn stamped(&self, packet: Packet, source: Source) -> Packet {
        match (source, kind_of(packet.control)) {
            (Source::Local, kind::MC | kind::P2P | kind::FIXED) => rewritten(packet, STAMP_AT, self.phase),
            _ => packet,
        }
    }

    /// Steps 3 to 6 for MC. A packet marked 10 has no part but its second leg, so it is never swallowed.
    fn pass_multicast(&self, passed: &mut Passed, source: Source) {
        let mark = mark_of(passed.packet.control);
        if mark != mark::EMERGENCY {
            let matching = self.matching_route(passed.packet.word);
            passed.local_miss = matching.is_none() && source == Source::Local;
            passed.wanted = matching.unwrap_or_else(|| self.unmatched(mark, source));
            passed.swallowed = passed.wanted == 0;
        }
        self.send_as_multicast(passed, source);
    }

    /// "a type 11 packet wants that route, local or not, and nothing if marked 10. ... It has no default route and ignores the
    /// key."
    fn pass_fixed(&self, passed: &mut Passed, source: Source) {
        if mark_of(passed.packet.control) != mark::EMERGENCY {
            passed.wanted = self.fixed;
            passed.swallowed = self.fixed == 0;
        }
        self.send_as_multicast(passed, source);
    }

    /// Steps 4 to 6.
    fn send_as_multicast(&self, passed: &mut Passed, source: Source) {
        let mark = mark_of(passed.packet.control);
        self.send_with_detours(passed);
        match source {
            Source::Link(link) if mark == mark::BOTH || mark == mark::EMERGENCY => {
                self.send_second_leg(passed, (link + LINKS - 1) % LINKS);
            }
            _ => {}
        }
    }

    /// "the search stops at the first row that matches"
    fn matching_route(&self, key: u32) -> Option<u32> {
        for row in self.rows.chunks(3) {
            let (row_key, mask, route) = (row[0], row[1], row[2]);
            if key & mask == row_key {
                return Some(route);
            }
        }
        None
    }

    fn unmatched(&self, mark: u32, source: Source) -> u32 {
        match source {
            Source::Local => self.to_monitor(),
            Source::Link(link) if mark == mark::SECOND_LEG => 1 << ((link + 2) % LINKS),
            Source::Link(link) => 1 << ((link + 3) % LINKS),
        }
    }

    /// Step 5, from the side of the wanted link: it sends, or the link before it carries its detour, or it is dropped.
    fn send_with_detours(&self, passed: &mut Passed) {
        let (mut normal, mut detour) = ([false; 6], [false; 6]);
        for link in links_of(passed.wanted) {
            let before = (link + LINKS - 1) % LINKS;
            if self.is_ready(link) {
                normal[link as usize] = true;
            } else if self.is_ready(before) {
                detour[before as usize] = true;
            } else {
                passed.dropped.push(Dropped { link, leg: false });
            }
        }
        for link in 0..6 {
            let mark = match (normal[link], detour[link]) {
                (false, false) => continue,
                (true, false) => mark::NORMAL,
                (true, true) => mark::BOTH,
                (false, true) => mark::EMERGENCY,
            };
            passed.sent[link] = Some(rewritten(passed.packet, MARK_AT, mark));
        }
    }

    /// Step 6.
    fn send_second_leg(&self, passed: &mut Passed, link: u32) {
        if self.is_ready(link) {
            passed.leg = Some((link, rewritten(passed.packet, MARK_AT, mark::SECOND_LEG)));
        } else {
            passed.dropped.push(Dropped { link, leg: true });
        }
    }

    /// Steps 3 and 7 for P2P and NN.
    fn pass_other(&self, passed: &mut Passed, source: Source) {
        passed.wanted = match (kind_of(passed.packet.control), source) {
            (kind::P2P, _) => self.by_code(passed.packet.word & 0xffff),
            (_, Source::Link(_)) => self.to_monitor(),
            (_, Source::Local) => self.by_nn_route(passed.packet.control >> 2 & 7),
        };
        passed.swallowed = passed.wanted == 0;
        for link in links_of(passed.wanted) {
            if self.is_ready(link) {
                passed.sent[link as usize] = Some(passed.packet);
            } else {
                passed.dropped.push(Dropped { link, leg: false });
            }
        }
    }

    fn by_code(&self, destination: u32) -> u32 {
        let (x, y) = (destination >> 8, destination & 0xff);
        let on_mesh = x < self.width && y < self.height;
        let code = if on_mesh { self.codes[(y * self.width + x) as usize].into() } else { CODE_NOWHERE };
        match code {
            CODE_NOWHERE => 0,
            CODE_MONITOR => self.to_monitor(),
            link => 1 << link,
        }
    }

    fn by_nn_route(&self, route: u32) -> u32 {
        match route {
            ROUTE_MONITOR => self.to_monitor(),
            ROUTE_ALL => ALL_LINKS,
            link => 1 << link,
        }
    }

    fn to_monitor(&self) -> u32 {
        1 << (LINKS + self.monitor)
    }

    fn is_ready(&self, link: u32) -> bool {
        self.ready[link as usize]
    }
}

impl Passed {
    /// Every packet sent with its link, the second leg last.
    pub fn sendings(&self) -> impl Iterator<Item = (usize, Packet)> + '_ {
        let by_link = self.sent.iter().enumerate().filter_map(|(link, sent)| sent.map(|packet| (link, packet)));
        by_link.chain(self.leg.map(|(link, packet)| (link as usize, packet)))
    }

    /// "keep the first dropped unit since they were last read", and "the number of units dropped since the last read,
    /// stopping at 65,535"
    pub fn note_drops(&self, registers: &mut Option<Registers>) {
        for dropped in &self.dropped {
            match registers {
                Some(first) => {
                    first.units = MOST_UNITS.min(first.units + 1);
                    first.more = 1;
                }
                None => *registers = Some(self.first_drop(*dropped)),
            }
        }
    }

    fn first_drop(&self, dropped: Dropped) -> Registers {
        let Packet { control, word, payload, .. } = self.packet;
        let (link, leg) = (dropped.link, dropped.leg.into());
        Registers { control, word, payload, link, leg, more: 0, source: self.source, phase: self.phase, units: 1 }
    }

    /// What is added to the ten counters.
    pub fn counts(&self) -> [u32; 10] {
        let error = |number: u32| u32::from(self.errors & number != 0);
        let delivered = if self.errors == 0 { self.processors().count_ones() } else { 0 };
        [
            1,
            error(error::PARITY),
            error(error::AGE),
            error(error::LENGTH),
            error(error::BAD_LOCAL),
            self.sendings().count() as u32,
            delivered,
            self.dropped.len() as u32,
            self.swallowed.into(),
            self.local_miss.into(),
        ]
    }

    pub fn record(&self, chip: u32) -> Option<[u32; 6]> {
        let Packet { control, word, payload, .. } = self.packet;
        (self.processors() != 0).then(|| [chip, self.processors(), self.errors, control, word, payload])
    }

    fn processors(&self) -> u32 {
        self.wanted >> LINKS
    }

    /// The answer of the one-router call.
    pub fn answer(&self) -> Pass {
        let mut registers = None;
        self.note_drops(&mut registers);
        Pass {
            refusal: 0,
            errors: self.errors,
            wanted: self.wanted,
            sent: (0..6).filter(|&link| self.sent[link].is_some()).map(|link| 1 << link).sum(),
            dropped: self.dropped_set(false),
            leg_sent: self.leg.map_or(0, |(link, _)| 1 << link),
            leg_dropped: self.dropped_set(true),
            processors: self.processors(),
            delivered: if self.processors() == 0 { Packet::default() } else { self.packet },
            packets: self.sent.map(Option::unwrap_or_default),
            leg: self.leg.map_or(Packet::default(), |(_, packet)| packet),
            registers: registers.unwrap_or_default(),
            counters: Counters { count: self.counts() },
            place: 0,
        }
    }

    fn dropped_set(&self, leg: bool) -> u32 {
        self.dropped.iter().filter(|dropped| dropped.leg == leg).map(|dropped| 1 << dropped.link).sum()
    }
}

fn links_of(route: u32) -> impl Iterator<Item = u32> {
    (0..LINKS).filter(move |link| route >> link & 1 == 1)
}

fn mark_of(control: u32) -> u32 {
    control >> MARK_AT & 3
}

fn stamp_of(control: u32) -> u32 {
    control >> STAMP_AT & 3
}

pub fn carries_payload(control: u32) -> bool {
    control & 2 != 0
}

pub fn is_odd(packet: &Packet) -> bool {
    (packet.control.count_ones() + packet.word.count_ones() + packet.payload.count_ones()) % 2 == 1
}

/// "A packet whose mark or stamp is rewritten gets its parity bit set right again."
fn rewritten(packet: Packet, at: u32, bits: u32) -> Packet {
    let even = Packet { control: packet.control & !(3 << at) & !1 | bits << at, ..packet };
    Packet { control: even.control | u32::from(!is_odd(&even)), ..even }
}
