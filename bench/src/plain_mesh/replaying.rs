//! A replay that tests buffer and tables once: the buffer before the first call, the tables before the first that passes
//! packets. Every call leaves a mesh, and nothing writes the tables.

use super::checks::{check_tables, in_flight, packet, LOG, NOT_THERE, NO_MESH};
use super::holding::holds;
use super::passing::pass_at;
use super::places::place_of;
use super::{chips_of, link_at, pass_all, CHIP, COUNTERS_AT, DOWN, HEADER, RECORD};
use crate::interface::{LentTables, Replayed};
use crate::model::{first_match, LINKS, LOCAL};

const CUT_SHORT: u32 = 12;
const VERSION: u32 = 13;
const NO_CALL: u32 = 14;

pub fn replay<const JOINED: bool>(mesh: &mut [u32], log: &mut [u32], trace: &[u8], tables: &LentTables) -> Replayed {
    let mut replay = Replay { mesh, log, tables, chips: None, tables_fit: false, records: 0 };
    let mut at = 0;
    while at < trace.len() {
        let made = read(&trace[at..]).and_then(|(length, call)| replay.make::<JOINED>(call).map(|()| length));
        match made {
            Ok(length) => at += length,
            Err(refusal) => {
                let place = place_of(refusal, replay.mesh, tables);
                return Replayed { refusal, at, added: replay.records, place };
            }
        }
    }
    Replayed { refusal: 0, at, added: replay.records, place: 0 }
}

enum Call<'a> {
    Inject { chip: usize, packet: &'a [u8] },
    Round,
    SetLink { chip: usize, link: usize, up: bool },
    ReadRegisters { chip: usize },
}

/// The record at the start of a trace: how long it is, and its call.
fn read(trace: &[u8]) -> Result<(usize, Call<'_>), u32> {
    let (length, rest) = trace.split_first_chunk().ok_or(CUT_SHORT)?;
    let length = usize::from(u16::from_be_bytes(*length));
    let body = rest.get(..length).ok_or(CUT_SHORT)?;
    let chip = |high, low| usize::from(u16::from_be_bytes([high, low]));
    let call = match *body {
        [1, 1, high, low, ref packet @ ..] if matches!(packet.len(), 5 | 9) => {
            Call::Inject { chip: chip(high, low), packet }
        }
        [1, 2] => Call::Round,
        [1, 3, high, low, link, up @ 0..=1] => {
            Call::SetLink { chip: chip(high, low), link: usize::from(link), up: up == 1 }
        }
        [1, 4, high, low] => Call::ReadRegisters { chip: chip(high, low) },
        [1, ..] => return Err(NO_CALL),
        _ => return Err(VERSION),
    };
    Ok((2 + length, call))
}

struct Replay<'a> {
    mesh: &'a mut [u32],
    log: &'a mut [u32],
    tables: &'a LentTables<'a>,
    /// How many chips the mesh has, once the buffer was tested.
    chips: Option<usize>,
    tables_fit: bool,
    /// Log records so far.
    records: usize,
}

impl Replay<'_> {
    fn make<const JOINED: bool>(&mut self, call: Call) -> Result<(), u32> {
        let chips = self.test_mesh()?;
        match call {
            Call::Inject { chip, packet: bytes } => {
                there(chip, chips)?;
                self.test_tables::<JOINED>(chips)?;
                self.test_log(1)?;
                let packet = packet(bytes)?;
                self.records =
                    pass_at(self.mesh, self.log, self.records, chip, LOCAL, packet, self.tables, first_match);
            }
            Call::Round => {
                self.test_tables::<JOINED>(chips)?;
                self.test_log(in_flight(self.mesh))?;
                self.records = pass_all(self.mesh, self.log, self.records, self.tables);
            }
            Call::SetLink { chip, link, up } => {
                there(chip, chips)?;
                there(link, LINKS as usize)?;
                self.mesh[link_at(chip, link) + DOWN] = u32::from(!up);
            }
            Call::ReadRegisters { chip } => {
                there(chip, chips)?;
                self.mesh[HEADER + chip * CHIP..][..COUNTERS_AT].fill(0);
            }
        }
        Ok(())
    }

    fn test_mesh(&mut self) -> Result<usize, u32> {
        if let Some(chips) = self.chips {
            return Ok(chips);
        }
        if !holds(self.mesh) {
            return Err(NO_MESH);
        }
        Ok(*self.chips.insert(chips_of(self.mesh)))
    }

    fn test_tables<const JOINED: bool>(&mut self, chips: usize) -> Result<(), u32> {
        if !self.tables_fit {
            check_tables::<JOINED>(chips, self.tables)?;
            self.tables_fit = true;
        }
        Ok(())
    }

    /// Whether the log has room for so many records more.
    fn test_log(&self, records: usize) -> Result<(), u32> {
        if self.log.len() < RECORD * (self.records + records) {
            return Err(LOG);
        }
        Ok(())
    }
}

fn there(number: usize, count: usize) -> Result<(), u32> {
    if number < count {
        Ok(())
    } else {
        Err(NOT_THERE)
    }
}
