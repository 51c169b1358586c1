//! Meshes that stay as busy as they are: the mesh wraps, so that what keeps its direction never ends. F is the most
//! there is, and no packet grows too old while it is timed.

use crate::interface::{Added, LentTables, Replayed};
use crate::mesh_calls;

const LINKS: u32 = 6;
const MOST_ROUNDS: u32 = 65_535;
const RECORD: usize = 6;
/// The keys of rows that no packet matches.
const SPARE: u32 = 0x1000;

pub struct BusyMesh {
    pub words: Vec<u32>,
    pub log: Vec<u32>,
    /// The chip of the next injection.
    pub chip: u32,
    rows: Vec<u32>,
    starts: Vec<u32>,
    pub codes: Vec<u8>,
    fixed: Vec<u32>,
    room: Vec<u32>,
}

impl BusyMesh {
    /// On each directed link so many multicast packets, each kept on its way by the row of its link at every chip, behind
    /// so many spare rows.
    pub fn circling(width: u32, height: u32, on_each: u32, spare_rows: u32) -> BusyMesh {
        let mut mesh = BusyMesh::open(width, height);
        for _ in 0..width * height {
            (0..spare_rows).for_each(|row| mesh.add_row(SPARE + row, 0));
            (0..LINKS).for_each(|link| mesh.add_row(link, 1 << link));
            mesh.end_chip();
        }
        mesh.fill(on_each, |link, _| (0x00, link));
        mesh
    }

    /// The same with packets of both lengths, by row, by default and point-to-point, deliveries at every eighth chip, and
    /// links that are down, so that packets go round them.
    pub fn mixed(width: u32, height: u32, on_each: u32) -> BusyMesh {
        let mut mesh = BusyMesh::open(width, height);
        for chip in 0..width * height {
            let processors = if chip % 8 == 0 { 1 << 6 | 1 << 9 } else { 0 };
            (0..LINKS).for_each(|link| mesh.add_row(link, 1 << link | processors));
            mesh.end_chip();
        }
        // Point-to-point: the code for chip number n below 6 is link n everywhere.
        let chips = (width * height) as usize;
        (0..chips * chips).filter(|at| at % chips < 6).for_each(|at| mesh.codes[at] = (at % chips) as u8);
        mesh.fill(on_each, |link, chip| match (chip + link) % 4 {
            0 if link != 3 => (0x40, link << 8),
            1 => (0x02, link),
            _ => (0x00, link),
        });
        for chip in (5..width * height).step_by(24) {
            assert_eq!(mesh_calls::set_link(&mut mesh.words, chip, 3, false), 0);
        }
        mesh
    }

    /// Circling too, with so many rows a chip and room for their groups: the rows of the links stand evenly among spare ones,
    /// of which so many fix no top byte. The keys are spread over the top byte, or all have it 0.
    pub fn grouped(side: u32, on_each: u32, rows: u32, unfixed: u32, spread: bool) -> BusyMesh {
        let mut mesh = BusyMesh::open(side, side);
        let top = |number: u32| if spread { number % 256 << 24 } else { 0 };
        let key = |link: u32| top(43 * link) | link;
        for _ in 0..side * side {
            let mut spare = 0;
            for row in 0..rows {
                let link = LINKS * row / rows;
                if row == (2 * link + 1) * rows / (2 * LINKS) {
                    mesh.add_row(key(link), 1 << link);
                    continue;
                }
                // Evenly too: row number n is one of them where n * unfixed / rows steps on.
                let fixes = (row + 1) * unfixed / rows == row * unfixed / rows;
                let (top, mask) = if fixes { (top(row), u32::MAX) } else { (0, 0x00ff_ffff) };
                mesh.add_masked(top | SPARE + spare, mask, 0);
                spare += 1;
            }
            mesh.end_chip();
        }
        mesh.room = vec![0; 257 + 256 * rows as usize];
        mesh.fill(on_each, |link, _| (0x00, key(link)));
        mesh
    }

    /// On each link east so many fixed-route packets, which every chip sends on east, and no rows.
    pub fn fixed_east(width: u32, height: u32, on_each: u32) -> BusyMesh {
        let mut mesh = BusyMesh::open(width, height);
        mesh.fixed.fill(1 << 0);
        (0..width * height).for_each(|_| mesh.end_chip());
        for _ in 0..on_each * width * height {
            assert_eq!(mesh.inject_by(mesh_calls::inject, &bytes(0xc0, 0)).refusal, 0);
        }
        assert_eq!(mesh.in_flight(), on_each * width * height, "every packet is on a link");
        mesh
    }

    pub fn in_flight(&self) -> u32 {
        mesh_calls::look(&self.words).in_flight
    }

    /// The same mesh after so many rounds more.
    pub fn after(mut self, rounds: u32) -> BusyMesh {
        for _ in 0..rounds {
            assert_eq!(self.on(mesh_calls::round).refusal, 0);
        }
        self
    }

    /// The same mesh with more words lent than it needs.
    pub fn with_more_lent(mut self, mesh: usize, log: usize) -> BusyMesh {
        self.words.resize(self.words.len() + mesh, 0);
        self.log.resize(self.log.len() + log, 0);
        self
    }

    /// Words and log of another that was made in the same way.
    pub fn copy_from(&mut self, other: &BusyMesh) {
        self.words.copy_from_slice(&other.words);
        self.log.copy_from_slice(&other.log);
        self.chip = other.chip;
    }

    pub fn copy(&self) -> BusyMesh {
        BusyMesh {
            words: self.words.clone(),
            log: self.log.clone(),
            chip: self.chip,
            rows: self.rows.clone(),
            starts: self.starts.clone(),
            codes: self.codes.clone(),
            fixed: self.fixed.clone(),
            room: self.room.clone(),
        }
    }

    /// Makes a call that needs no more than buffer, log and tables.
    pub fn on(&mut self, call: fn(&mut [u32], &mut [u32], &LentTables) -> Added) -> Added {
        let (rows, starts, codes, fixed) = (&self.rows, &self.starts, &self.codes, &self.fixed);
        let tables = LentTables { rows, starts, codes, fixed, room: 0 };
        call(&mut self.words, &mut self.log, &tables)
    }

    /// The same call with room for groups.
    pub fn in_room(&mut self, call: fn(&mut [u32], &mut [u32], &LentTables, &mut [u32]) -> Added) -> Added {
        let (rows, starts, codes, fixed) = (&self.rows, &self.starts, &self.codes, &self.fixed);
        let tables = LentTables { rows, starts, codes, fixed, room: self.room.len() };
        call(&mut self.words, &mut self.log, &tables, &mut self.room)
    }

    pub fn inject_by(
        &mut self,
        call: fn(&mut [u32], &mut [u32], u32, &[u8], &LentTables) -> Added,
        packet: &[u8],
    ) -> Added {
        let (rows, starts, codes, fixed) = (&self.rows, &self.starts, &self.codes, &self.fixed);
        let tables = LentTables { rows, starts, codes, fixed, room: 0 };
        let chip = self.chip;
        self.chip = if chip as usize + 2 < self.starts.len() { chip + 1 } else { 0 };
        call(&mut self.words, &mut self.log, chip, packet, &tables)
    }

    pub fn replay_by(
        &mut self,
        call: fn(&mut [u32], &mut [u32], &[u8], &LentTables) -> Replayed,
        trace: &[u8],
    ) -> Replayed {
        let (rows, starts, codes, fixed) = (&self.rows, &self.starts, &self.codes, &self.fixed);
        let tables = LentTables { rows, starts, codes, fixed, room: 0 };
        call(&mut self.words, &mut self.log, trace, &tables)
    }

    fn open(width: u32, height: u32) -> BusyMesh {
        let mut words = vec![0; mesh_calls::size(width, height).words as usize];
        assert_eq!(mesh_calls::open(&mut words, width, height, MOST_ROUNDS, 0), 0);
        let chips = (width * height) as usize;
        let log = vec![0; chips * LINKS as usize * 8 * RECORD];
        let (codes, fixed) = (vec![6; chips * chips], vec![0; chips]);
        BusyMesh { words, log, chip: 0, rows: vec![], starts: vec![0], codes, fixed, room: vec![] }
    }

    fn add_row(&mut self, key: u32, route: u32) {
        self.add_masked(key, u32::MAX, route);
    }

    fn add_masked(&mut self, key: u32, mask: u32, route: u32) {
        self.rows.extend_from_slice(&[key, mask, route]);
    }

    fn end_chip(&mut self) {
        self.starts.push(self.rows.len() as u32 / 3);
    }

    /// Injects packets at every chip: control byte, without parity, and word of what goes out by a link.
    fn fill(&mut self, on_each: u32, packet: impl Fn(u32, u32) -> (u8, u32)) {
        let chips = self.starts.len() as u32 - 1;
        for _ in 0..on_each {
            for link in 0..LINKS {
                for chip in 0..chips {
                    let (control, word) = packet(link, chip);
                    assert_eq!(self.inject_by(mesh_calls::inject, &bytes(control, word)).refusal, 0);
                }
            }
        }
        assert_eq!(self.in_flight(), on_each * LINKS * chips, "every packet is on a link");
    }
}

/// A packet with parity set right, with a payload if bit 1 says so.
pub fn bytes(control: u8, word: u32) -> Vec<u8> {
    let mut bytes = vec![control];
    bytes.extend_from_slice(&word.to_be_bytes());
    if control & 2 != 0 {
        bytes.extend_from_slice(&0x0102_0304u32.to_be_bytes());
    }
    let ones: u32 = bytes.iter().map(|byte| byte.count_ones()).sum();
    bytes[0] |= u8::from(ones % 2 == 0);
    bytes
}
