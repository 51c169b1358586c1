//! The static library's calls on a mesh, made safe as in lib_calls.rs.

use crate::interface::{Added, CountRead, Flight, LentTables, LinkLook, MeshLook, RegistersRead, Size};
use crate::lib_calls::{pointer, pointer_mut};

extern "C" {
    fn yagbolshen_size(width: u32, height: u32) -> Size;
    fn yagbolshen_open(
        mesh: *mut u32,
        mesh_len: usize,
        width: u32,
        height: u32,
        rounds_per_phase: u32,
        monitor: u32,
    ) -> u32;
    fn yagbolshen_inject(
        mesh: *mut u32,
        mesh_len: usize,
        log: *mut u32,
        log_len: usize,
        chip: u32,
        packet: *const u8,
        packet_len: usize,
        rows: *const u32,
        rows_len: usize,
        starts: *const u32,
        starts_len: usize,
        codes: *const u8,
        codes_len: usize,
        fixed: *const u32,
        fixed_len: usize,
        room: *mut u32,
        room_len: usize,
    ) -> Added;
    fn yagbolshen_round(
        mesh: *mut u32,
        mesh_len: usize,
        log: *mut u32,
        log_len: usize,
        rows: *const u32,
        rows_len: usize,
        starts: *const u32,
        starts_len: usize,
        codes: *const u8,
        codes_len: usize,
        fixed: *const u32,
        fixed_len: usize,
        room: *mut u32,
        room_len: usize,
    ) -> Added;
    fn yagbolshen_set_link(mesh: *mut u32, mesh_len: usize, chip: u32, link: u32, up: bool) -> u32;
    fn yagbolshen_read_registers(mesh: *mut u32, mesh_len: usize, chip: u32) -> RegistersRead;
    fn yagbolshen_read_counter(mesh: *const u32, mesh_len: usize, chip: u32, counter: u32) -> CountRead;
    fn yagbolshen_mesh(mesh: *const u32, mesh_len: usize) -> MeshLook;
    fn yagbolshen_link(mesh: *const u32, mesh_len: usize, chip: u32, link: u32) -> LinkLook;
    fn yagbolshen_flight(mesh: *const u32, mesh_len: usize, chip: u32, link: u32, place: u32) -> Flight;
    fn yagbolshen_flood(mesh: *const u32, mesh_len: usize, codes: *mut u8, codes_len: usize) -> u32;
}

pub fn size(width: u32, height: u32) -> Size {
    unsafe { yagbolshen_size(width, height) }
}

pub fn open(mesh: &mut [u32], width: u32, height: u32, rounds_per_phase: u32, monitor: u32) -> u32 {
    unsafe { yagbolshen_open(pointer_mut(mesh), mesh.len(), width, height, rounds_per_phase, monitor) }
}

/// With no room for groups.
pub fn inject(mesh: &mut [u32], log: &mut [u32], chip: u32, packet: &[u8], tables: &LentTables) -> Added {
    inject_in(mesh, log, chip, packet, tables, &mut [])
}

pub fn inject_in(
    mesh: &mut [u32],
    log: &mut [u32],
    chip: u32,
    packet: &[u8],
    tables: &LentTables,
    room: &mut [u32],
) -> Added {
    unsafe {
        yagbolshen_inject(
            pointer_mut(mesh),
            mesh.len(),
            pointer_mut(log),
            log.len(),
            chip,
            pointer(packet),
            packet.len(),
            pointer(tables.rows),
            tables.rows.len(),
            pointer(tables.starts),
            tables.starts.len(),
            pointer(tables.codes),
            tables.codes.len(),
            pointer(tables.fixed),
            tables.fixed.len(),
            pointer_mut(room),
            room.len(),
        )
    }
}

/// With no room for groups.
pub fn round(mesh: &mut [u32], log: &mut [u32], tables: &LentTables) -> Added {
    round_in(mesh, log, tables, &mut [])
}

pub fn round_in(mesh: &mut [u32], log: &mut [u32], tables: &LentTables, room: &mut [u32]) -> Added {
    unsafe {
        yagbolshen_round(
            pointer_mut(mesh),
            mesh.len(),
            pointer_mut(log),
            log.len(),
            pointer(tables.rows),
            tables.rows.len(),
            pointer(tables.starts),
            tables.starts.len(),
            pointer(tables.codes),
            tables.codes.len(),
            pointer(tables.fixed),
            tables.fixed.len(),
            pointer_mut(room),
            room.len(),
        )
    }
}

pub fn set_link(mesh: &mut [u32], chip: u32, link: u32, up: bool) -> u32 {
    unsafe { yagbolshen_set_link(pointer_mut(mesh), mesh.len(), chip, link, up) }
}

pub fn read_registers(mesh: &mut [u32], chip: u32) -> RegistersRead {
    unsafe { yagbolshen_read_registers(pointer_mut(mesh), mesh.len(), chip) }
}

pub fn read_counter(mesh: &[u32], chip: u32, counter: u32) -> CountRead {
    unsafe { yagbolshen_read_counter(pointer(mesh), mesh.len(), chip, counter) }
}

pub fn look(mesh: &[u32]) -> MeshLook {
    unsafe { yagbolshen_mesh(pointer(mesh), mesh.len()) }
}

pub fn look_at_link(mesh: &[u32], chip: u32, link: u32) -> LinkLook {
    unsafe { yagbolshen_link(pointer(mesh), mesh.len(), chip, link) }
}

pub fn flight(mesh: &[u32], chip: u32, link: u32, place: u32) -> Flight {
    unsafe { yagbolshen_flight(pointer(mesh), mesh.len(), chip, link, place) }
}

pub fn flood(mesh: &[u32], codes: &mut [u8]) -> u32 {
    unsafe { yagbolshen_flood(pointer(mesh), mesh.len(), pointer_mut(codes), codes.len()) }
}
