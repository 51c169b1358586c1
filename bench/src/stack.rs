//! The stack that a call uses: it runs on a stack of its own, painted before, and what is no longer paint was used.
//! The figure includes what the function that makes the call needs itself.

use crate::busy_mesh::{bytes, BusyMesh};
use crate::interface::{Fields, KeptCall, Row, TreeCall};
use crate::{fewer_calls, lib_calls, mesh_calls, no_room, pass_times, trace_calls, tree_calls, tree_times};
use std::arch::asm;
use std::cell::RefCell;
use std::hint::black_box;

const STACK_BYTES: usize = 1 << 20;
const PAINT: u8 = 0xa5;
const MOST: usize = 64 << 10;
/// The rows that are made fewer are held on the stack, 256 KiB of them.
const MOST_WITH_ROWS: usize = 260 << 10;
/// A trace: an injection, a round, a link change and a read of registers.
const EACH_KIND: [u8; 29] = [0, 9, 1, 1, 0, 0, 0, 0, 0, 0, 2, 0, 2, 1, 2, 0, 6, 1, 3, 0, 1, 5, 1, 0, 4, 1, 4, 0, 1];

thread_local! {
    /// The tree that is grown.
    static TREE: TreeCall = tree_times::call(12, 144);
    /// The mesh that calls on a mesh are measured with, with detours and deliveries.
    static MESH: RefCell<BusyMesh> = RefCell::new(BusyMesh::mixed(12, 12, 4));
    /// One for which groups are built.
    static GROUPED: RefCell<BusyMesh> = RefCell::new(BusyMesh::grouped(2, 7, 1024, 0, true));
}

const CALLS: [(&str, extern "C" fn()); 21] = [
    ("read", read),
    ("pack", pack),
    ("pass", pass),
    ("find", find),
    ("size", size),
    ("inject", inject),
    ("round", round),
    ("round by groups", round_by_groups),
    ("set link", set_link),
    ("read registers", read_registers),
    ("read counter", read_counter),
    ("look at the mesh", look),
    ("look at link", look_at_link),
    ("flight", flight),
    ("write record", write_record),
    ("read record", read_record),
    ("replay", replay),
    ("open", open),
    ("flood", flood),
    ("tree", tree),
    (FEWER, fewer),
];

const FEWER: &str = "fewer";

pub fn print_use() {
    MESH.with(|_| ());
    GROUPED.with(|_| ());
    TREE.with(|_| ());
    for (name, caller) in CALLS {
        let used = stack_use(caller);
        let most = if name == FEWER { MOST_WITH_ROWS } else { MOST };
        assert!(used < most, "{name} uses {used} bytes of stack, which is not under {most}");
        println!("stack, {name}, with its caller: {used} bytes");
    }
}

extern "C" fn read() {
    black_box(lib_calls::read(black_box(&[0; 9])));
}

extern "C" fn pack() {
    black_box(lib_calls::pack(black_box(&Fields::default())));
}

extern "C" fn pass() {
    black_box(no_room::pass(black_box(&pass_times::call(black_box(&[0; 3 * 1024])))));
}

extern "C" fn find() {
    black_box(lib_calls::find(black_box(&[Row { key: 1, mask: 1, route: 0 }; 64]), 0));
}

extern "C" fn fewer() {
    black_box(fewer_calls::fewer(black_box(&[0; 3 * 64]), &mut [0; 3 * 64], &mut [0; 64]));
}

extern "C" fn tree() {
    TREE.with(|call| black_box(tree_calls::tree(black_box(call), &mut [0; 3 * 144], &mut [0; 145])));
}

extern "C" fn size() {
    black_box(mesh_calls::size(black_box(12), 12));
}

extern "C" fn open() {
    MESH.with_borrow_mut(|mesh| black_box(mesh_calls::open(&mut mesh.words, 12, 12, 1, 0)));
}

extern "C" fn flood() {
    MESH.with_borrow_mut(|mesh| black_box(mesh_calls::flood(&mesh.words, &mut mesh.codes)));
}

extern "C" fn inject() {
    MESH.with_borrow_mut(|mesh| black_box(mesh.inject_by(mesh_calls::inject, &bytes(0, 2))));
}

extern "C" fn round() {
    MESH.with_borrow_mut(|mesh| black_box(mesh.on(mesh_calls::round)));
}

extern "C" fn round_by_groups() {
    GROUPED.with_borrow_mut(|mesh| black_box(mesh.in_room(mesh_calls::round_in)));
}

extern "C" fn set_link() {
    MESH.with_borrow_mut(|mesh| black_box(mesh_calls::set_link(&mut mesh.words, 143, 5, true)));
}

extern "C" fn read_registers() {
    MESH.with_borrow_mut(|mesh| black_box(mesh_calls::read_registers(&mut mesh.words, 143)));
}

extern "C" fn read_counter() {
    MESH.with_borrow(|mesh| black_box(mesh_calls::read_counter(&mesh.words, 143, 9)));
}

extern "C" fn look() {
    MESH.with_borrow(|mesh| black_box(mesh_calls::look(&mesh.words)));
}

extern "C" fn look_at_link() {
    MESH.with_borrow(|mesh| black_box(mesh_calls::look_at_link(&mesh.words, 143, 5)));
}

extern "C" fn flight() {
    MESH.with_borrow(|mesh| black_box(mesh_calls::flight(&mesh.words, 143, 5, 0)));
}

extern "C" fn write_record() {
    black_box(trace_calls::write_record(black_box(&mut [0; 15]), &KeptCall { kind: 2, ..KeptCall::default() }));
}

extern "C" fn read_record() {
    black_box(trace_calls::read_record(black_box(&EACH_KIND)));
}

extern "C" fn replay() {
    MESH.with_borrow_mut(|mesh| black_box(mesh.replay_by(no_room::replay, black_box(&EACH_KIND))));
}

fn stack_use(caller: extern "C" fn()) -> usize {
    let mut stack = vec![PAINT; STACK_BYTES];
    let top = (stack.as_mut_ptr_range().end as usize) & !15;
    // The stack pointer is put back from a register that the caller keeps.
    #[cfg(target_arch = "aarch64")]
    unsafe {
        asm!(
            "mov x20, sp",
            "mov sp, {top}",
            "blr {caller}",
            "mov sp, x20",
            top = in(reg) top,
            caller = in(reg) caller,
            out("x20") _,
            clobber_abi("C"),
        );
    }
    #[cfg(target_arch = "x86_64")]
    unsafe {
        asm!(
            "mov r12, rsp",
            "mov rsp, {top}",
            "call {caller}",
            "mov rsp, r12",
            top = in(reg) top,
            caller = in(reg) caller,
            out("r12") _,
            clobber_abi("C"),
        );
    }
    STACK_BYTES - black_box(&stack).iter().position(|&byte| byte != PAINT).unwrap_or(STACK_BYTES)
}
