//! The known passes 1 to 13, held against the model: so the model is not only equal to the library but right.

use crate::interface::{Pass, PassCall};
use crate::model;

const P: [u8; 5] = [0, 0, 0, 0, 1];
const P_EMERGENCY: [u8; 5] = [0x21, 0, 0, 0, 1];
const P_SECOND_LEG: [u8; 5] = [0x30, 0, 0, 0, 1];
const LOCAL: u32 = 7;

pub fn all() {
    let not = |links: &[u32]| links.iter().fold(63, |ready, link| ready & !(1 << link));
    let link_route = |links: &[u32]| [1, u32::MAX, 63 & !not(links)];
    let phase = |phase, packet, source, rows| pass_in_phase(phase, packet, source, 63, rows);

    known(1, sends(&pass(&P, 0, 63, &[]), &[(3, 0x00)]));
    known(2, sends(&pass(&P, 0, not(&[3]), &[]), &[(2, 0x21)]));
    let leg = pass(&P_EMERGENCY, 5, 63, &[]);
    known(3, sends(&leg, &[]) && leg.leg_sent == 1 << 4 && leg.leg.control == 0x30 && leg.counters.count[8] == 0);
    known(4, sends(&pass(&P_SECOND_LEG, 1, 63, &[]), &[(3, 0x00)]));
    let dropped = pass(&P, 0, not(&[2, 3]), &[]);
    known(5, sends(&dropped, &[]) && dropped.dropped == 1 << 3 && dropped.registers.link == 3);
    known(6, sends(&pass(&P, 0, not(&[3]), &link_route(&[2, 3])), &[(2, 0x11)]));
    known(7, phase(3, &P, 0, &[]).errors == 2 && sends(&phase(2, &P, 0, &[]), &[(3, 0x00)]));
    let delivered = phase(3, &P, LOCAL, &[1, u32::MAX, 1 << 6]);
    known(8, sends(&delivered, &[]) && delivered.processors == 1 && delivered.delivered.control == 0x0c);
    known(9, pass(&[1, 0, 0, 0, 1], 0, 63, &[]).errors == 1);
    known(10, pass(&[0, 0, 0, 0, 1, 0, 0, 0, 0], 0, 63, &[]).errors == 4);
    let flood = pass(&[0x98, 0, 0, 0, 0], LOCAL, not(&[3]), &[]);
    known(11, flood.sent == not(&[3]) && flood.dropped == 1 << 3 && flood.counters.count[5..8] == [5, 0, 1]);
    let bad_local = pass(&P_EMERGENCY, LOCAL, 63, &[]);
    known(12, bad_local.errors == 8 && sends(&bad_local, &[]) && bad_local.leg_sent == 0);
    let passed = |packet: &[u8]| pass(packet, 0, 63, &[]);
    known(13, [0, 4, 6, 10].iter().all(|&n| passed(&[0; 10][..n]).refusal == 2));
    let even = passed(&[0xc0, 0, 0, 0, 0]);
    known(13, even.refusal == 0 && even.errors == 1 && even.processors == 1 && sends(&even, &[]));
}

fn known(number: u32, holds: bool) {
    assert!(holds, "the model misses known pass {number}");
}

fn sends(pass: &Pass, expected: &[(u32, u32)]) -> bool {
    let sent: Vec<(u32, u32)> = (0..6)
        .filter(|link| pass.sent >> link & 1 == 1)
        .map(|link| (link, pass.packets[link as usize].control))
        .collect();
    pass.refusal == 0 && sent == expected
}

fn pass(packet: &[u8], source: u32, ready: u32, rows: &[u32]) -> Pass {
    pass_in_phase(0, packet, source, ready, rows)
}

fn pass_in_phase(phase: u32, packet: &[u8], source: u32, ready: u32, rows: &[u32]) -> Pass {
    let (codes, monitor, fixed) = (&[7], 0, 0);
    model::pass::<false>(&PassCall {
        packet,
        source,
        width: 1,
        height: 1,
        rows,
        codes,
        monitor,
        phase,
        ready,
        fixed,
        room: 0,
    })
}
