//! A record of a kept trace in plain Rust, written from the rules, without sight of the Rattle sources: "a two-byte
//! big-endian length of what follows, a version byte 1 at the front of the body, then a kind byte", then what the kind has.

use crate::interface::{KeptCall, RecordRead};

const VERSION: u8 = 1;

pub mod kind {
    pub const INJECTION: u32 = 1;
    pub const ROUND: u32 = 2;
    pub const LINK_CHANGE: u32 = 3;
    pub const REGISTERS: u32 = 4;
}

pub mod refusal {
    pub const CUT_SHORT: u32 = 12;
    pub const VERSION: u32 = 13;
    pub const NO_CALL: u32 = 14;
    pub const ROOM: u32 = 27;
}

/// The bytes of a call's record. Refusal 14 where it cannot be kept as it is.
pub fn record_of(call: &KeptCall) -> Result<Vec<u8>, u32> {
    let body = body_of(call).ok_or(refusal::NO_CALL)?;
    let length = body.len() as u16;
    Ok(length.to_be_bytes().into_iter().chain(body).collect())
}

fn body_of(call: &KeptCall) -> Option<Vec<u8>> {
    if *call != with_zeros_elsewhere(call) {
        return None;
    }
    let chip = u16::try_from(call.chip).ok()?.to_be_bytes();
    let mut body = vec![VERSION, u8::try_from(call.kind).ok()?];
    match call.kind {
        kind::INJECTION => {
            body.extend(chip);
            body.extend(match call.length {
                5 => &call.bytes[..5],
                9 => &call.bytes[..],
                _ => return None,
            });
        }
        kind::ROUND => {}
        kind::LINK_CHANGE => {
            body.extend(chip);
            body.push(u8::try_from(call.link).ok()?);
            body.push(if call.up <= 1 { call.up as u8 } else { return None });
        }
        kind::REGISTERS => body.extend(chip),
        _ => return None,
    }
    Some(body)
}

/// "A field that the kind lacks is 0, and so are bytes past `length`."
fn with_zeros_elsewhere(call: &KeptCall) -> KeptCall {
    let KeptCall { kind, chip, link, up, length, mut bytes } = *call;
    let none = KeptCall { kind, ..KeptCall::default() };
    match kind {
        kind::INJECTION => {
            bytes.iter_mut().skip(length as usize).for_each(|byte| *byte = 0);
            KeptCall { chip, length, bytes, ..none }
        }
        kind::LINK_CHANGE => KeptCall { chip, link, up, ..none },
        kind::REGISTERS => KeptCall { chip, ..none },
        _ => none,
    }
}

pub fn read(trace: &[u8]) -> RecordRead {
    match take(trace) {
        Ok((length, call)) => RecordRead { refusal: 0, length, call },
        Err(refusal) => RecordRead { refusal, ..RecordRead::default() },
    }
}

/// The record at the start of a trace, how long it is and its call, or the first of 12, 13 and 14 that applies.
pub fn take(trace: &[u8]) -> Result<(usize, KeptCall), u32> {
    let [high, low, rest @ ..] = trace else { return Err(refusal::CUT_SHORT) };
    let length = usize::from(*high) * 256 + usize::from(*low);
    let body = rest.get(..length).ok_or(refusal::CUT_SHORT)?;
    let [VERSION, after @ ..] = body else { return Err(refusal::VERSION) };
    Ok((2 + length, call_in(after).ok_or(refusal::NO_CALL)?))
}

/// The call in a body behind its version.
fn call_in(body: &[u8]) -> Option<KeptCall> {
    let (&kind, fields) = body.split_first()?;
    let mut call = KeptCall { kind: kind.into(), ..KeptCall::default() };
    if call.kind == kind::ROUND {
        return fields.is_empty().then_some(call);
    }
    let [high, low, fields @ ..] = fields else { return None };
    call.chip = u32::from(*high) << 8 | u32::from(*low);
    match (call.kind, fields) {
        (kind::INJECTION, packet) if packet.len() == 5 || packet.len() == 9 => {
            call.length = packet.len() as u32;
            call.bytes[..packet.len()].copy_from_slice(packet);
        }
        (kind::LINK_CHANGE, &[link, up @ (0 | 1)]) => {
            call.link = link.into();
            call.up = up.into();
        }
        (kind::REGISTERS, []) => {}
        _ => return None,
    }
    Some(call)
}
