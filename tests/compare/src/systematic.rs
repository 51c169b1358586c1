//! Inputs in order, every one of a kind.

use crate::compare;
use crate::model::{kind, LOCAL, MOST_ROWS};
use crate::pass_case::{random_route, PassCase, DAMAGES};
use crate::random::Random;
use crate::tally::Tally;

const SOURCES: [u32; 7] = [0, 1, 2, 3, 4, 5, LOCAL];

pub fn all(tally: &mut Tally, random: &mut Random) {
    wanted_by_ready(tally, random);
    fixed_by_ready(tally, random);
    fixed_by_stamp(tally, random);
    fixed_bits(tally, random);
    misses(tally, random);
    codes(tally, random);
    neighbours(tally, random);
    control_by_length(tally, random);
    row_counts(tally, random);
    bad_rows(tally, random);
    sizes(tally, random);
    damage_pairs(tally, random);
}

/// All wanted link sets by all ready sets, for each mark and source. The row stands behind an unused one.
fn wanted_by_ready(tally: &mut Tally, random: &mut Random) {
    for source in SOURCES {
        for mark in 0..4 {
            for wanted in 0..64 {
                for ready in 0..64 {
                    let processors = random.below(2) * random.below(1 << 20);
                    let mut case = one_chip(random, source, ready, kind::MC << 6 | mark << 4);
                    case.rows = vec![u32::MAX, 0, !wanted & 63, 0, 0, processors << 6 | wanted];
                    compare::pass(tally, &case);
                }
            }
        }
    }
}

/// All links of a fixed route by all ready sets, for each mark and source, with a row that takes the key and says otherwise.
fn fixed_by_ready(tally: &mut Tally, random: &mut Random) {
    for source in SOURCES {
        for mark in 0..4 {
            for wanted in 0..64 {
                for ready in 0..64 {
                    let processors = random.below(2) * random.below(1 << 20);
                    let mut case = one_chip(random, source, ready, kind::FIXED << 6 | mark << 4);
                    case.fixed = processors << 6 | wanted;
                    if random.one_in(2) {
                        case.rows = vec![0, 0, !case.fixed & 0x03ff_ffff];
                    }
                    compare::pass(tally, &case);
                }
            }
        }
    }
}

/// Fixed routes to nowhere, to links, to processors and to both, for each mark, stamp, phase and source.
fn fixed_by_stamp(tally: &mut Tally, random: &mut Random) {
    for source in SOURCES {
        for mark_and_stamp in 0..16 {
            for phase in 0..4 {
                for kept in [0, 63, 0x03ff_ffc0, 0x03ff_ffff] {
                    for _ in 0..4 {
                        let ready = random.below(64);
                        let mut case = one_chip(random, source, ready, kind::FIXED << 6 | mark_and_stamp << 2);
                        case.phase = phase;
                        case.fixed = random.word() & kept;
                        compare::pass(tally, &case);
                    }
                }
            }
        }
    }
}

/// Each bit of a fixed route, alone and beside others, for each kind of packet.
fn fixed_bits(tally: &mut Tally, random: &mut Random) {
    for source in SOURCES {
        for kind in 0..4 {
            for bit in 0..32 {
                for others in [0, 0x03ff_ffff, random.word()] {
                    let ready = random.below(64);
                    let mut case = one_chip(random, source, ready, kind << 6);
                    case.fixed = others | 1 << bit;
                    compare::pass(tally, &case);
                }
            }
        }
    }
}

/// No matching row, for each mark, stamp and phase.
fn misses(tally: &mut Tally, random: &mut Random) {
    for source in SOURCES {
        for mark_and_stamp in 0..16 {
            for phase in 0..4 {
                for ready in 0..64 {
                    let mut case = one_chip(random, source, ready, kind::MC << 6 | mark_and_stamp << 2);
                    case.phase = phase;
                    compare::pass(tally, &case);
                }
            }
        }
    }
}

/// Each P2P code, sequence, stamp and phase.
fn codes(tally: &mut Tally, random: &mut Random) {
    for source in SOURCES {
        for sequence_and_stamp in 0..16 {
            for phase in 0..4 {
                for code in 0..8 {
                    let ready = random.below(64);
                    let mut case = one_chip(random, source, ready, kind::P2P << 6 | sequence_and_stamp << 2);
                    case.phase = phase;
                    case.codes = vec![code];
                    compare::pass(tally, &case);
                }
            }
        }
    }
}

fn neighbours(tally: &mut Tally, random: &mut Random) {
    for source in SOURCES {
        for route in 0..8 {
            for ready in 0..64 {
                compare::pass(tally, &one_chip(random, source, ready, kind::NN << 6 | route << 2));
            }
        }
    }
}

/// Each control byte with each length from 0 to 12, read and passed from each source.
fn control_by_length(tally: &mut Tally, random: &mut Random) {
    for control in 0..=255 {
        for length in 0..=12 {
            let mut bytes: Vec<u8> = (0..length).map(|_| random.word() as u8).collect();
            if let Some(first) = bytes.first_mut() {
                *first = control;
            }
            compare::read(tally, &bytes);
            for source in 0..9 {
                let ready = random.below(64);
                let case = PassCase { packet: bytes.clone(), ..one_chip(random, source, ready, 0) };
                compare::pass(tally, &case);
            }
        }
    }
}

/// Word counts about the most rows, with the match or a bad route in each of the last rows.
fn row_counts(tally: &mut Tally, random: &mut Random) {
    for words in 3 * MOST_ROWS - 7..3 * MOST_ROWS + 10 {
        for from_end in 1..=9 {
            let mut case = one_chip(random, 0, 63, 0);
            case.rows = [0, u32::MAX, 1].into_iter().cycle().take(words).collect();
            case.packet[1] = 0x40;
            set_parity_right(&mut case.packet);
            case.rows[words - from_end] = random.pick(&[0, 2, 1 << 25, 1 << 26, 1 << 31]);
            compare::pass(tally, &case);
        }
    }
}

/// Each row of small tables and of the largest with a bad route, alone and with a second one, a bad fixed route or words past
/// the rows.
fn bad_rows(tally: &mut Tally, random: &mut Random) {
    for rows in (1..13).chain([MOST_ROWS - 1, MOST_ROWS]) {
        for row in 0..rows {
            for bit in 26..32 {
                let second = random.below(rows as u32) as usize;
                let mut case = one_chip(random, 0, 63, 0);
                case.rows = [1, u32::MAX, 0x03ff_ffff].repeat(rows);
                case.rows[3 * row + 2] = random.word() >> 6 | 1 << bit;
                compare::pass(tally, &case);
                case.fixed |= random.below(2) << (26 + random.below(6));
                case.rows[3 * second + 2] |= random.below(2) << 31;
                case.rows.resize(3 * rows + random.below(3) as usize, u32::MAX);
                compare::pass(tally, &case);
            }
        }
    }
}

/// Each width and height about their range, with the right count of codes and one more or less.
fn sizes(tally: &mut Tally, random: &mut Random) {
    for width in 0..15 {
        for height in 0..15 {
            for count in (width * height).max(1) - 1..=width * height + 1 {
                for word in 0..0x0f10 {
                    if word & 0xff > 15 {
                        continue;
                    }
                    let mut case = one_chip(random, 0, 63, kind::P2P << 6);
                    case.packet[3..5].copy_from_slice(&(word as u16).to_be_bytes());
                    set_parity_right(&mut case.packet);
                    (case.width, case.height) = (width, height);
                    case.codes = (0..count).map(|_| random.below(8) as u8).collect();
                    compare::pass(tally, &case);
                }
            }
        }
    }
}

/// Each two reasons to refuse at once, and each alone: which number comes first.
fn damage_pairs(tally: &mut Tally, random: &mut Random) {
    for first in DAMAGES {
        for second in DAMAGES {
            for _ in 0..200 {
                let mut case = PassCase::default();
                case.fill(random);
                first(&mut case, random);
                second(&mut case, random);
                compare::pass(tally, &case);
            }
        }
    }
}

/// A mesh of one chip with no rows, some fixed route, and a packet with this control byte that is right in length and parity.
fn one_chip(random: &mut Random, source: u32, ready: u32, control: u32) -> PassCase {
    let nine = random.one_in(2);
    let mut packet = vec![control as u8 | u8::from(nine) << 1];
    packet.extend_from_slice(&(random.word() & 0xffff_0000).to_be_bytes());
    if nine {
        packet.extend_from_slice(&random.word().to_be_bytes());
    }
    set_parity_right(&mut packet);
    let (monitor, fixed) = (random.below(20), random_route(random));
    PassCase { packet, source, width: 1, height: 1, codes: vec![7], monitor, ready, fixed, ..PassCase::default() }
}

fn set_parity_right(packet: &mut [u8]) {
    let ones: u32 = packet.iter().map(|byte| byte.count_ones()).sum();
    packet[0] ^= u8::from(ones % 2 == 0);
}
