//! Refusals of the readers, at their edges and several at once.

use super::{any_clock, any_pair, byte_row, bytes_of, pairs, soft_rows, turn, Draft, Out, Recorder, KINDS};
use crate::bits::Rate;
use crate::calls::Call;
use crate::frame::Kind;
use crate::random::Random;
use std::collections::BTreeSet;

/// The first chips of a long or a short frame that is longer than both fronts.
fn first_chips(len: usize, random: &mut Random) -> Vec<u8> {
    let kind = random.pick(&Kind::BOTH);
    let mut chips = Draft::random(kind, Rate::Mbit2, 32, random).chips();
    chips.truncate(len);
    chips
}

pub fn read_numbers(out: &mut Out) {
    for kind in KINDS {
        for len in [0, 1, 11, 1055, 1056, 1057, 2111, 2112, 2113, 2400] {
            for room in [0, 1, 31, 32, 33] {
                let mut chips = first_chips(len, &mut out.random);
                if out.random.once_in(3) && len > 0 {
                    chips[out.random.below(len)] = 5;
                }
                for recorder in Recorder::ALL {
                    out.call(recorder.reading(kind, chips.clone(), room));
                }
            }
        }
    }
    // A good frame by its kind with one bit more.
    for (bit, kind) in (1..64).flat_map(|bit| Kind::BOTH.map(|kind| (bit, kind))) {
        let chips = Draft::random(kind, Rate::Mbit11, 2, &mut out.random).chips();
        for recorder in Recorder::ALL {
            out.call(recorder.reading(kind.number() | 1 << bit, chips.clone(), 2));
        }
    }
}

pub fn rows_that_differ(out: &mut Out) {
    let lens = [0, 1, 10, 1055, 1056, 1057, 1064, 2111, 2112, 2113, 2300];
    for kind in [0, 1, 2, 256, u64::MAX] {
        for i_len in lens {
            for q_len in lens {
                let (mut i, mut q) = soft_rows(&first_chips(2300, &mut out.random), 1.0);
                if out.random.once_in(4) {
                    let row = if out.random.once_in(2) { &mut i } else { &mut q };
                    row[out.random.below(2300)] = f32::NAN;
                }
                i.truncate(i_len);
                q.truncate(q_len);
                out.call(Call::soft(kind, (i, q), 40));
            }
        }
    }
    // Lengths that agree in their lowest octet or 16 bits.
    for kind in Kind::BOTH {
        for more in [1 << 8, 1 << 12, 1 << 16] {
            let (i, q) = soft_rows(&first_chips(2300, &mut out.random), 1.0);
            let longer = |row: &[f32]| [row, &vec![0.25; more]].concat();
            out.call(Call::soft(kind.number(), (longer(&i), q.clone()), 40));
            out.call(Call::soft(kind.number(), (i, longer(&q)), 40));
        }
    }
}

/// The lengths themselves too, so that what is refused is the odd number and nothing near it.
pub fn odd_rows(out: &mut Out) {
    for kind in KINDS {
        for len in [0, 2, 10, 22, 1056, 2112, 2114, 4224, 4226, 4600] {
            for len in [len, len + 1] {
                let mut bytes = byte_row(&first_chips(2400, &mut out.random), 1.0);
                bytes.truncate(len);
                let room = out.random.pick(&[0, 31, 32, 40]);
                out.call(Call::bytes(kind, bytes, room));
            }
        }
    }
    // About the end of a frame, and about lengths that are 0 in their lowest octet or 16 bits.
    for (kind, rate) in pairs() {
        let long = out.random.within(301, 1000);
        for n in [1, 2, 9, long] {
            let bytes = byte_row(&Draft::random(kind, rate, n, &mut out.random).chips(), 1.0);
            for len in (bytes.len() - 3..=bytes.len() + 3).chain([255, 257, 65_535, 65_537, 131_073]) {
                let mut row = bytes.clone();
                row.resize(len, 64);
                let room = out.random.pick(&[n, n, n + 1, 0]);
                out.call(Call::bytes(kind.number(), row, room));
            }
        }
    }
}

pub fn empty_rows(out: &mut Out) {
    for kind in [0, 1, 2] {
        for room in [0, 1, 100] {
            out.call(Call::hard(kind, vec![], room));
            for (i_len, q_len) in [(0, 0), (0, 1), (1, 0), (0, 2112), (2112, 0)] {
                out.call(Call::soft(kind, (vec![0.0; i_len], vec![0.0; q_len]), room));
            }
            for len in [0, 1, 2, 3] {
                out.call(Call::bytes(kind, vec![0; len], room));
            }
        }
        for rate in [10, 20, 55, 110, 0] {
            for (n, chips_len) in [(0, 0), (0, 3000), (1, 0), (4096, 0)] {
                let clock = any_clock(&mut out.random);
                out.call(Call::write(kind, rate, 0, clock, vec![0xC3; n], chips_len));
            }
        }
    }
    for (kind, rate) in pairs() {
        let chips = Draft::random(kind, rate, 1, &mut out.random).chips();
        for recorder in Recorder::ALL {
            out.call(recorder.reading(kind.number(), chips.clone(), 0));
        }
    }
}

/// What can be wrong with a reading, in the order of the refusals.
pub const WRONGS: usize = 14;
pub const KIND: usize = 0;
pub const ROWS: usize = 1;
pub const FRONT: usize = 2;
pub const FRONT_UNUSABLE: usize = 3;
pub const FRONT_GROWTH: usize = 4;
pub const SFD: usize = 5;
pub const CRC: usize = 6;
pub const SIGNAL: usize = 7;
pub const SERVICE: usize = 8;
pub const LENGTH: usize = 9;
pub const ENDS: usize = 10;
pub const ROOM: usize = 11;
pub const PAYLOAD_UNUSABLE: usize = 12;
pub const PAYLOAD_GROWTH: usize = 13;

/// A draft with the wrongs of a set that are in its SFD and its header.
pub fn wrong_draft(wrong: impl Fn(usize) -> bool, (kind, rate): (Kind, Rate), n: usize, random: &mut Random) -> Draft {
    let mut draft = Draft::random(kind, rate, n, random);
    if wrong(SIGNAL) {
        let others = [0, 11, 54, 111, 255, if kind == Kind::Short { 10 } else { 138 }];
        draft.header.signal = random.pick(&others);
    }
    if wrong(SERVICE) {
        draft.header.service ^= 1 << random.pick(&[0, 1, 3, 4, 5, 6]);
    }
    if wrong(LENGTH) {
        draft.header.length = random.pick(&[0, draft.header.length + 1, draft.header.length | 0x8000, 0xFFFF]);
    }
    draft.crc = draft.header.crc();
    if wrong(CRC) {
        draft.crc ^= random.within(1, 0xFFFF) as u16;
    }
    if wrong(SFD) {
        draft.sfd ^= random.within(1, 0xFFFF) as u16;
    }
    draft
}

/// The chips of a draft, of 1 Mbit/s if a growth of its payload is wrong, and the room to read them with: with those
/// wrongs of a set that are not in its header.
pub fn wrong_chips(wrong: impl Fn(usize) -> bool, draft: &Draft, random: &mut Random) -> (Vec<u8>, usize) {
    let (mut chips, n) = (draft.chips(), draft.payload.len());
    let (front, frame) = (draft.kind.front_chips(), chips.len());
    if wrong(FRONT_GROWTH) {
        let symbol = random.within(1, draft.kind.bits_before_header() - 1);
        turn(&mut chips[11 * symbol..11 * (symbol + 1)], random.pick(&[1, 3]));
    }
    if wrong(PAYLOAD_GROWTH) {
        let at = front + 11 * random.below(8 * n);
        turn(&mut chips[at..at + 11], random.pick(&[1, 3]));
    }
    if wrong(FRONT_UNUSABLE) {
        chips[random.below(front)] = random.within(5, 255) as u8;
    }
    if wrong(PAYLOAD_UNUSABLE) {
        chips[random.within(front, frame - 1)] = random.within(5, 255) as u8;
    }
    if wrong(FRONT) {
        chips.truncate(random.pick(&[0, 1, front / 2, front - 12, front - 1]));
    } else if wrong(ENDS) {
        chips.truncate(random.within(front, frame - 1));
    }
    let room = if wrong(ROOM) { random.below(n) } else { random.within(n, n + 2) };
    (chips, room)
}

/// A reading with the wrongs of a set (bit k for wrong k), the places and values at random.
pub fn wrong_reading(set: usize, recorder: Recorder, random: &mut Random) -> Call {
    let wrong = |k: usize| set >> k & 1 == 1;
    let (kind, rate) = if wrong(PAYLOAD_GROWTH) { (Kind::Long, Rate::Mbit1) } else { any_pair(random) };
    let n = random.within(1, 6);
    let draft = wrong_draft(wrong, (kind, rate), n, random);
    let (chips, room) = wrong_chips(wrong, &draft, random);
    let number = if wrong(KIND) { random.pick(&KINDS[2..]) } else { kind.number() };
    match recorder {
        Recorder::Hard => Call::hard(number, chips, room),
        Recorder::Soft => Call::soft(number, wrong_rows(&chips, wrong(ROWS), random), room),
        Recorder::Bytes => {
            let (i, q) = wrong_rows(&chips, false, random);
            let mut bytes = bytes_of(&i, &q);
            if wrong(ROWS) {
                resize_by_one(&mut bytes, 32, random);
            }
            Call::bytes(number, bytes, room)
        }
    }
}

/// Soft rows with any unusable values where the hard chips are unusable, of different length if so asked.
fn wrong_rows(chips: &[u8], differ: bool, random: &mut Random) -> (Vec<f32>, Vec<f32>) {
    let (mut i, mut q) = soft_rows(chips, 1.0);
    for at in (0..chips.len()).filter(|at| chips[*at] > 4) {
        let value = random.pick(&[f32::NAN, f32::INFINITY, f32::NEG_INFINITY, 8.000_001, -9.0, f32::MAX]);
        (i[at], q[at]) = random.pick(&[(value, 0.0), (0.0, value), (value, value)]);
    }
    if differ {
        resize_by_one(if random.once_in(2) { &mut i } else { &mut q }, 0.5, random);
    }
    (i, q)
}

fn resize_by_one<T: Clone>(row: &mut Vec<T>, value: T, random: &mut Random) {
    let len = if row.is_empty() || random.once_in(2) { row.len() + 1 } else { row.len() - 1 };
    row.resize(len, value);
}

pub fn every_set_of_refusals(out: &mut Out) {
    for set in 0..1 << WRONGS {
        let rows_differ = set >> ROWS & 1 == 1;
        if !rows_differ {
            let call = wrong_reading(set, Recorder::Hard, &mut out.random);
            out.call(call);
        }
        for recorder in [Recorder::Soft, Recorder::Bytes] {
            if out.long || out.random.once_in(8) {
                let call = wrong_reading(set, recorder, &mut out.random);
                out.call(call);
            }
        }
    }
}

pub fn pairs_of_refusals(out: &mut Out) {
    for first in 0..WRONGS {
        for second in first..WRONGS {
            let set = 1 << first | 1 << second;
            // The rows of a hard recording can't differ.
            let two = [Recorder::Soft, Recorder::Bytes];
            let recorders = if set >> ROWS & 1 == 1 { &two[..] } else { &Recorder::HARD_TWICE[..] };
            for case in 0..out.cases(24) {
                let call = wrong_reading(set, recorders[case % recorders.len()], &mut out.random);
                out.call(call);
            }
        }
    }
}

/// What is settled by the front, but for its length.
const IN_FRONT: [usize; 8] = [KIND, FRONT_UNUSABLE, FRONT_GROWTH, SFD, CRC, SIGNAL, SERVICE, LENGTH];

/// Reads a recording as it is and then with any octets behind it, up to lengths about 2^16 and past it: all of them are
/// alike in the front.
fn with_octets_behind(out: &mut Out, kind: u64, mut chips: Vec<u8>, room: usize) {
    let some = out.random.within(6_001, 30_000);
    for len in [chips.len(), some, 65_536 + out.random.below(1000), 70_000 + out.random.below(1000)] {
        let behind = out.random.octets(len - chips.len());
        chips.extend(behind);
        for recorder in Recorder::ALL {
            out.call(recorder.reading(kind, chips.clone(), room));
        }
    }
}

pub fn long_refused(out: &mut Out) {
    for (at, first) in IN_FRONT.into_iter().enumerate() {
        for case in 0..out.cases(4) {
            // Alone, and before another.
            let second = if case % 2 == 0 { first } else { out.random.pick(&IN_FRONT[at..]) };
            let call = wrong_reading(1 << first | 1 << second, Recorder::Hard, &mut out.random);
            if let Call::ReadHard { kind, chips, octets_len } = call {
                with_octets_behind(out, kind, chips, octets_len);
            }
        }
    }
    for len in [6_001, 12_345, 20_000, 65_535, 65_536, 70_000] {
        for kind in [0, 1, 2] {
            let mut chips = first_chips(2400, &mut out.random);
            chips.resize(len, 3);
            let rows = wrong_rows(&chips, true, &mut out.random);
            out.call(Call::soft(kind, rows, 40));
        }
    }
}

pub fn cut_recordings(out: &mut Out) {
    for (kind, rate) in pairs() {
        for n in [1, 2, 5] {
            let frames = Draft::random(kind, rate, n, &mut out.random).both_clocks();
            let (front, frame) = (kind.front_chips(), frames[0].len());
            let frames = frames.map(|chips| [chips, vec![3, 2, 1]].concat());
            let lens: BTreeSet<usize> = (0..front)
                .step_by(out.step(131))
                .chain((front..frame).step_by(out.step(7)))
                .chain(front - 13..=front + 8)
                .chain(frame - 13..=frame + 3)
                .collect();
            for len in lens {
                let mut cut = out.random.one_of(&frames)[..len].to_vec();
                if len > 0 && out.random.once_in(4) {
                    let at = out.random.below(len);
                    cut[at] = 200;
                }
                let room = out.random.within(n - 1, n + 1);
                if out.random.once_in(3) {
                    out.call(Recorder::Soft.reading(kind.number(), cut.clone(), room));
                }
                out.hard_and_bytes(1, kind.number(), cut, room);
            }
        }
    }
}

pub fn kinds_crossed(out: &mut Out) {
    for _ in 0..out.cases(500) {
        let (kind, rate) = any_pair(&mut out.random);
        let other = if kind == Kind::Long { Kind::Short } else { Kind::Long };
        let n = out.random.within(1, 140);
        let draft = Draft::random(kind, rate, n, &mut out.random);
        out.hard_and_bytes(4, other.number(), draft.chips(), n);
    }
}
