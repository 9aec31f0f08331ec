//! Headers of every SIGNAL, SERVICE and many LENGTH, and what stands before them.

use super::report::{list, Recorded};
use super::{any_pair, pairs, turn, Draft, Out, Recorder};
use crate::bits::Rate;
use crate::calls::Call;
use crate::frame::{Header, Kind};
use crate::random::Random;

/// LENGTHs of payloads, LENGTHs next to those, and any.
fn some_length(rate: Rate, random: &mut Random) -> u16 {
    let written = |n: usize| rate.length_of(n).0 as u16;
    match random.below(6) {
        0 => written(random.within(1, 24)),
        1 => written(random.within(1, 4095)),
        2 => written(random.within(1, 4095)) + 1,
        3 => random.pick(&[0, 1, 2, 255, 256, 0x7FFF, 0x8000, 0xFFFF]),
        _ => random.below(1 << 16) as u16,
    }
}

fn front_with(kind: Kind, header: Header, random: &mut Random) -> Vec<u8> {
    let mut chips = Draft::random(kind, Rate::Mbit11, 1, random).with_header(header).front();
    // A few chips behind the front, never enough for more than a few octets.
    let behind = random.pick(&[0, 0, 8, 20]);
    chips.extend((0..behind).map(|_| random.phase()));
    chips
}

pub fn every_signal_and_service(out: &mut Out) {
    let signals_of_rates = Rate::ALL.map(Rate::code);
    for signal in 0..=255 {
        for service in 0..=255 {
            let rate = Rate::of_code(u64::from(signal)).unwrap_or(out.random.pick(&Rate::ALL));
            for kind in Kind::BOTH {
                // Of a SIGNAL that is no rate one SERVICE in so many: it isn't looked at.
                let every = if kind == Kind::Short { 16 } else { 128 };
                if out.long || signals_of_rates.contains(&signal) || service % every == signal % every {
                    let header = Header { signal, service, length: some_length(rate, &mut out.random) };
                    let (chips, room) = (front_with(kind, header, &mut out.random), out.random.within(0, 3));
                    out.hard_and_bytes(16, kind.number(), chips, room);
                }
            }
        }
    }
    // Each SERVICE in a whole frame of each rate.
    for (kind, rate) in pairs() {
        for service in 0..=255 {
            let n = out.random.within(1, 4);
            let draft = Draft::random(kind, rate, n, &mut out.random);
            let header = Header { service, ..draft.header };
            out.hard_and_bytes(3, kind.number(), draft.with_header(header).chips(), n);
        }
    }
}

pub fn every_length(out: &mut Out) {
    for rate in Rate::ALL {
        let kind = if rate == Rate::Mbit1 { Kind::Long } else { Kind::Short };
        let most = rate.length_of(4095).0;
        let step = match rate {
            Rate::Mbit1 => out.step(230),
            Rate::Mbit2 => out.step(110),
            _ => out.step(13),
        };
        let around_most = most - 20..=most + 40;
        let far = (most + 41..1 << 16).step_by(out.step(997));
        for length in (0..200).chain((200..most - 20).step_by(step)).chain(around_most.clone()).chain(far) {
            let bits7 = if rate == Rate::Mbit11 { &[0, 128][..] } else { &[0][..] };
            // Both clock bits of the first LENGTHs and of those around the most, one of them of the others.
            let any = [out.random.pick(&[0, 4])];
            let clocks = if length < 20 || around_most.contains(&length) { &[0, 4][..] } else { &any[..] };
            for service in bits7.iter().flat_map(|bit7| clocks.iter().map(move |clock| bit7 | clock)) {
                let header = Header { signal: rate.code(), service, length: length as u16 };
                let front = Draft::new(kind, rate, 3, vec![]).with_header(header).front();
                out.hard_and_bytes(12, kind.number(), front, 0);
            }
        }
    }
}

/// Every LENGTH up to the longest payload's and a few more, with bit 7 and without it at 11 Mbit/s, others one in so
/// many: lists of fronts, of which those are refused with 16 that a writer makes and all others with 15.
pub fn every_length_listed(out: &mut Out) {
    for rate in Rate::ALL {
        let kind = if rate == Rate::Mbit1 { Kind::Long } else { Kind::Short };
        let most = rate.length_of(4095).0;
        let lengths: Vec<usize> = (0..most + 41).chain((most + 41..1 << 16).step_by(out.step(61))).collect();
        let bits7 = if rate == Rate::Mbit11 { &[0, 128][..] } else { &[0][..] };
        for bit7 in bits7 {
            for lengths in lengths.chunks(400) {
                let service = bit7 | out.random.pick(&[0, 4]);
                let header = |length: &usize| Header { signal: rate.code(), service, length: *length as u16 };
                let draft = Draft::new(kind, rate, out.random.phase(), vec![]);
                let front = |length| (kind.number(), draft.clone().with_header(header(length)).front());
                let of: Vec<Recorded> = lengths.iter().map(front).collect();
                out.call(list(&of));
            }
        }
    }
}

pub fn headers_with_payload(out: &mut Out) {
    for _ in 0..out.cases(3600) {
        let (kind, rate) = any_pair(&mut out.random);
        let n = out.random.within(1, 20);
        let mut draft = Draft::random(kind, rate, n, &mut out.random);
        let mut header = draft.header;
        match out.random.below(8) {
            0 => header.service ^= 128,
            1 => header.length = header.length.wrapping_add(1),
            2 => header.length -= 1,
            3 => header.service ^= 1 << out.random.below(8),
            4 => header.length = some_length(rate, &mut out.random),
            5 => header = Header::written(out.random.pick(&Rate::ALL), n, out.random.once_in(2)),
            _ => {}
        }
        draft = draft.with_header(header);
        let mut chips = draft.chips();
        chips.extend((0..out.random.below(30)).map(|_| out.random.phase()));
        let room = out.random.within(n.saturating_sub(1), n + 4);
        let recorder = out.random.pick(&Recorder::HARD_TWICE);
        out.call(recorder.reading(kind.number(), chips, room));
    }
}

pub fn sfd_and_crc(out: &mut Out) {
    for (kind, clock) in Kind::BOTH.into_iter().flat_map(|kind| [(kind, false), (kind, true)]) {
        let other = if kind == Kind::Long { Kind::Short } else { Kind::Long };
        let draft = Draft::random(kind, Rate::Mbit11, 2, &mut out.random).with_clock(clock);
        let mut drafts = Vec::new();
        for bit in 0..16 {
            drafts.push(Draft { sfd: draft.sfd ^ 1 << bit, ..draft.clone() });
            drafts.push(Draft { crc: draft.crc ^ 1 << bit, ..draft.clone() });
        }
        for sfd in [other.sfd(), kind.sfd().swap_bytes(), !kind.sfd(), 0, 0xFFFF] {
            drafts.push(Draft { sfd, ..draft.clone() });
            drafts.push(Draft { sfd, crc: !draft.crc, ..draft.clone() });
        }
        for crc in [!draft.crc, draft.crc.swap_bytes(), draft.crc.reverse_bits(), 0, 0xFFFF] {
            drafts.push(Draft { crc, ..draft.clone() });
        }
        // A bit of the header changed and its CRC left.
        for bit in 0..32 {
            let mut bits = draft.header.bits();
            bits[bit] ^= 1;
            drafts.push(Draft { header: Header::of_bits(&bits), ..draft.clone() });
        }
        for draft in drafts {
            for recorder in Recorder::ALL {
                out.call(recorder.reading(kind.number(), draft.chips(), 2));
            }
        }
        for _ in 0..out.cases(300) {
            let mut draft = Draft::random(kind, Rate::Mbit11, 1, &mut out.random).with_clock(clock);
            match out.random.below(3) {
                0 => draft.sfd = out.random.below(1 << 16) as u16,
                1 => draft.crc = out.random.below(1 << 16) as u16,
                _ => draft.crc ^= 1 << out.random.below(16) | 1 << out.random.below(16),
            }
            out.hard_and_bytes(4, kind.number(), draft.chips(), 1);
        }
    }
}

pub fn sync_not_compared(out: &mut Out) {
    for _ in 0..out.cases(500) {
        let (kind, rate) = any_pair(&mut out.random);
        let n = out.random.within(1, 4);
        let mut draft = Draft::random(kind, rate, n, &mut out.random);
        for bit in &mut draft.sync {
            *bit = out.random.below(2) as u8;
        }
        out.hard_and_bytes(4, kind.number(), draft.chips(), n);
    }
}

/// A reading of a draft by a recorder with room for its payload.
fn reading(draft: &Draft, recorder: Recorder) -> Call {
    recorder.reading(draft.kind.number(), draft.chips(), draft.payload.len())
}

/// Readings of a draft that are refused behind its good header, by each number that can be, the draft itself between.
fn refused_behind(draft: &Draft, recorder: Recorder, out: &mut Out) {
    let (kind, n, chips) = (draft.kind.number(), draft.payload.len(), draft.chips());
    let (front, each) = (draft.kind.front_chips(), draft.rate.chips_per_symbol());
    for length in [0, draft.header.length + 1, 0xFFFF] {
        let header = Header { length, ..draft.header };
        out.call(reading(&draft.clone().with_header(header), recorder));
    }
    for (len, room) in [(front, n), (chips.len() - 1, n), (chips.len(), 0), (chips.len(), n - 1), (front, 0)] {
        out.call(recorder.reading(kind, chips[..len].to_vec(), room));
        out.call(reading(draft, recorder));
    }
    let symbols = (chips.len() - front) / each;
    for symbol in [0, out.random.below(symbols), symbols - 1] {
        let at = front + each * symbol;
        let (mut unusable, mut turned) = (chips.clone(), chips.clone());
        unusable[at] = 200;
        turn(&mut turned[at..at + each], 1);
        out.call(recorder.reading(kind, unusable, n));
        out.call(recorder.reading(kind, turned, n));
    }
}

pub fn clock_bits(out: &mut Out) {
    const SERVICES: [u8; 13] = [0, 4, 128, 132, 1, 2, 6, 8, 12, 64, 68, 136, 255];
    for (kind, rate) in pairs() {
        // Eleven octets more have the same bit 7, which is 1 for 3 and 10.
        let all = out.long;
        for n in (1..=11).filter(|n| all || [1, 3, 10, 11].contains(n)) {
            let draft = Draft::random(kind, rate, n, &mut out.random);
            for service in SERVICES {
                let header = Header { service, ..draft.header };
                for recorder in Recorder::ALL {
                    out.call(reading(&draft.clone().with_header(header), recorder));
                }
            }
        }
        let (few, many) = (out.random.within(2, 40), out.random.within(301, 600));
        for n in [1, 3, few, many] {
            for (recorder, clock) in Recorder::ALL.into_iter().flat_map(|one| [(one, false), (one, true)]) {
                let draft = Draft::random(kind, rate, n, &mut out.random).with_clock(clock);
                refused_behind(&draft, recorder, out);
            }
        }
    }
}
