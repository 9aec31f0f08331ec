//! Why hard reads are refused. Each reading of a hard recording in any family is followed by its reason, with the same
//! room; here are rooms that no buffer has, and what each row of the table can show.

use super::refused::{wrong_reading, ROWS, WRONGS};
use super::why_edges::{crcs_all_alike, each_cut, each_grown, each_spoiled, ends_spoiled, far_grown, last_grown};
use super::{any_pair, pairs, turn, Draft, Out, Recorder, KINDS};
use crate::bits::Rate;
use crate::calls::Call;
use crate::chips::LOST;
use crate::coming::coming;
use crate::frame::{Header, Kind};
use crate::random::Random;
use std::collections::BTreeSet;

/// Rooms about n, and those of more than 32 bits that are about n in their lowest.
fn rooms(n: u64) -> BTreeSet<u64> {
    let (less, wide) = (n.saturating_sub(1), 1 << 32);
    let near = [0, 1, less, n, n + 1, n + 256, 4094, 4095, 4096, 65_535, 65_536 + less, 65_536 + n];
    let far = [wide - 1, wide, wide + less, wide + n, (1 << 40) + less, 1 << 63, (1 << 63) + n, u64::MAX - 1, u64::MAX];
    near.into_iter().chain(far).collect()
}

/// A full read with room for every payload, and reasons with each room.
fn with_rooms(out: &mut Out, kind: u64, chips: &[u8]) {
    out.call(Call::hard(kind, chips.to_vec(), 4095));
    for room in rooms(coming(kind, chips).n) {
        out.ask(Call::why(kind, chips.to_vec(), room));
    }
}

/// Chips with those of the symbol at a place turned.
fn turned_at(chips: &[u8], place: usize, by: u8) -> Vec<u8> {
    let mut turned = chips.to_vec();
    turn(&mut turned[place..place + 11], by);
    turned
}

/// A frame whole, cut, with octets behind it, unusable, turned and lost in its payload.
fn rooms_of_frame(out: &mut Out, kind: Kind, chips: &[u8]) {
    let (number, front, frame) = (kind.number(), kind.front_chips(), chips.len());
    let octets = out.random.octets(9);
    let mut unusable = [chips, &octets].concat();
    with_rooms(out, number, chips);
    with_rooms(out, number, &chips[..frame - 1]);
    with_rooms(out, number, &unusable);
    unusable[out.random.within(front, frame - 1)] = out.random.within(5, 255) as u8;
    with_rooms(out, number, &unusable);
    let (place, by) = (front + (frame - front) / 22 * 11, out.random.pick(&[1, 3]));
    with_rooms(out, number, &turned_at(chips, place.min(frame - 11), by));
    let mut lost = chips.to_vec();
    lost[frame - 5..].fill(LOST);
    with_rooms(out, number, &lost);
}

pub fn why_rooms(out: &mut Out) {
    for (kind, rate) in pairs() {
        let (few, many) = (out.random.within(2, 40), out.random.within(301, 600));
        for n in [few, many] {
            let frames = Draft::random(kind, rate, n, &mut out.random).both_clocks();
            frames.iter().for_each(|chips| rooms_of_frame(out, kind, chips));
        }
    }
    for first in (0..WRONGS).filter(|wrong| *wrong != ROWS) {
        for second in (first..WRONGS).filter(|wrong| *wrong != ROWS) {
            for _ in 0..out.cases(1) {
                let call = wrong_reading(1 << first | 1 << second, Recorder::Hard, &mut out.random);
                if let Call::ReadHard { kind, chips, .. } = call {
                    with_rooms(out, kind, &chips);
                }
            }
        }
    }
    each_cut(out, Kind::Short, Rate::Mbit2);
    each_cut(out, Kind::Long, Rate::Mbit5_5);
}

/// Every n: fronts with as many chips behind them as the frame has, zeros all, and room for an octet too few, for any
/// number too few, for just so many, and for 2^32 and one too few.
pub fn why_every_n(out: &mut Out) {
    for n in 1..=4095 {
        let kind = out.random.pick(&Kind::BOTH);
        let draft = Draft::random(kind, Rate::Mbit11, 1, &mut out.random);
        let header = Header::written(Rate::Mbit11, n, out.random.once_in(2));
        let mut chips = draft.with_header(header).front();
        chips.resize(kind.front_chips() + 8 * n, 0);
        let (room, less) = (n as u64, out.random.below(n) as u64);
        for room in [room - 1, less, room, (1 << 32) + room - 1] {
            out.ask(Call::why(kind.number(), chips.clone(), room));
        }
    }
}

/// Rooms for reasons of recordings that are refused before it is asked for.
const ANY_ROOM: [u64; 6] = [0, 1, 2, 3, 1 << 32, u64::MAX];

/// Every kind, by the first chips of a frame, some of them unusable.
fn every_kind(out: &mut Out, len: usize) {
    for kind in KINDS {
        let sent = out.random.pick(&Kind::BOTH);
        let mut chips = Draft::random(sent, Rate::Mbit2, 32, &mut out.random).chips();
        chips.truncate(len);
        if out.random.once_in(3) && len > 0 {
            chips[out.random.below(len)] = out.random.within(5, 255) as u8;
        }
        out.call(Call::hard(kind, chips.clone(), 4095));
        let room = out.random.pick(&ANY_ROOM);
        out.ask(Call::why(kind, chips, room));
    }
}

/// Every length that is short of a front.
fn short_of_a_front(out: &mut Out, kind: Kind) {
    let front = Draft::random(kind, Rate::Mbit11, 1, &mut out.random).front();
    for len in 0..front.len() {
        let room = out.random.pick(&ANY_ROOM);
        out.ask(Call::why(kind.number(), front[..len].to_vec(), room));
    }
}

/// A good frame with each small kind that is none; with each bit more in its kind, and in the room.
fn bits_more(out: &mut Out, kind: Kind) {
    let chips = Draft::random(kind, Rate::Mbit11, 2, &mut out.random).chips();
    (2..=9).for_each(|none| out.ask(Call::why(none, chips.clone(), 2)));
    for bit in 0..64 {
        out.ask(Call::why(kind.number() ^ 1 << bit, chips.clone(), 2));
        let rooms: [u64; 4] = [0, 1, 2, 3];
        rooms.into_iter().for_each(|room| out.ask(Call::why(kind.number(), chips.clone(), room ^ 1 << bit)));
    }
}

pub fn why_numbers(out: &mut Out) {
    let lens = [0, 1, 10, 11, 1055, 1056, 1057, 2111, 2112, 2113, 2400];
    lens.into_iter().for_each(|len| every_kind(out, len));
    Kind::BOTH.into_iter().for_each(|kind| short_of_a_front(out, kind));
    Kind::BOTH.into_iter().for_each(|kind| bits_more(out, kind));
}

/// The reason for a front with a header of right CRC and a few chips behind it, with any room.
fn ask_header(out: &mut Out, kind: Kind, header: Header) {
    let draft = Draft::random(kind, Rate::Mbit11, 1, &mut out.random).with_header(header);
    let mut chips = draft.front();
    let behind = out.random.pick(&[0, 0, 8, 20]);
    chips.extend((0..behind).map(|_| out.random.phase()));
    let room = out.random.pick(&[0, 1, 4095, u64::MAX]);
    out.ask(Call::why(kind.number(), chips, room));
}

/// The LENGTHs of a rate: all that a payload can have and a few more, and some of those above.
fn lengths(out: &Out, rate: Rate) -> impl Iterator<Item = usize> {
    let most = rate.length_of(4095).0;
    (0..most + 41).chain((most + 41..1 << 16).step_by(out.step(61))).chain([0xFFFF])
}

/// Each SIGNAL, with SERVICEs and LENGTHs that aren't looked at where it is no rate's.
fn every_signal(out: &mut Out, kind: Kind) {
    for signal in 0..=255 {
        for service in [0, 0x84, out.random.below(256) as u8] {
            let length = out.random.pick(&[0, 8, 0x1234, 0xFFFF]);
            ask_header(out, kind, Header { signal, service, length });
        }
    }
}

/// Each SERVICE of a rate, with a LENGTH of 0 and with a good one.
fn every_service(out: &mut Out, kind: Kind, rate: Rate) {
    for service in 0..=255 {
        for length in [0, rate.length_of(5).0 as u16] {
            ask_header(out, kind, Header { signal: rate.code(), service, length });
        }
    }
}

/// The kinds that a LENGTH is asked of: both, but at 2 Mbit/s in the shorter run, where they take turns unless it is a
/// frame's.
fn kinds_of(out: &Out, rate: Rate, length: usize) -> &'static [Kind] {
    let turn = (length + length / 4) % 2;
    match rate {
        Rate::Mbit1 => &[Kind::Long],
        Rate::Mbit2 if !out.long && length % 4 > 0 => &Kind::BOTH[turn..turn + 1],
        _ => &Kind::BOTH,
    }
}

/// LENGTHs of a rate, with either clock bit, and at 11 Mbit/s with bit 7 and without it.
fn every_length(out: &mut Out, rate: Rate) {
    let bits7 = if rate == Rate::Mbit11 { &[0, 0x80][..] } else { &[0][..] };
    for length in lengths(out, rate) {
        let kinds = kinds_of(out, rate, length).iter();
        for (kind, bit7) in kinds.flat_map(|kind| bits7.iter().map(|bit7| (*kind, bit7))) {
            let service = bit7 | out.random.pick(&[0, 4]);
            ask_header(out, kind, Header { signal: rate.code(), service, length: length as u16 });
        }
    }
}

pub fn why_headers(out: &mut Out) {
    Kind::BOTH.into_iter().for_each(|kind| every_signal(out, kind));
    pairs().for_each(|(kind, rate)| every_service(out, kind, rate));
}

/// The rates with the fewest LENGTHs first: a wrong one shows soon.
pub fn why_lengths(out: &mut Out) {
    Rate::ALL.into_iter().rev().for_each(|rate| every_length(out, rate));
}

/// SFDs and CRCs with bits changed, one way in so many: the SFD alone, the CRC alone, or both.
fn changed_checks(out: &mut Out, kind: Kind) {
    for bits in (1..=0xFFFF).step_by(out.step(31)).chain((0..16).map(|bit| 1 << bit)) {
        let (_, rate) = any_pair(&mut out.random);
        let draft = Draft::random(kind, rate, 1, &mut out.random);
        let (sfd, crc) = (draft.sfd ^ bits, draft.crc ^ bits);
        let both = Draft { sfd, crc: !draft.crc, ..draft.clone() };
        for spoiled in [Draft { sfd, ..draft.clone() }, Draft { crc, ..draft }, both] {
            let room = out.random.pick(&[0, 1, 4095, u64::MAX]);
            out.ask(Call::why(kind.number(), spoiled.chips(), room));
        }
    }
}

/// A header of which one bit or more are changed and whose CRC was left, and the SFD of the other kind.
fn left_checks(out: &mut Out, kind: Kind) {
    let other = if kind == Kind::Long { Kind::Short } else { Kind::Long };
    for bit in (0..32).cycle().take(out.cases(96)) {
        let draft = Draft::random(kind, Rate::Mbit11, 1, &mut out.random);
        let mut bits = draft.header.bits();
        bits[bit] ^= 1;
        bits[out.random.below(32)] ^= out.random.below(2) as u8;
        let changed = Draft { header: Header::of_bits(&bits), ..draft.clone() };
        out.ask(Call::why(kind.number(), changed.chips(), 1));
        out.ask(Call::why(kind.number(), Draft { sfd: other.sfd(), ..draft }.chips(), 1));
    }
}

pub fn why_checks(out: &mut Out) {
    for kind in Kind::BOTH {
        changed_checks(out, kind);
        left_checks(out, kind);
        [0, 0xFFFF].into_iter().for_each(|all| crcs_all_alike(out, kind, all));
    }
}

/// Chips unusable by each octet, in the front and in the payload, alone, with another behind, and with an odd growth
/// before.
fn unusable_places(out: &mut Out, kind: Kind, rate: Rate) {
    let n = out.random.within(1, 30);
    let chips = Draft::random(kind, rate, n, &mut out.random).chips();
    let (front, frame) = (kind.front_chips(), chips.len());
    for octet in 5..=255 {
        for (from, to) in [(0, front), (front, frame)] {
            let mut spoiled = chips.clone();
            let any = out.random.within(from, to - 1);
            let place = out.random.pick(&[from, to - 1, any]);
            if out.random.once_in(3) && (from == 0 || rate == Rate::Mbit1) {
                turn(&mut spoiled[from + 11..from + 22], 1);
            }
            if out.random.once_in(3) {
                let second = out.random.within(place, frame - 1);
                spoiled[second] = out.random.within(5, 255) as u8;
            }
            spoiled[place] = octet;
            let room = out.random.pick(&[n as u64, 4095, u64::MAX]);
            out.ask(Call::why(kind.number(), spoiled, room));
        }
    }
}

/// A payload symbol at the edge of a block of 64, the first, the last or any.
fn some_symbol(symbols: usize, random: &mut Random) -> usize {
    let block = 64 * random.below(symbols / 64 + 1);
    let edges = [0, symbols - 1, symbols - 1, block.saturating_sub(1), block, block + 1, random.below(symbols)];
    random.pick(&edges).min(symbols - 1)
}

/// Symbols of 1 Mbit/s grown by 1 and 3, or by 2 more than sent, in the front and in the payload; another behind; chips
/// unusable behind the frame, or symbols that grow in any way; at other rates payload symbols turned, which no read
/// refuses.
fn grown_places(out: &mut Out, kind: Kind, rate: Rate) {
    let n = out.random.pick(&[1, 2, 8, 9, 16, 17, 65]);
    let chips = Draft::random(kind, rate, n, &mut out.random).chips();
    let (front, each) = (kind.front_chips(), rate.chips_per_symbol());
    let symbols = (chips.len() - front) / each;
    let in_front = out.random.within(1, front / 11 - 1);
    let in_payload = front + each * some_symbol(symbols, &mut out.random);
    for place in [11 * in_front, in_payload, in_payload] {
        let mut turned = chips.clone();
        let to = if out.random.once_in(2) { place + if place < front { 11 } else { each } } else { turned.len() };
        turn(&mut turned[place..to], out.random.pick(&[1, 1, 2, 3, 3]));
        if out.random.once_in(4) {
            let second = front + each * out.random.below(symbols);
            turn(&mut turned[second..second + each], 1);
        }
        let (behind, values) = out.random.pick(&[(3, 256), (25, 4)]);
        turned.extend((0..behind).map(|_| out.random.below(values) as u8));
        let room = out.random.pick(&[n as u64, n as u64, u64::MAX, n as u64 - 1]);
        out.ask(Call::why(kind.number(), turned, room));
    }
}

pub fn why_places(out: &mut Out) {
    for (kind, rate) in pairs() {
        unusable_places(out, kind, rate);
        let cases = out.cases(if rate == Rate::Mbit1 { 400 } else { 60 });
        (0..cases).for_each(|_| grown_places(out, kind, rate));
    }
    Kind::BOTH.into_iter().for_each(|kind| each_spoiled(out, kind));
    ends_spoiled(out);
    each_grown(out);
    last_grown(out);
}

/// Recordings of about so many chips: refused in each way, and a good one, zeros and an unusable chip standing behind
/// the frame.
fn wide(out: &mut Out, wide: usize) {
    for wrong in (0..WRONGS).filter(|wrong| *wrong != ROWS) {
        let call = wrong_reading(1 << wrong, Recorder::Hard, &mut out.random);
        let Call::ReadHard { kind, mut chips, octets_len } = call else { continue };
        chips.resize(wide + out.random.below(2112), 0);
        out.ask(Call::why(kind, chips, octets_len as u64));
    }
    let (kind, rate) = any_pair(&mut out.random);
    let mut chips = Draft::random(kind, rate, 9, &mut out.random).chips();
    chips.extend([200, 0]);
    chips.resize(wide + out.random.below(2112), 0);
    [8, 9, (1 << 32) + 8].into_iter().for_each(|room| out.ask(Call::why(kind.number(), chips.clone(), room)));
}

/// The longest frame cut about 2^16 and 2^18 and at its last chip, and turned in far symbols.
fn longest(out: &mut Out) {
    let chips = Draft::random(Kind::Long, Rate::Mbit1, 4095, &mut out.random).chips();
    for len in [65_535, 65_536, 65_537, 1 << 17, 1 << 18, (1 << 18) + 5, chips.len() - 1, chips.len()] {
        out.ask(Call::why(0, chips[..len].to_vec(), 4095));
    }
    for symbol in [5766, 5767, 23_640, 23_641, 8 * 4095 - 2, 8 * 4095 - 1] {
        let by = out.random.pick(&[1, 3]);
        out.ask(Call::why(0, turned_at(&chips, 2112 + 11 * symbol, by), u64::MAX));
    }
}

pub fn why_wide(out: &mut Out) {
    [1 << 16, 1 << 20, 1 << 24].into_iter().for_each(|chips| wide(out, chips));
    longest(out);
    far_grown(out);
}
