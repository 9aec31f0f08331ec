//! Why hard reads are refused, where a place or a number may be missed alone: each symbol of a block, each last one,
//! each chip of a front, the ends of payloads, each length of a cut, and CRCs of zeros and of ones.

use super::{pairs, turn, Draft, Out};
use crate::bits::Rate;
use crate::calls::Call;
use crate::frame::{Header, Kind};
use crate::random::Random;

/// A frame of 1 Mbit/s, which only long ones have.
fn slow_frame(out: &mut Out, n: usize) -> Vec<u8> {
    Draft::random(Kind::Long, Rate::Mbit1, n, &mut out.random).chips()
}

/// The reason for a frame of 1 Mbit/s turned from a payload symbol to its end: that symbol alone grows by 1 or 3.
fn ask_grown(out: &mut Out, chips: &[u8], symbol: usize, by: u8) {
    let mut turned = chips.to_vec();
    turn(&mut turned[Kind::Long.front_chips() + 11 * symbol..], by);
    let room = out.random.pick(&[4095, u64::MAX]);
    out.ask(Call::why(Kind::Long.number(), turned, room));
}

/// Each symbol of two blocks of 64 grown alone.
pub fn each_grown(out: &mut Out) {
    let chips = slow_frame(out, 16);
    for symbol in 0..128 {
        [1, 3].into_iter().for_each(|by| ask_grown(out, &chips, symbol, by));
    }
}

/// The last symbol of each n to 72, and of whole blocks, grown alone.
pub fn last_grown(out: &mut Out) {
    for n in (1..=72).chain([128, 256, 512]) {
        let chips = slow_frame(out, n);
        [1, 3].into_iter().for_each(|by| ask_grown(out, &chips, 8 * n - 1, by));
    }
}

/// Symbols about powers of 2 and in far blocks grown alone, from 2^10 on in the longest frame.
pub fn far_grown(out: &mut Out) {
    let (near, longest) = (slow_frame(out, 65), slow_frame(out, 4095));
    let about = |k: u32| [(1 << k) - 1, 1 << k, (1 << k) + 1];
    let far = [17_500, 20_000, 24_576, 28_100, out.random.within(16_448, 32_758)];
    for symbol in (3..=14).flat_map(about).chain(far) {
        let (chips, by) = (if symbol < 520 { &near } else { &longest }, out.random.pick(&[1, 3]));
        ask_grown(out, chips, symbol, by);
    }
}

/// The reason for chips of which one is unusable.
fn ask_spoiled(out: &mut Out, kind: Kind, chips: &[u8], place: usize) {
    let mut spoiled = chips.to_vec();
    spoiled[place] = out.random.within(5, 255) as u8;
    let room = out.random.pick(&[72, 4095, u64::MAX]);
    out.ask(Call::why(kind.number(), spoiled, room));
}

/// Each chip of a front unusable.
pub fn each_spoiled(out: &mut Out, kind: Kind) {
    let front = Draft::random(kind, Rate::Mbit11, 1, &mut out.random).front();
    (0..front.len()).for_each(|place| ask_spoiled(out, kind, &front, place));
}

/// The first and the last chip of the payload unusable, at each n to 72.
pub fn ends_spoiled(out: &mut Out) {
    for (kind, rate, n) in pairs().flat_map(|(kind, rate)| (1..=72).map(move |n| (kind, rate, n))) {
        let chips = Draft::random(kind, rate, n, &mut out.random).chips();
        let ends = [kind.front_chips(), chips.len() - 1];
        ends.into_iter().for_each(|place| ask_spoiled(out, kind, &chips, place));
    }
}

/// A frame cut at each length from its front on.
pub fn each_cut(out: &mut Out, kind: Kind, rate: Rate) {
    let chips = Draft::random(kind, rate, 24, &mut out.random).chips();
    for len in kind.front_chips()..chips.len() {
        let room = out.random.pick(&[0, 24, u64::MAX]);
        out.ask(Call::why(kind.number(), chips[..len].to_vec(), room));
    }
}

/// A header with any SIGNAL and SERVICE whose CRC is this one: one LENGTH has it.
fn header_of_crc(crc: u16, random: &mut Random) -> Header {
    let (signal, service) = (random.below(256) as u8, random.below(256) as u8);
    let mut all = (0..=0xFFFF).map(|length| Header { signal, service, length });
    all.find(|header| header.crc() == crc).expect("each CRC is one LENGTH's")
}

/// Bits that are all 0 or all 1, as this number's are: of the CRC worked out, of the header, and of the CRC read.
pub fn crcs_all_alike(out: &mut Out, kind: Kind, all: u16) {
    let draft = Draft::random(kind, Rate::Mbit11, 1, &mut out.random);
    let header = Header { signal: all as u8, service: all as u8, length: all };
    let worked_out = draft.clone().with_header(header_of_crc(all, &mut out.random));
    let of_header = draft.clone().with_header(header);
    let wrong = [1, 0x8000, 0xFFFF, out.random.within(1, 0xFFFE) as u16];
    let changed = |draft: &Draft| wrong.map(|bits| Draft { crc: draft.crc ^ bits, ..draft.clone() });
    let read = [&draft, &of_header].map(|draft| Draft { crc: all, ..draft.clone() });
    for spoiled in changed(&worked_out).into_iter().chain(changed(&of_header)).chain(read) {
        let room = out.random.pick(&[0, 1, 4095, u64::MAX]);
        out.ask(Call::why(kind.number(), spoiled.chips(), room));
    }
}
