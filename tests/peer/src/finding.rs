//! Finding the start: the smallest offset into a hard recording from which a frame can be read, as far as its front
//! tells.
//!
//! Looked for are 1, then 18, both before the recording. An offset is a start if a read of the recording from there on
//! meets none of 8, 9 and 10 over the front, 11, 12, 13, 14 and 15: 16, 17 and the payload's 9 and 10 don't matter, nor
//! do the chips before the offset. 19 if no offset below the number asked for is a start, and only then.

use crate::bits::{decide, receive, Rate};
use crate::chips::{Counts, Phase, Recording};
use crate::frame::{Header, Kind};
use crate::reading::{front_of, told_by, Who};
use crate::refusals;

/// What is found. Of a refusal all but the number is 0.
#[derive(Default)]
pub struct Found {
    pub number: u64,
    pub offset: u64,
    pub rate: u64,
    pub length: u64,
    pub clock: u64,
    pub n: u64,
}

/// The smallest offset below the number of offsets that is a start, and what the front tells there.
pub fn find(kind: u64, chips: &[u8], offsets: u64) -> Found {
    let refused = |number: u64| Found { number, ..Found::default() };
    let Some(kind) = Kind::of_number(kind) else { return refused(refusals::KIND) };
    if !(1..=refusals::MOST_OFFSETS).contains(&offsets) {
        return refused(refusals::OFFSETS);
    }
    let symbols = symbols(chips, offsets as usize + kind.front_chips());
    for offset in 0..offsets {
        if let Some((rate, n, header)) = front_from(kind, &symbols, offset as usize) {
            let (rate, length) = (u64::from(rate.code()), u64::from(header.length));
            return Found { number: 0, offset, rate, length, clock: u64::from(header.clock()), n: n as u64 };
        }
    }
    refused(refusals::NO_START)
}

/// What the eleven chips from each of the first places on are decided as, none if one of them is unusable. Most places
/// are a symbol's of many offsets, so each is decided once.
fn symbols(chips: &[u8], places: usize) -> Vec<Option<Phase>> {
    let recording = Recording::Hard(chips);
    let looked_at = chips.len().min(places + 10);
    let unusable: Vec<bool> = (0..looked_at).map(|place| recording.chip(place).is_none()).collect();
    let counts: Vec<Counts> =
        (0..looked_at).map(|place| recording.chip(place).map_or((0, 0), |chip| chip.counts())).collect();
    let decided = |(symbol, unusable): (&[Counts], &[bool])| {
        (!unusable.contains(&true)).then(|| decide(Rate::Mbit1, symbol).number)
    };
    counts.windows(11).zip(unusable.windows(11)).take(places).map(decided).collect()
}

/// The front from an offset on, by the symbols at all places: rate, octets and header; none if it is refused, with 8 to
/// 15. The front is symbols of eleven chips throughout.
fn front_from(kind: Kind, symbols: &[Option<Phase>], offset: usize) -> Option<(Rate, usize, Header)> {
    // The first symbol serves only as reference.
    let mut before = (*symbols.get(offset)?)?;
    let mut scrambled = Vec::with_capacity(2 * kind.front_chips() / 11);
    for symbol in 0..kind.front_chips() / 11 {
        let phase = (*symbols.get(offset + 11 * symbol)?)?;
        let rate = if symbol < kind.bits_before_header() { Rate::Mbit1 } else { kind.header_rate() };
        receive(rate, symbol, before, phase, &mut scrambled)?;
        before = phase;
    }
    let front = front_of(kind, &scrambled).ok()?;
    told_by(&front, Who::Ours).ok().map(|(rate, n)| (rate, n, front.header))
}
