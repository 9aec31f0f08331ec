//! What is coming: the front of a hard recording alone, and the part of the recording that holds the payload's chips.
//!
//! Looked for are 1, 8, then 9 and 10 over the front, 11, 12, 13, 14, 15, 16: the order of reading without 17 and
//! without the payload's 9 and 10. No chip behind the front is looked at.

use crate::chips::Recording;
use crate::reading::{read_front, told_by, Heard, Read, Who};
use crate::refusals;

/// What is told. Of a refusal the part is empty, and all but number, place and LENGTH is 0.
#[derive(Default)]
pub struct Coming<'a> {
    pub number: u64,
    pub place: u64,
    pub rate: u64,
    pub length: u64,
    pub clock: u64,
    pub n: u64,
    /// The chips of the whole frame.
    pub used: u64,
    /// Where the part begins, in chips from the recording's start.
    pub at: u64,
    pub part: &'a [u8],
    /// As in `Read`: no members of the answer.
    pub told: u64,
    pub clock_read: bool,
}

/// What is coming in a hard recording. 16 compares the recording's length with the chips of the whole frame.
pub fn coming(kind: u64, chips: &[u8]) -> Coming<'_> {
    let front = match read_front(kind, Recording::Hard(chips), &mut Heard::default()) {
        Ok(front) => front,
        Err(Read { number, place, .. }) => return Coming { number, place, ..Coming::default() },
    };
    let header = front.header;
    let (length, clock_read) = (u64::from(header.length), header.clock());
    let (rate, n) = match told_by(&front, Who::Ours) {
        Ok(told) => told,
        Err(number) => return Coming { number, length, clock_read, ..Coming::default() },
    };
    let told = n as u64;
    let (at, used) = (front.kind.front_chips(), front.kind.front_chips() + rate.payload_chips(n));
    let Some(part) = chips.get(at..used) else {
        return Coming { number: refusals::ENDS, length, told, clock_read, ..Coming::default() };
    };
    let (rate, clock) = (u64::from(rate.code()), u64::from(clock_read));
    let (used, at) = (used as u64, at as u64);
    Coming { rate, length, clock, n: told, used, at, part, told, clock_read, ..Coming::default() }
}
