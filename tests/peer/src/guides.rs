//! What is met of reads as the guides of 1997 read, by what is expected of them, and how they go together with a hard
//! read of the same recording, whatever this program expects.

use crate::bits::{decide, Rate};
use crate::calls::{Answer, Call};
use crate::chips::{growth, Counts, Phase, Recording};
use crate::coming::coming;
use crate::compare_calls::trimmed;
use crate::frame::{number_of, unscramble, Kind};
use crate::refusals::{CRC, FRONT, GROWTH, MOST_OCTETS, SERVICE, SFD, SIGNAL, UNUSABLE};
use crate::relations::Held;
use std::collections::BTreeMap;

/// What was met of a read as the guides read, or was seen to hold of one.
#[derive(Clone, Copy, PartialEq, Eq, PartialOrd, Ord)]
pub enum Guided {
    /// A SIGNAL refused with 13, SERVICE being 0; whether LENGTH is one that no payload has.
    Signal { signal: u8, no_length: bool },
    /// A SERVICE at one of our rates, refused with 13 or 14; whether LENGTH is one that no payload has.
    Service { rate: u8, service: u8, no_length: bool },
    /// Refused with this number, 8 to 12, although the header would be refused with 13 or 14.
    Before { number: u64, later: u64 },
    /// Refused with this number, although a short read accepts the front.
    ShortFront { number: u64 },
    /// The record and the octets are those of our read, with this number; whether its place is in the payload.
    Alike { number: u64, payload: bool },
    /// Refused with 13 or 14, where our read answers this number with the same LENGTH.
    Apart { number: u64, ours: u64 },
}

/// Counts what is met of a read as the guides read, by what is expected of it.
pub fn count(call: &Call, expected: &Answer, held: &mut BTreeMap<Held, u64>) {
    let Call::Read1997 { chips, .. } = call else { return };
    let (number, length) = (expected.numbers[0], expected.numbers[3]);
    let mut met: Vec<Guided> = fields(chips).and_then(|fields| by_fields(fields, number, length)).into_iter().collect();
    if [FRONT, GROWTH, SFD].contains(&number) && coming(Kind::Short.number(), chips).number == 0 {
        met.push(Guided::ShortFront { number });
    }
    met.into_iter().for_each(|what| *held.entry(Held::Guides(what)).or_default() += 1);
}

/// SIGNAL and SERVICE as the symbols of a long front have them, whatever else is wrong with it, if it goes so far. The
/// scrambler reaches seven symbols back, and the first of these grows from the one before it.
fn fields(chips: &[u8]) -> Option<(u8, u8)> {
    let (from, to) = (Kind::Long.bits_before_header() - 8, Kind::Long.bits_before_header() + 16);
    let counts = |chip: &u8| Recording::Hard(&[*chip]).chip(0).map_or((0, 0), |chip| chip.counts());
    let phase = |symbol: &[u8]| decide(Rate::Mbit1, &symbol.iter().map(counts).collect::<Vec<Counts>>()).number;
    let phases: Vec<Phase> = chips.get(11 * from..11 * to)?.chunks(11).map(phase).collect();
    let scrambled: Vec<u8> = phases.windows(2).map(|two| growth(two[0], two[1]) / 2).collect();
    let bits = unscramble(&scrambled);
    Some((number_of(&bits[7..15]) as u8, number_of(&bits[15..]) as u8))
}

fn by_fields((signal, service): (u8, u8), number: u64, length: u64) -> Option<Guided> {
    let later = match (signal, service) {
        (10 | 20, 0) => return None,
        (10 | 20, _) => SERVICE,
        _ => SIGNAL,
    };
    let no_length = no_payload_has(signal, service, length as u16);
    match number {
        FRONT | UNUSABLE | GROWTH | SFD | CRC => Some(Guided::Before { number, later }),
        _ if Rate::of_code(u64::from(signal)).is_some() => Some(Guided::Service { rate: signal, service, no_length }),
        _ => (service == 0).then_some(Guided::Signal { signal, no_length }),
    }
}

/// Whether no payload has this LENGTH: at the rate of SIGNAL, or, where that is none, at 10 and 20.
fn no_payload_has(signal: u8, service: u8, length: u16) -> bool {
    let known = [Rate::Mbit1, Rate::Mbit2];
    let has = |rate: &Rate| {
        let n = rate.octets_of(length, *rate == Rate::Mbit11 && service >> 7 == 1);
        (1..=MOST_OCTETS as i64).contains(&n) && rate.length_of(n as usize).0 == usize::from(length)
    };
    !Rate::of_code(u64::from(signal)).map_or(known.iter().any(has), |rate| has(&rate))
}

/// A hard read of a long front: its recording and room, and what it answered and left.
struct Ours {
    chips: Vec<u8>,
    room: usize,
    numbers: Vec<u64>,
    octets: Vec<u8>,
}

/// The last hard read of a long front, to which a read as the guides read is held.
#[derive(Default)]
pub struct Guides {
    ours: Option<Ours>,
}

impl Guides {
    pub fn hold(&mut self, call: &Call, answer: &Answer) -> Result<Option<Guided>, &'static str> {
        match call {
            Call::ReadHard { kind: 0, chips, octets_len } => {
                let (numbers, octets) = (answer.numbers.clone(), trimmed(&answer.buffer));
                self.ours = Some(Ours { chips: chips.clone(), room: *octets_len, numbers, octets });
                Ok(None)
            }
            Call::Read1997 { chips, octets_len } => {
                let same = |ours: &&Ours| ours.room == *octets_len && ours.chips == *chips;
                self.ours.as_ref().filter(same).map_or(Ok(None), |ours| ours.beside(answer).map(Some))
            }
            _ => Ok(None),
        }
    }
}

impl Ours {
    /// Alike; or 13 or 14 with our LENGTH and nothing else, where we go on behind the CRC: 13 at the rates 55 and 110
    /// that we accept, 14 with the clock bit.
    fn beside(&self, answer: &Answer) -> Result<Guided, &'static str> {
        let [number, place, rate, length, .., clock, _, _] = self.numbers[..] else { return Err("a record is short") };
        let [theirs, ..] = answer.numbers[..] else { return Err("a record is short") };
        let payload = place >= Kind::Long.front_chips() as u64;
        let octets = trimmed(&answer.buffer);
        if answer.numbers == self.numbers && octets == self.octets {
            let known = number != 0 || rate <= 20 && clock == 0;
            return if known { Ok(Guided::Alike { number, payload }) } else { Err("accepted, although not of 1997") };
        }
        let in_front = [FRONT, SFD, CRC].contains(&number) || [UNUSABLE, GROWTH].contains(&number) && !payload;
        let fits = match (number, theirs) {
            _ if in_front => false,
            (0, SIGNAL) => rate > 20,
            (0, SERVICE) => rate <= 20 && clock == 1,
            _ => [SIGNAL, SERVICE].contains(&theirs),
        };
        let nothing = answer.numbers == [theirs, 0, 0, length, 0, 0, 0, 0, 0];
        if fits && nothing && octets.is_empty() {
            Ok(Guided::Apart { number: theirs, ours: number })
        } else {
            Err("neither our answer nor 13 or 14 with our LENGTH")
        }
    }
}
