//! Why a read of a hard recording is refused, with room for so many octets: its number and place, what was expected and
//! what was found.
//!
//! Number and place are those of a full read with a buffer of that room, which is a number here: no buffer is lent, and
//! every number has an answer. Of a good read all four are 0.

use crate::bits::{decide, receive, Rate};
use crate::chips::{growth, Counts, Phase, Recording, LOST};
use crate::frame::{crc, number_highest_first, number_of, unscramble, Header, Kind};
use crate::reading::{read_front, told_by, Heard, Read, Who};
use crate::refusals;

#[derive(Default)]
pub struct Reason {
    pub number: u64,
    pub place: u64,
    pub expected: u64,
    pub found: u64,
    /// As in `Read`: no members of the answer.
    pub told: u64,
    pub clock_read: bool,
}

pub fn why(kind: u64, chips: &[u8], room: u64) -> Reason {
    let refused = refusal(kind, chips, room);
    let (expected, found) = table(kind, chips, room, &refused);
    Reason { expected, found, ..refused }
}

/// Number and place: 1 to 15 by the front, then those of the payload.
fn refusal(kind: u64, chips: &[u8], room: u64) -> Reason {
    let front = match read_front(kind, Recording::Hard(chips), &mut Heard::default()) {
        Ok(front) => front,
        Err(Read { number, place, .. }) => return Reason { number, place, ..Reason::default() },
    };
    let clock_read = front.header.clock();
    match told_by(&front, Who::Ours) {
        Ok((rate, n)) => {
            let (number, place) = payload_refusal(front.kind, rate, n, chips, room);
            Reason { number, place: place as u64, told: n as u64, clock_read, ..Reason::default() }
        }
        Err(number) => Reason { number, clock_read, ..Reason::default() },
    }
}

/// 16, 17, then 9 and 10 over the payload, with their places. Only at 1 Mbit/s a symbol is refused.
fn payload_refusal(kind: Kind, rate: Rate, n: usize, chips: &[u8], room: u64) -> (u64, usize) {
    let (front, used) = (kind.front_chips(), kind.front_chips() + rate.payload_chips(n));
    let Some(part) = chips.get(front..used) else { return (refusals::ENDS, 0) };
    if room < n as u64 {
        return (refusals::OCTET_BUFFER, 0);
    }
    if let Some(at) = part.iter().position(|octet| *octet > LOST) {
        return (refusals::UNUSABLE, front + at);
    }
    let mut symbols = (front..used).step_by(11).filter(|_| rate == Rate::Mbit1);
    symbols.find(|place| grown(chips, *place) % 2 == 1).map_or((0, 0), |place| (refusals::GROWTH, place))
}

/// The phase that eleven chips are decided as.
fn phase_at(chips: &[u8], place: usize) -> Phase {
    let counts = |at: usize| Recording::Hard(chips).chip(at).map_or((0, 0), |chip| chip.counts());
    decide(Rate::Mbit1, &(place..place + 11).map(counts).collect::<Vec<Counts>>()).number
}

/// How far the symbol at a place has grown from the one before it.
fn grown(chips: &[u8], place: usize) -> Phase {
    growth(phase_at(chips, place - 11), phase_at(chips, place))
}

/// The table of what is expected and what is found, by the number.
fn table(kind: u64, chips: &[u8], room: u64, refused: &Reason) -> (u64, u64) {
    let Some(of) = Kind::of_number(kind) else { return (0, kind) };
    let (place, present) = (refused.place as usize, chips.len() as u64);
    match refused.number {
        0 => (0, 0),
        refusals::FRONT => (of.front_chips() as u64, present),
        refusals::UNUSABLE => (0, u64::from(chips[place])),
        refusals::GROWTH => (0, u64::from(grown(chips, place))),
        refusals::OCTET_BUFFER => (refused.told, room),
        refusals::ENDS => (frame_chips(of, header_read(of, chips)) as u64, present),
        refusals::SFD | refusals::CRC => check(refused.number, &bits_read(of, chips), of),
        number => field(number, header_read(of, chips)),
    }
}

/// The bits of a front whose growths are all even, unscrambled. The first symbol is taken as grown by 0.
fn bits_read(kind: Kind, chips: &[u8]) -> Vec<u8> {
    let (mut scrambled, mut before) = (Vec::new(), phase_at(chips, 0));
    for symbol in 0..kind.front_chips() / 11 {
        let rate = if symbol < kind.bits_before_header() { Rate::Mbit1 } else { kind.header_rate() };
        let phase = phase_at(chips, 11 * symbol);
        receive(rate, symbol, before, phase, &mut scrambled).expect("no growth of the front is odd");
        before = phase;
    }
    unscramble(&scrambled)
}

/// The header of a front that can be read to its end.
pub fn header_read(kind: Kind, chips: &[u8]) -> Header {
    Header::of_bits(&bits_read(kind, chips)[kind.bits_before_header()..])
}

/// 11: the SFD of the kind, and the one read, both lowest bit first. 12: the CRC worked out over the 32 bits read, and
/// the one read, both as numbers whose first sent bit is the highest.
fn check(number: u64, bits: &[u8], kind: Kind) -> (u64, u64) {
    let (before_header, header) = bits.split_at(kind.bits_before_header());
    let (expected, found) = match number {
        refusals::SFD => (kind.sfd(), number_of(&before_header[before_header.len() - 16..])),
        _ => (crc(&header[..32]), number_highest_first(&header[32..])),
    };
    (expected.into(), found.into())
}

/// The rate and the octets, below 1 too, of a header whose SIGNAL is a rate's.
pub fn rate_and_octets(header: Header) -> (Rate, i64) {
    let rate = Rate::of_code(u64::from(header.signal)).expect("SIGNAL is a rate's");
    (rate, rate.octets_of(header.length, header.bit7()))
}

/// 13: SIGNAL. 14: SERVICE with its allowed bits cleared. 15: the LENGTH that the writer would make for the n read, 0
/// where there is none, and LENGTH.
fn field(number: u64, header: Header) -> (u64, u64) {
    if number == refusals::SIGNAL {
        return (0, u64::from(header.signal));
    }
    let (rate, n) = rate_and_octets(header);
    if number == refusals::SERVICE {
        let allowed = if rate == Rate::Mbit11 { 0x84 } else { 0x04 };
        return (0, u64::from(header.service & !allowed));
    }
    let made = if (1..=refusals::MOST_OCTETS as i64).contains(&n) { rate.length_of(n as usize).0 } else { 0 };
    (made as u64, u64::from(header.length))
}

/// 16: the frame's chips, of a header that is good.
fn frame_chips(kind: Kind, header: Header) -> usize {
    let (rate, n) = rate_and_octets(header);
    kind.front_chips() + rate.payload_chips(n as usize)
}
