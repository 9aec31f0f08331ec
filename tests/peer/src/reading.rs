//! Reading: from recorded chips back to the payload, with its refusals in their order.

use crate::bits::{decide, receive, symbol_phase, Rate};
use crate::chips::{Counts, Phase, Recording};
use crate::frame::{number_highest_first, number_of, unscramble, Header, Kind};
use crate::refusals;
use crate::symbols::Choice;

/// The answer of a read. A refusal sets number, place and LENGTH as the table says; all else is 0.
#[derive(Default, PartialEq, Eq, Debug)]
pub struct Read {
    pub number: u64,
    pub place: u64,
    pub rate: u64,
    pub length: u64,
    pub n: u64,
    pub used: u64,
    /// The clock bit of a good read.
    pub clock: u64,
    /// The smallest lead in the frame of a good read, in counts.
    pub lead: u64,
    /// The first symbol that has it, counted from 0 at the frame's first.
    pub symbol: u64,
    /// The n of a good header, in refusals of the payload too; no member of the answer's record.
    pub told: u64,
    /// Whether the clock bit stood in a header with a right CRC, whatever came of it; no member either.
    pub clock_read: bool,
    /// The leads of the symbols that were decided, from the frame's first on, refused or not; no member either.
    pub leads: Vec<i32>,
}

impl Read {
    fn refused(number: u64) -> Read {
        Read { number, ..Read::default() }
    }

    fn refused_at((number, place): (u64, usize)) -> Read {
        Read { number, place: place as u64, ..Read::default() }
    }
}

/// Who reads. The guides of 1997 know only the long preamble, the rates 10 and 20, and a SERVICE of 0.
#[derive(Clone, Copy)]
pub enum Who {
    Ours,
    Guides,
}

impl Who {
    /// Whether SIGNAL may be this rate in a front of this kind.
    fn know(self, kind: Kind, rate: Rate) -> bool {
        match self {
            Who::Ours => kind.has(rate),
            Who::Guides => [Rate::Mbit1, Rate::Mbit2].contains(&rate),
        }
    }

    /// What SERVICE may be at a rate.
    fn services(self, rate: Rate) -> &'static [u8] {
        match (self, rate) {
            (Who::Guides, _) => &[0],
            (Who::Ours, Rate::Mbit11) => &[0, 4, 128, 132],
            (Who::Ours, _) => &[0, 4],
        }
    }
}

/// A hard recording read as the guides of 1997 do, who take no kind: their fronts are long.
pub fn read_1997(chips: &[u8], octets: &mut [u8]) -> Read {
    read_by(Who::Guides, Kind::Long.number(), Recording::Hard(chips), octets)
}

pub fn read(kind: u64, recording: Recording, octets: &mut [u8]) -> Read {
    read_by(Who::Ours, kind, recording, octets)
}

/// A good read leaves 0 past the n octets, a refusal leaves the octet buffer zeros.
fn read_by(who: Who, kind: u64, recording: Recording, octets: &mut [u8]) -> Read {
    octets.fill(0);
    let mut heard = Heard::default();
    let read = match read_front(kind, recording, &mut heard) {
        Ok(front) => read_behind(who, front, recording, &mut heard, octets),
        Err(refused) => refused,
    };
    Read { leads: heard.leads, ..read }
}

/// What is heard of the symbols so far: their scrambled bits in sending order, the last one's phase, their leads.
#[derive(Default)]
pub struct Heard {
    scrambled: Vec<u8>,
    phase: Phase,
    leads: Vec<i32>,
}

impl Heard {
    /// 10: decides a run of symbols at one rate that starts at a place.
    fn symbols(&mut self, rate: Rate, counts: &[Counts], start: usize) -> Result<(), Read> {
        for (symbol, chips) in counts.chunks(rate.chips_per_symbol()).enumerate() {
            let Choice { number, lead } = decide(rate, chips);
            let place = start + symbol * rate.chips_per_symbol();
            let bits = receive(rate, symbol, self.phase, number, &mut self.scrambled);
            bits.ok_or(Read::refused_at((refusals::GROWTH, place)))?;
            self.phase = symbol_phase(rate, number);
            self.leads.push(lead);
        }
        Ok(())
    }
}

/// The smallest of a frame's leads, and the number of the first symbol that has it.
pub fn smallest(leads: &[i32]) -> (u64, u64) {
    let smallest = leads.iter().min().expect("a frame has symbols");
    let first = leads.iter().position(|lead| lead == smallest).expect("one has it");
    (*smallest as u64, first as u64)
}

/// What a front with a right CRC holds.
pub struct Front {
    pub kind: Kind,
    pub header: Header,
}

/// 1, 7, 8, then 9 and 10 over the front, 11, 12.
pub fn read_front(kind: u64, recording: Recording, heard: &mut Heard) -> Result<Front, Read> {
    let kind = Kind::of_number(kind).ok_or(Read::refused(refusals::KIND))?;
    if recording.unpaired() {
        return Err(Read::refused(refusals::ROWS));
    }
    if recording.chips() < kind.front_chips() {
        return Err(Read::refused(refusals::FRONT));
    }
    let counts = usable_counts(recording, 0, kind.front_chips()).map_err(Read::refused_at)?;

    // The first symbol serves only as reference: taken as grown by 0, its bit reaches SYNC bits only.
    heard.phase = decide(Rate::Mbit1, &counts[..11]).number;
    let (before_header, header) = counts.split_at(11 * kind.bits_before_header());
    heard.symbols(Rate::Mbit1, before_header, 0)?;
    heard.symbols(kind.header_rate(), header, before_header.len())?;

    front_of(kind, &heard.scrambled).map_err(Read::refused)
}

/// 11, 12: what the front's scrambled bits hold, or the refusal's number. SYNC bits aren't compared.
pub fn front_of(kind: Kind, scrambled: &[u8]) -> Result<Front, u64> {
    let bits = unscramble(scrambled);
    let (before_header, header_bits) = bits.split_at(kind.bits_before_header());
    if number_of(&before_header[before_header.len() - 16..]) != kind.sfd() {
        return Err(refusals::SFD);
    }
    let header = Header::of_bits(header_bits);
    if number_highest_first(&header_bits[32..]) != header.crc() {
        return Err(refusals::CRC);
    }
    Ok(Front { kind, header })
}

/// 13, 14, 15: the rate and the octets that the front tells who reads, or the refusal's number.
pub fn told_by(front: &Front, who: Who) -> Result<(Rate, usize), u64> {
    let Front { kind, header } = *front;
    let rate = match Rate::of_code(u64::from(header.signal)) {
        Some(rate) if who.know(kind, rate) => rate,
        _ => return Err(refusals::SIGNAL),
    };
    if !who.services(rate).contains(&header.service) {
        return Err(refusals::SERVICE);
    }
    let n = rate.octets_of(header.length, header.bit7());
    if n < 1 || n > refusals::MOST_OCTETS as i64 || Header::written(rate, n as usize, header.clock()) != header {
        return Err(refusals::LENGTH);
    }
    Ok((rate, n as usize))
}

/// 13, 14, 15, then the payload. From 13 on, in the reading order, a refusal shows the LENGTH field.
fn read_behind(who: Who, front: Front, recording: Recording, heard: &mut Heard, octets: &mut [u8]) -> Read {
    let (length, clock) = (u64::from(front.header.length), front.header.clock());
    let (rate, n) = match told_by(&front, who) {
        Ok(told) => told,
        Err(number) => return Read { length, clock_read: clock, ..Read::refused(number) },
    };
    let read = match read_payload(front.kind, rate, n, recording, heard, octets) {
        Ok(used) => {
            let (lead, symbol) = smallest(&heard.leads);
            let (rate, n, clock) = (u64::from(rate.code()), n as u64, u64::from(clock));
            Read { rate, n, used: used as u64, clock, lead, symbol, ..Read::default() }
        }
        Err(refused) => refused,
    };
    Read { length, told: n as u64, clock_read: clock, ..read }
}

/// 16, 17, then 9 and 10 over the payload of a header that is known to be good; the frame's chips.
fn read_payload(
    kind: Kind,
    rate: Rate,
    n: usize,
    recording: Recording,
    heard: &mut Heard,
    octets: &mut [u8],
) -> Result<usize, Read> {
    let used = kind.front_chips() + rate.payload_chips(n);
    if recording.chips() < used {
        return Err(Read::refused(refusals::ENDS));
    }
    if octets.len() < n {
        return Err(Read::refused(refusals::OCTET_BUFFER));
    }
    let counts = usable_counts(recording, kind.front_chips(), used).map_err(Read::refused_at)?;
    let front_bits = heard.scrambled.len();
    heard.symbols(rate, &counts, kind.front_chips())?;

    let bits = unscramble(&heard.scrambled);
    for (octet, octet_bits) in octets.iter_mut().zip(bits[front_bits..].chunks(8)) {
        *octet = number_of(octet_bits) as u8;
    }
    Ok(used)
}

/// 9: the counts of a part's chips, or the place of its first unusable chip.
fn usable_counts(recording: Recording, from: usize, to: usize) -> Result<Vec<Counts>, (u64, usize)> {
    let counts = |place| recording.chip(place).map(|chip| chip.counts()).ok_or((refusals::UNUSABLE, place));
    (from..to).map(counts).collect()
}
