//! # The frame
//!
//! Its parts and their sizes, the scrambler, SIGNAL, SERVICE and LENGTH, and the CRC.

use crate::bits::{send, Rate};
use crate::chips::Phase;

#[derive(Clone, Copy, PartialEq, Eq, Debug)]
pub enum Kind {
    Long,
    Short,
}

impl Kind {
    pub const BOTH: [Kind; 2] = [Kind::Long, Kind::Short];

    /// The kind's number at the boundary: 0 is long, 1 is short.
    pub fn number(self) -> u64 {
        match self {
            Kind::Long => 0,
            Kind::Short => 1,
        }
    }

    pub fn of_number(number: u64) -> Option<Kind> {
        Kind::BOTH.into_iter().find(|kind| kind.number() == number)
    }

    /// SYNC, 1 Mbit/s.
    pub fn sync(self) -> Vec<u8> {
        match self {
            Kind::Long => vec![1; 128],
            Kind::Short => vec![0; 56],
        }
    }

    /// SFD, 1 Mbit/s, lowest bit first.
    pub fn sfd(self) -> u16 {
        match self {
            Kind::Long => 0xF3A0,
            Kind::Short => 0x05CF,
        }
    }

    /// The rate of SIGNAL, SERVICE, LENGTH and CRC.
    pub fn header_rate(self) -> Rate {
        match self {
            Kind::Long => Rate::Mbit1,
            Kind::Short => Rate::Mbit2,
        }
    }

    /// The scrambler's start, last output first.
    pub fn scrambler_start(self) -> [u8; 7] {
        match self {
            Kind::Long => [1, 1, 0, 1, 1, 0, 0],
            Kind::Short => [0, 0, 1, 1, 0, 1, 1],
        }
    }

    pub fn front_chips(self) -> usize {
        match self {
            Kind::Long => 2112,
            Kind::Short => 1056,
        }
    }

    /// The bits before the header, SYNC and SFD, each a 1 Mbit/s symbol.
    pub fn bits_before_header(self) -> usize {
        match self {
            Kind::Long => 128 + 16,
            Kind::Short => 56 + 16,
        }
    }

    /// SIGNAL, SERVICE, LENGTH and CRC.
    pub const HEADER_BITS: usize = 8 + 8 + 16 + 16;

    /// The rates of this kind: short excludes 10.
    pub fn has(self, rate: Rate) -> bool {
        self == Kind::Long || rate != Rate::Mbit1
    }
}

impl Rate {
    /// SIGNAL is 10, 20, 55 or 110 for 1, 2, 5.5, 11 Mbit/s; these are also the rate codes.
    pub fn code(self) -> u8 {
        match self {
            Rate::Mbit1 => 10,
            Rate::Mbit2 => 20,
            Rate::Mbit5_5 => 55,
            Rate::Mbit11 => 110,
        }
    }

    pub fn of_code(code: u64) -> Option<Rate> {
        Rate::ALL.into_iter().find(|rate| u64::from(rate.code()) == code)
    }

    /// Payload of n octets: 88n, 44n, 16n, 8n chips.
    pub fn payload_chips(self, n: usize) -> usize {
        match self {
            Rate::Mbit1 => 88 * n,
            Rate::Mbit2 => 44 * n,
            Rate::Mbit5_5 => 16 * n,
            Rate::Mbit11 => 8 * n,
        }
    }

    /// LENGTH in microseconds, and bit 7: at 11 Mbit/s it is 1 exactly when rounding added 8/11 or more.
    pub fn length_of(self, n: usize) -> (usize, bool) {
        match self {
            Rate::Mbit1 => (8 * n, false),
            Rate::Mbit2 => (4 * n, false),
            Rate::Mbit5_5 => (rounded_up(16 * n, 11), false),
            Rate::Mbit11 => {
                let length = rounded_up(8 * n, 11);
                let added_elevenths = 11 * length - 8 * n;
                (length, added_elevenths >= 8)
            }
        }
    }

    /// The reader's n, rounded down, less 1 where bit 7 is 1. LENGTH 0 with bit 7 set gives -1.
    pub fn octets_of(self, length: u16, bit7: bool) -> i64 {
        let length = i64::from(length);
        let whole = match self {
            Rate::Mbit1 => length / 8,
            Rate::Mbit2 => length / 4,
            Rate::Mbit5_5 => length * 11 / 16,
            Rate::Mbit11 => length * 11 / 8,
        };
        whole - i64::from(bit7)
    }
}

/// The quotient rounded up.
fn rounded_up(dividend: usize, divisor: usize) -> usize {
    (dividend + divisor - 1) / divisor
}

/// Octets, SFD, SIGNAL, SERVICE and LENGTH go lowest bit first.
pub fn lowest_first(value: u16, bits: usize) -> impl Iterator<Item = u8> {
    (0..bits).map(move |k| (value >> k & 1) as u8)
}

/// The number that bits make, lowest first.
pub fn number_of(bits: &[u8]) -> u16 {
    bits.iter().rev().fold(0, |value, bit| value << 1 | u16::from(*bit))
}

/// The number that bits make, highest first.
pub fn number_highest_first(bits: &[u8]) -> u16 {
    bits.iter().fold(0, |value, bit| value << 1 | u16::from(*bit))
}

/// The three fields that the CRC covers.
#[derive(Clone, Copy, PartialEq, Eq, Debug)]
pub struct Header {
    pub signal: u8,
    pub service: u8,
    pub length: u16,
}

impl Header {
    /// What the writer makes for n octets. SERVICE is 0 but for bit 2, the clock bit, and bit 7.
    pub fn written(rate: Rate, n: usize, clock: bool) -> Header {
        let (length, bit7) = rate.length_of(n);
        let service = u8::from(clock) << 2 | u8::from(bit7) << 7;
        Header { signal: rate.code(), service, length: length as u16 }
    }

    /// Bit 2 of SERVICE.
    pub fn clock(&self) -> bool {
        self.service >> 2 & 1 == 1
    }

    pub fn bit7(&self) -> bool {
        self.service >> 7 == 1
    }

    /// The 32 header bits in sending order.
    pub fn bits(&self) -> Vec<u8> {
        let signal = lowest_first(u16::from(self.signal), 8);
        let service = lowest_first(u16::from(self.service), 8);
        signal.chain(service).chain(lowest_first(self.length, 16)).collect()
    }

    pub fn of_bits(bits: &[u8]) -> Header {
        Header {
            signal: number_of(&bits[..8]) as u8,
            service: number_of(&bits[8..16]) as u8,
            length: number_of(&bits[16..32]),
        }
    }

    pub fn crc(&self) -> u16 {
        crc(&self.bits())
    }
}

/// CRC: polynomial x^16+x^12+x^5+1, register preset to ones, over the bits in sending order before scrambling,
/// remainder complemented. As a number, its first sent bit is the highest.
pub fn crc(bits: &[u8]) -> u16 {
    const TERMS_BELOW_16: u16 = 1 << 12 | 1 << 5 | 1;
    let mut register = 0xFFFF_u16;
    for bit in bits {
        let carry = register >> 15 ^ u16::from(*bit);
        register <<= 1;
        if carry == 1 {
            register ^= TERMS_BELOW_16;
        }
    }
    !register
}

/// Highest term sent first.
pub fn highest_first(value: u16) -> impl Iterator<Item = u8> {
    (0..16).rev().map(move |k| (value >> k & 1) as u8)
}

/// The bits of a front before scrambling, whatever its parts hold.
pub fn front_bits(sync: &[u8], sfd: u16, header: &Header, crc: u16) -> Vec<u8> {
    let mut bits = sync.to_vec();
    bits.extend(lowest_first(sfd, 16));
    bits.extend(header.bits());
    bits.extend(highest_first(crc));
    bits
}

/// Every bit of the frame is scrambled in one run: output = bit xor the output 4 back xor the output 7 back.
pub fn scramble(start: [u8; 7], bits: &[u8]) -> Vec<u8> {
    let mut outputs: Vec<u8> = start.into_iter().rev().collect();
    for bit in bits {
        let end = outputs.len();
        outputs.push(bit ^ outputs[end - 4] ^ outputs[end - 7]);
    }
    outputs.split_off(start.len())
}

/// Reading undoes it likewise. The outputs before the first are taken as 0: they reach SYNC bits only.
pub fn unscramble(outputs: &[u8]) -> Vec<u8> {
    let back = |k: usize, by: usize| if k >= by { outputs[k - by] } else { 0 };
    (0..outputs.len()).map(|k| outputs[k] ^ back(k, 4) ^ back(k, 7)).collect()
}

/// The chips of a frame from the bits of its front and the octets of its payload. The first symbol grows from the
/// starting phase, every later one from the symbol before it, across all changes of rate.
pub fn frame_chips(kind: Kind, rate: Rate, start: Phase, front: &[u8], payload: &[u8]) -> Vec<Phase> {
    let mut bits = front.to_vec();
    bits.extend(payload.iter().flat_map(|octet| lowest_first(u16::from(*octet), 8)));
    let bits = scramble(kind.scrambler_start(), &bits);
    let (before_header, rest) = bits.split_at(kind.bits_before_header());
    let (header, payload_bits) = rest.split_at(Kind::HEADER_BITS);

    let mut phase = start;
    let mut chips = Vec::with_capacity(kind.front_chips() + rate.payload_chips(payload.len()));
    for (part_rate, part) in [(Rate::Mbit1, before_header), (kind.header_rate(), header), (rate, payload_bits)] {
        for (symbol, symbol_bits) in part.chunks(part_rate.bits_per_symbol()).enumerate() {
            send(part_rate, symbol, symbol_bits, &mut phase, &mut chips);
        }
    }
    chips
}
