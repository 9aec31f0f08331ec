//! # Bits to phases
//!
//! What a symbol's bits do to the phase, at each rate, and the way back.

use crate::chips::{growth, turned, Counts, Phase};
use crate::symbols::{barker, cck, cck_phases, choose, Choice, ALLOWED_11, ALLOWED_5_5, ALLOWED_BARKER};

#[derive(Clone, Copy, PartialEq, Eq, Debug)]
pub enum Rate {
    Mbit1,
    Mbit2,
    Mbit5_5,
    Mbit11,
}

impl Rate {
    pub const ALL: [Rate; 4] = [Rate::Mbit1, Rate::Mbit2, Rate::Mbit5_5, Rate::Mbit11];

    pub fn bits_per_symbol(self) -> usize {
        match self {
            Rate::Mbit1 => 1,
            Rate::Mbit2 => 2,
            Rate::Mbit5_5 => 4,
            Rate::Mbit11 => 8,
        }
    }

    pub fn chips_per_symbol(self) -> usize {
        match self {
            Rate::Mbit1 | Rate::Mbit2 => 11,
            Rate::Mbit5_5 | Rate::Mbit11 => 8,
        }
    }
}

/// 1 Mbit/s: the phase grows by 0 for bit 0, by 2 for bit 1.
pub fn growth_of_bit(bit: u8) -> Phase {
    2 * bit
}

/// Two bits, first in time first, used at 2 Mbit/s and for p1 of CCK.
pub fn growth_of_two(d0: u8, d1: u8) -> Phase {
    match (d0, d1) {
        (0, 0) => 0,
        (0, 1) => 1,
        (1, 1) => 2,
        _ => 3,
    }
}

/// The two bits that make a growth.
pub fn two_of_growth(growth: Phase) -> [u8; 2] {
    [[0, 0], [0, 1], [1, 1], [1, 0]][usize::from(growth)]
}

/// CCK symbols are numbered from 0 at the first payload symbol. Odd ones grow by 2 more.
pub fn half_turn(symbol: usize) -> Phase {
    if symbol % 2 == 1 {
        2
    } else {
        0
    }
}

/// 11 Mbit/s: two bits give p2, p3 or p4 directly: 00 is 0, 01 is 1, 10 is 2, 11 is 3.
pub fn direct(first: u8, second: u8) -> Phase {
    2 * first + second
}

/// Sends one symbol: its number among the payload's symbols matters for CCK only.
pub fn send(rate: Rate, symbol: usize, bits: &[u8], phase: &mut Phase, chips: &mut Vec<Phase>) {
    let grown = match rate {
        Rate::Mbit1 => growth_of_bit(bits[0]),
        Rate::Mbit2 => growth_of_two(bits[0], bits[1]),
        Rate::Mbit5_5 | Rate::Mbit11 => growth_of_two(bits[0], bits[1]) + half_turn(symbol),
    };
    *phase = turned(*phase, grown);
    match rate {
        Rate::Mbit1 | Rate::Mbit2 => chips.extend(barker(*phase)),
        // p2 = 2·d2+1, p3 = 0, p4 = 2·d3
        Rate::Mbit5_5 => chips.extend(cck(*phase, 2 * bits[2] + 1, 0, 2 * bits[3])),
        Rate::Mbit11 => {
            let (p2, p3, p4) = (direct(bits[2], bits[3]), direct(bits[4], bits[5]), direct(bits[6], bits[7]));
            chips.extend(cck(*phase, p2, p3, p4));
        }
    }
}

/// The symbol decided among the words allowed at the rate, and its lead.
pub fn decide(rate: Rate, chips: &[Counts]) -> Choice {
    let eleven = || chips.try_into().expect("a Barker symbol has 11 chips");
    let eight = || chips.try_into().expect("a CCK symbol has 8 chips");
    match rate {
        Rate::Mbit1 | Rate::Mbit2 => choose(&ALLOWED_BARKER, eleven()),
        Rate::Mbit5_5 => choose(&ALLOWED_5_5, eight()),
        Rate::Mbit11 => choose(&ALLOWED_11, eight()),
    }
}

/// The symbol phase: p of a Barker symbol, p1 of a CCK word.
pub fn symbol_phase(rate: Rate, number: u8) -> Phase {
    match rate {
        Rate::Mbit1 | Rate::Mbit2 => number,
        Rate::Mbit5_5 | Rate::Mbit11 => cck_phases(number).0,
    }
}

/// The bits of a decided symbol that grew from the phase before it, or none for a 1 Mbit/s symbol grown by 1 or 3.
pub fn receive(rate: Rate, symbol: usize, before: Phase, number: u8, bits: &mut Vec<u8>) -> Option<()> {
    let grown = growth(before, symbol_phase(rate, number));
    let (_, p2, p3, p4) = cck_phases(number);
    match rate {
        Rate::Mbit1 if grown % 2 == 1 => return None,
        Rate::Mbit1 => bits.push(grown / 2),
        Rate::Mbit2 => bits.extend(two_of_growth(grown)),
        Rate::Mbit5_5 => {
            bits.extend(two_of_growth(turned(grown, half_turn(symbol))));
            bits.extend([p2 / 2, p4 / 2]);
        }
        Rate::Mbit11 => {
            bits.extend(two_of_growth(turned(grown, half_turn(symbol))));
            bits.extend([p2 / 2, p2 % 2, p3 / 2, p3 % 2, p4 / 2, p4 % 2]);
        }
    }
    Some(())
}
