//! # Symbols
//!
//! Barker symbols of 11 chips, CCK words of 8 chips, their numbers, the choice among the allowed ones, and its lead.

use crate::chips::{Counts, Phase};

/// A symbol's number and its chips.
pub type Numbered<const N: usize> = (u8, [Phase; N]);

/// Barker, 11 chips, leftmost first: with symbol phase p a plus is chip p and a minus chip p+2.
pub const fn barker(p: Phase) -> [Phase; 11] {
    const SIGNS: [u8; 11] = *b"+-++-+++---";
    let mut chips = [0; 11];
    let mut k = 0;
    while k < 11 {
        chips[k] = if SIGNS[k] == b'+' { p } else { (p + 2) % 4 };
        k += 1;
    }
    chips
}

/// CCK, 8 chips, first in time first. The symbol phase is p1.
pub const fn cck(p1: Phase, p2: Phase, p3: Phase, p4: Phase) -> [Phase; 8] {
    [
        (p1 + p2 + p3 + p4) % 4,
        (p1 + p3 + p4) % 4,
        (p1 + p2 + p4) % 4,
        (p1 + p4 + 2) % 4,
        (p1 + p2 + p3) % 4,
        (p1 + p3) % 4,
        (p1 + p2 + 2) % 4,
        p1,
    ]
}

/// The number of a word is 64·p1 + 16·p2 + 4·p3 + p4; this gives p1 to p4 back.
pub const fn cck_phases(number: u8) -> (Phase, Phase, Phase, Phase) {
    (number / 64, number / 16 % 4, number / 4 % 4, number % 4)
}

/// Allowed for Barker: the four phases, at 1 Mbit/s also. The number of a Barker symbol is p.
pub static ALLOWED_BARKER: [Numbered<11>; 4] = [(0, barker(0)), (1, barker(1)), (2, barker(2)), (3, barker(3))];

/// Allowed at 11 Mbit/s: all 256 words, in the order of their numbers.
pub static ALLOWED_11: [Numbered<8>; 256] = {
    let mut words = [(0, [0; 8]); 256];
    let mut number = 0;
    while number < 256 {
        let (p1, p2, p3, p4) = cck_phases(number as u8);
        words[number] = (number as u8, cck(p1, p2, p3, p4));
        number += 1;
    }
    words
};

/// Allowed at 5.5 Mbit/s: the 16 words with p3 = 0, p2 odd, p4 even, in the order of their numbers.
pub static ALLOWED_5_5: [Numbered<8>; 16] = {
    let mut words = [(0, [0; 8]); 16];
    let (mut found, mut number) = (0, 0);
    while number < 256 {
        let (p1, p2, p3, p4) = cck_phases(number as u8);
        if p3 == 0 && p2 % 2 == 1 && p4 % 2 == 0 {
            words[found] = (number as u8, cck(p1, p2, p3, p4));
            found += 1;
        }
        number += 1;
    }
    assert!(found == 16);
    words
};

/// What each allowed word scores: the sum over its chips of I, Q, -I or -Q counts, as the word's chip is 0, 1, 2 or 3.
pub fn scores<'a, const N: usize>(
    allowed: &'a [Numbered<N>],
    chips: &[Counts; N],
) -> impl Iterator<Item = (u8, i32)> + 'a {
    let parts = chips.map(|(i, q)| [i, q, -i, -q]);
    let score = move |word: &[Phase; N]| -> i32 { (0..N).map(|k| parts[k][usize::from(word[k])]).sum() };
    allowed.iter().map(move |(number, word)| (*number, score(word)))
}

/// What a symbol is decided as: the number of the word that wins, and its lead in counts.
#[derive(Clone, Copy, PartialEq, Eq, Debug)]
pub struct Choice {
    pub number: u8,
    pub lead: i32,
}

/// Deciding a symbol: the largest score wins; among equals, the smallest number. The lead is that score less the best
/// among the other allowed words: the winner alone is left out, so that it is 0 where another word scores the same.
pub fn choose<const N: usize>(allowed: &[Numbered<N>], chips: &[Counts; N]) -> Choice {
    let (mut winner, mut best_of_others) = ((0, i32::MIN), i32::MIN);
    for (number, reached) in scores(allowed, chips) {
        if reached > winner.1 {
            (best_of_others, winner) = (winner.1, (number, reached));
        } else {
            best_of_others = best_of_others.max(reached);
        }
    }
    Choice { number: winner.0, lead: winner.1 - best_of_others }
}

/// All words that share the largest score, in the order of their numbers: the first of them is the one that wins.
pub fn tied<const N: usize>(allowed: &[Numbered<N>], chips: &[Counts; N]) -> Vec<u8> {
    let most = scores(allowed, chips).map(|(_, reached)| reached).max();
    scores(allowed, chips).filter(|(_, reached)| Some(*reached) == most).map(|(number, _)| number).collect()
}
