//! # How much damage a frame stands
//!
//! Wrong and lost chips, the limit that a symbol keeps, and the damage of a frame: a row of two numbers a symbol.

use crate::bits::Rate;
use crate::chips::{growth, turned, Phase, LOST};
use crate::frame::Kind;

/// A hard chip is wrong where it was recorded as another phase than the one sent, and lost where it was recorded as
/// a 4. An unusable chip is neither: a recording that keeps the limits has none.
#[derive(Clone, Copy, Default, PartialEq, Eq, Debug)]
pub struct Damage {
    pub wrong: u64,
    pub lost: u64,
}

/// Twice its wrong chips plus its lost ones is at most 10 for a Barker symbol, and at most 3 for a CCK symbol.
pub fn limit(rate: Rate) -> u64 {
    match rate {
        Rate::Mbit1 | Rate::Mbit2 => 10,
        Rate::Mbit5_5 | Rate::Mbit11 => 3,
    }
}

impl Damage {
    /// Of one symbol, by its chips as they were sent and as they were recorded.
    pub fn of(sent: &[Phase], recorded: &[u8]) -> Damage {
        let count = |is: fn(Phase, u8) -> bool| {
            sent.iter().zip(recorded).filter(|(sent, recorded)| is(**sent, **recorded)).count() as u64
        };
        Damage {
            wrong: count(|sent, recorded| recorded < LOST && recorded != sent),
            lost: count(|_, recorded| recorded == LOST),
        }
    }

    /// What the limit is asked of.
    pub fn weight(self) -> u64 {
        2 * self.wrong + self.lost
    }

    /// Whether a symbol of a rate keeps its limit.
    pub fn keeps(self, rate: Rate) -> bool {
        self.weight() <= limit(rate)
    }
}

/// The symbols of a frame's chips in their order, front first, each with the rate that says how many chips it has. The
/// front is Barker symbols throughout.
pub fn symbols_of(kind: Kind, rate: Rate, chips: &[u8]) -> impl Iterator<Item = (Rate, &[u8])> {
    let (front, payload) = chips.split_at(kind.front_chips().min(chips.len()));
    let front = front.chunks(Rate::Mbit1.chips_per_symbol()).map(|symbol| (Rate::Mbit1, symbol));
    front.chain(payload.chunks(rate.chips_per_symbol()).map(move |symbol| (rate, symbol)))
}

/// The symbols of a frame, or of its front, each with its rate, as it was sent and as it was recorded.
pub fn beside<'a>(
    kind: Kind,
    rate: Rate,
    sent: &'a [Phase],
    recorded: &'a [u8],
) -> impl Iterator<Item = (Rate, &'a [Phase], &'a [u8])> {
    let both = symbols_of(kind, rate, sent).zip(symbols_of(kind, rate, recorded));
    both.map(|((rate, sent), (_, recorded))| (rate, sent, recorded))
}

/// The damage of a frame, or of its front: each symbol's, in the order of the symbols.
pub fn damage_row(kind: Kind, rate: Rate, sent: &[Phase], recorded: &[u8]) -> Vec<Damage> {
    beside(kind, rate, sent, recorded).map(|(_, sent, recorded)| Damage::of(sent, recorded)).collect()
}

/// Whether as many chips were recorded as were sent, each a phase or a 4, and every symbol keeps its limit.
pub fn keeps_limits(kind: Kind, rate: Rate, sent: &[Phase], recorded: &[u8]) -> bool {
    recorded.len() == sent.len()
        && beside(kind, rate, sent, recorded).all(|(rate, sent, recorded)| {
            recorded.iter().all(|chip| *chip <= LOST) && Damage::of(sent, recorded).keeps(rate)
        })
}

/// What became of each chip of a symbol: how far it was turned, 0 to 3, or LOST.
pub type Pattern<const N: usize> = [u8; N];

/// The pattern by which chips became others, all of them phases or lost.
pub fn pattern_of<const N: usize>(sent: &[Phase; N], recorded: &[u8; N]) -> Pattern<N> {
    std::array::from_fn(|k| if recorded[k] == LOST { LOST } else { growth(sent[k], recorded[k]) })
}

/// Chips as a pattern leaves them.
pub fn spoil(pattern: &[u8], chips: &mut [u8]) {
    for (chip, by) in chips.iter_mut().zip(pattern) {
        *chip = if *by == LOST { LOST } else { turned(*chip, *by) };
    }
}

/// Each pattern of a CCK symbol of which twice the wrong chips plus the lost ones is just so much.
pub fn cck_patterns(weight: u64) -> Vec<Pattern<8>> {
    let weight_of = |pattern: &Pattern<8>| Damage::of(&[0; 8], pattern).weight();
    let mut patterns = vec![[0; 8]];
    for chip in 0..8 {
        let each = patterns.iter().flat_map(|pattern| (0..=LOST).map(move |by| (*pattern, by)));
        let set = each.map(|(mut pattern, by)| {
            pattern[chip] = by;
            pattern
        });
        patterns = set.filter(|pattern| weight_of(pattern) <= weight).collect();
    }
    patterns.retain(|pattern| weight_of(pattern) == weight);
    patterns
}

/// Each pattern of a CCK symbol that keeps the limit.
pub fn cck_patterns_within() -> Vec<Pattern<8>> {
    (0..=limit(Rate::Mbit11)).flat_map(cck_patterns).collect()
}

/// What a Barker symbol's scores go by, wherever its chips stand: how many of them are turned by 1, 2 and 3, and how
/// many are lost.
#[derive(Clone, Copy, PartialEq, Eq, PartialOrd, Ord)]
pub struct Way {
    pub turned: [u8; 3],
    pub lost: u8,
}

impl Way {
    pub fn of(pattern: &Pattern<11>) -> Way {
        let count = |what: u8| pattern.iter().filter(|by| **by == what).count() as u8;
        Way { turned: [1, 2, 3].map(count), lost: count(LOST) }
    }

    /// A pattern of this way: turned chips first, then lost ones, then those that are right.
    pub fn pattern(self) -> Pattern<11> {
        let ([one, two, three], lost) = (self.turned.map(usize::from), usize::from(self.lost));
        let mut pattern = [0; 11];
        pattern[..one].fill(1);
        pattern[one..one + two].fill(2);
        pattern[one + two..one + two + three].fill(3);
        pattern[one + two + three..one + two + three + lost].fill(LOST);
        pattern
    }
}

/// Each way of just so much: as many chips as are not wrong may be lost.
pub fn barker_ways(weight: u64) -> Vec<Way> {
    let mut ways = Vec::new();
    for wrong in 0..=weight / 2 {
        let lost = weight - 2 * wrong;
        if wrong + lost > 11 {
            continue;
        }
        for one in 0..=wrong {
            let each = (0..=wrong - one).map(|two| [one, two, wrong - one - two].map(|count| count as u8));
            ways.extend(each.map(|turned| Way { turned, lost: lost as u8 }));
        }
    }
    ways
}

/// The number of a CCK word by its chips, of which the last is p1, the seventh p1 + p2 + 2, the sixth p1 + p3 and the
/// second p1 + p3 + p4.
pub fn word_of(chips: &[Phase; 8]) -> u8 {
    let p1 = chips[7];
    let (p2, p3, p4) = (growth(turned(p1, 2), chips[6]), growth(p1, chips[5]), growth(chips[5], chips[1]));
    64 * p1 + 16 * p2 + 4 * p3 + p4
}
