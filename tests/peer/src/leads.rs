//! Where the smallest leads stand, in which symbols and at which rates, which words come next behind the winners, and
//! what refused reads keep to themselves.

use crate::bits::Rate;
use crate::calls::{Answer, Call};
use crate::chips::{growth, Counts, Recording};
use crate::frame::Kind;
use crate::reading::smallest;
use crate::symbols::{cck_phases, choose, scores, Choice, Numbered, ALLOWED_11, ALLOWED_5_5, ALLOWED_BARKER};
use std::collections::BTreeMap;

/// Where a symbol stands.
#[derive(Clone, Copy, PartialEq, Eq, PartialOrd, Ord)]
pub enum Stands {
    /// The frame's first symbol, which is only a reference.
    First,
    /// SYNC or SFD, behind the first.
    Preamble,
    Header,
    Payload,
}

impl Stands {
    fn of(kind: Kind, symbol: usize) -> Stands {
        match symbol {
            0 => Stands::First,
            _ if symbol < kind.bits_before_header() => Stands::Preamble,
            _ if symbol < kind.front_chips() / 11 => Stands::Header,
            _ => Stands::Payload,
        }
    }
}

/// What is counted of a read. All but the last are of good reads, by their smallest lead.
#[derive(Clone, Copy, PartialEq, Eq, PartialOrd, Ord)]
pub enum Lead {
    /// One symbol alone has it; the payload's rate code.
    Alone(Stands, u64),
    /// One symbol alone has it, this one of a front of the kind.
    InFront(u64, usize),
    /// One symbol alone has it, in the payload at this place among 64; the rate code, 10 for 20 too.
    At(u64, usize),
    /// Several symbols have it, the first of them here.
    Shared(Stands),
    /// A symbol of the front has it, and one of the payload too.
    InBoth,
    /// It is 0, first here.
    Tied(Stands),
    /// At 5.5 Mbit/s: another would be told if words that aren't allowed took part.
    OfAllowed,
    /// It is above 0, and one word alone comes next behind the winner. By the rate code 55 or 110: the phase in which
    /// alone the two are apart, 1 to 4, or 0 for several; by 10, of all Barker symbols: how far the other is turned.
    Next(u64, u8),
    /// It stands at this symbol or a later one.
    From(u64),
    /// It is more than so many counts.
    Above(u64),
    /// A read is refused with this number behind symbols that have leads.
    Kept(u64),
}

/// Symbol numbers and leads from which on a narrower number would not do.
pub const FROM: [u64; 2] = [256, 32_768];
pub const ABOVE: [u64; 2] = [32_767, 65_535];

/// How often each was seen of each op.
pub type Won = BTreeMap<(&'static str, Lead), u64>;

/// Counts what a read tells of its leads, or keeps to itself, by what is expected of it.
pub fn count(call: &Call, expected: &Answer, leads: &[i32], won: &mut Won) {
    let Some(recording) = call.recording() else { return };
    let mut see = |what: Lead| *won.entry((call.op(), what)).or_default() += 1;
    match expected.numbers[..] {
        [0, _, rate, _, n, used, ..] => {
            let rate = Rate::of_code(rate).expect("a rate of a good read");
            let front = used as usize - rate.payload_chips(n as usize);
            let kind = Kind::BOTH.into_iter().find(|kind| kind.front_chips() == front).expect("a front of a good read");
            count_good(kind, rate, leads, &mut see);
            count_next(kind, rate, recording, smallest(leads), &mut see);
            if rate == Rate::Mbit5_5 && smallest(&among_all(kind, recording, leads)) != smallest(leads) {
                see(Lead::OfAllowed);
            }
        }
        [number, ..] if !leads.is_empty() && smallest(leads) != (0, 0) => see(Lead::Kept(number)),
        _ => {}
    }
}

fn count_good(kind: Kind, rate: Rate, leads: &[i32], see: &mut impl FnMut(Lead)) {
    let (lead, first) = smallest(leads);
    let stands = |symbol: usize| Stands::of(kind, symbol);
    let sharing: Vec<usize> = (0..leads.len()).filter(|symbol| leads[*symbol] as u64 == lead).collect();
    match sharing[..] {
        [alone] => {
            see(Lead::Alone(stands(alone), u64::from(rate.code())));
            see(place(kind, rate, alone));
        }
        _ => see(Lead::Shared(stands(sharing[0]))),
    }
    if stands(sharing[0]) != Stands::Payload && stands(sharing[sharing.len() - 1]) == Stands::Payload {
        see(Lead::InBoth);
    }
    if lead == 0 {
        see(Lead::Tied(stands(sharing[0])));
    }
    FROM.into_iter().filter(|from| first >= *from).for_each(|from| see(Lead::From(from)));
    ABOVE.into_iter().filter(|above| lead > *above).for_each(|above| see(Lead::Above(above)));
}

/// The place of a symbol that alone has the smallest lead.
fn place(kind: Kind, rate: Rate, symbol: usize) -> Lead {
    match symbol.checked_sub(kind.front_chips() / 11) {
        None => Lead::InFront(kind.number(), symbol),
        Some(behind) if rate == Rate::Mbit2 => Lead::At(10, behind % 64),
        Some(behind) => Lead::At(u64::from(rate.code()), behind % 64),
    }
}

/// The counts of a symbol that starts at a place of a good read.
fn symbol_at<const N: usize>(recording: Recording, place: usize) -> [Counts; N] {
    std::array::from_fn(|k| recording.chip(place + k).map_or((0, 0), |chip| chip.counts()))
}

/// The word that wins, and the other one if one alone comes next.
fn next<const N: usize>(allowed: &[Numbered<N>], chips: [Counts; N]) -> Option<(u8, u8)> {
    let Choice { number, lead } = choose(allowed, &chips);
    let most = scores(allowed, &chips).map(|(_, score)| score).max().expect("several words are allowed");
    let behind = scores(allowed, &chips).filter(|(other, score)| *other != number && *score == most - lead);
    let behind: Vec<u8> = behind.map(|(other, _)| other).collect();
    (behind.len() == 1).then(|| (number, behind[0]))
}

/// The phase in which alone two words are apart, 1 to 4; 0 if they are in several.
fn apart((one, other): (u8, u8)) -> u8 {
    let ((p1, p2, p3, p4), (q1, q2, q3, q4)) = (cck_phases(one), cck_phases(other));
    match [p1 != q1, p2 != q2, p3 != q3, p4 != q4] {
        [true, false, false, false] => 1,
        [false, true, false, false] => 2,
        [false, false, true, false] => 3,
        [false, false, false, true] => 4,
        _ => 0,
    }
}

fn count_next(kind: Kind, rate: Rate, recording: Recording, (lead, symbol): (u64, u64), see: &mut impl FnMut(Lead)) {
    let (front, symbol) = (kind.front_chips() / 11, symbol as usize);
    let rate = if symbol < front { Rate::Mbit1 } else { rate };
    let behind_front = || kind.front_chips() + 8 * (symbol - front);
    let (code, seen) = match rate {
        Rate::Mbit11 => (110, next(&ALLOWED_11, symbol_at(recording, behind_front())).map(apart)),
        Rate::Mbit5_5 => (55, next(&ALLOWED_5_5, symbol_at(recording, behind_front())).map(apart)),
        _ => (10, next(&ALLOWED_BARKER, symbol_at(recording, 11 * symbol)).map(|(one, other)| growth(one, other))),
    };
    seen.filter(|_| lead > 0).into_iter().for_each(|apart| see(Lead::Next(code, apart)));
}

/// The leads of a frame of 5.5 Mbit/s if they were taken over all 256 words.
fn among_all(kind: Kind, recording: Recording, leads: &[i32]) -> Vec<i32> {
    let (front, symbols) = (kind.front_chips(), kind.front_chips() / 11);
    let mut all = leads[..symbols].to_vec();
    for symbol in 0..leads.len() - symbols {
        let chips = symbol_at(recording, front + 8 * symbol);
        let number = choose(&ALLOWED_5_5, &chips).number;
        let of = |wins: bool| scores(&ALLOWED_11, &chips).filter(move |(word, _)| (*word == number) == wins);
        let most = |wins: bool| of(wins).map(|(_, score)| score).max().expect("256 words");
        all.push((most(true) - most(false)).max(0));
    }
    all
}
