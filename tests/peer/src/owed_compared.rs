//! What a whole run owes of comparisons: lists that fit exactly, with a place or two more, and those that are a place,
//! two or an entry short, or have no row; one recording refused, either, with each number; both refused, with each two
//! numbers; lengths and payloads that differ either way; each octet listed of either; differences at each place of a
//! block, last and far; and comparisons that go together with full reads, with their lists, with themselves, with the
//! same exchanged and with frames that were written.

use crate::bridge::Outcome;
use crate::compared::Compared::{
    self, Accepted, All, Alone, AsRead, BehindFrames, BothRefused, Exchanged, Far, FitsAlone, Gives, Itself, Last,
    LeftZeros, Longer, Many, NoKind, Octet, Places, Refused, Sent,
};
use crate::compared::Fit::{Empty, EntryShort, Exactly, OneMore, OneShort, Roomy, Short, TwoMore, TwoShort};
use crate::compared::Frames::{One, Two, TwoRates};
use crate::families::pairs;
use crate::owed::{ways, Way};
use crate::relations::Held;

/// What is owed of both lists, of chips and of octets, by its name.
type Row = (fn(bool) -> Compared, &'static str, [u64; 2]);

const LISTS: [Row; 14] = [
    (|octets| Places { octets, fit: Exactly }, "fits exactly", [3_000, 170]),
    (|octets| Places { octets, fit: OneMore }, "a place more", [1_050, 145]),
    (|octets| Places { octets, fit: TwoMore }, "two more", [880, 125]),
    (|octets| Places { octets, fit: Roomy }, "much more", [1_200, 260]),
    (|octets| Places { octets, fit: OneShort }, "a place short", [1_400, 60]),
    (|octets| Places { octets, fit: TwoShort }, "two short", [90, 45]),
    (|octets| Places { octets, fit: EntryShort }, "an entry short", [670, 30]),
    (|octets| Places { octets, fit: Short }, "shorter", [510, 100]),
    (|octets| Places { octets, fit: Empty }, "an empty row", [950, 150]),
    (|octets| FitsAlone { octets }, "fits, the other not", [190, 320]),
    (|octets| All { octets }, "all differ", [270, 160]),
    (|octets| Gives { octets }, "gives the other", [6_200, 700]),
    (|octets| LeftZeros { octets }, "left zeros", [3_600, 390]),
    (|octets| Many { octets, bits: 8, fits: true }, "2^8 entries", [1_800, 6]),
];

const REST: [(Compared, &str, u64); 18] = [
    (Many { octets: false, bits: 16, fits: true }, "2^16 chips listed", 2),
    (Many { octets: false, bits: 16, fits: false }, "not listed", 3),
    (Many { octets: false, bits: 20, fits: false }, "2^20", 1),
    (Far { bits: 16 }, "an index of 2^16", 60),
    (Far { bits: 20 }, "of 2^20", 3),
    (Longer { octets: false, second: false }, "the first longer", 2_100),
    (Longer { octets: false, second: true }, "the second", 2_200),
    (Longer { octets: true, second: false }, "the first payload longer", 170),
    (Longer { octets: true, second: true }, "the second", 160),
    (BehindFrames { alone: false }, "behind the frames too", 110),
    (BehindFrames { alone: true }, "there alone", 8),
    (NoKind, "no kind", 200),
    (Exchanged { accepted: true }, "exchanged, both accepted", 320),
    (Exchanged { accepted: false }, "not both", 1_900),
    (Compared::ItselfOtherwise, "itself with other room", 140),
    (Sent { frames: One }, "one frame sent", 48),
    (Sent { frames: Two }, "two", 120),
    (Sent { frames: TwoRates }, "of two rates", 40),
];

/// The numbers that one recording can be refused with beside one that is accepted.
const NUMBERS: [u64; 10] = [8, 9, 10, 11, 12, 13, 14, 15, 16, 17];

/// How often each must be met: one recording refused with each number, the first and the second; both with each two;
/// each kind and rate accepted, of one rate and of two; each octet listed of the first and of the second; an entry
/// alone at each place of a block, of chips and of octets; the last of all, by how many stand behind whole blocks, of
/// chips and of octets; each number as a full read has it, of the first and of the second; a recording twice, refused
/// with each number, and accepted.
const EACH: [u64; 14] = [15, 14, 2, 100, 23, 480, 460, 4, 3, 24, 1, 30, 33, 7];

/// The rarest of many ways stands for all.
fn each(count: &impl Fn(Compared) -> u64) -> Vec<Way> {
    let rarest = |of: &mut dyn Iterator<Item = Compared>| of.map(count).min().unwrap_or(0);
    let refused = |second: bool| NUMBERS.into_iter().map(move |number| Refused { second, number });
    let two = NUMBERS.into_iter().flat_map(|one| NUMBERS.map(|other| BothRefused { numbers: [one, other] }));
    let accepted = |alike: bool| {
        pairs().map(move |(kind, rate)| Accepted { kind: kind.number(), rate: u64::from(rate.code()), alike })
    };
    let octets = |second: bool| (0..=255).map(move |octet| Octet { second, octet });
    let alone = |octets: bool| (0..64).map(move |place| Alone { octets, place });
    let last = |octets: bool| (0..64).map(move |rest| Last { octets, rest });
    let read = |second: bool| [0].into_iter().chain(NUMBERS).map(move |number| AsRead { second, number });
    let seen: [(&str, u64); 14] = [
        ("the first refused with each", rarest(&mut refused(false))),
        ("the second", rarest(&mut refused(true))),
        ("both with each two", rarest(&mut { two })),
        ("each kind and rate", rarest(&mut accepted(true))),
        ("with another rate", rarest(&mut accepted(false))),
        ("each octet of the first", rarest(&mut octets(false))),
        ("of the second", rarest(&mut octets(true))),
        ("a chip alone at each place", rarest(&mut alone(false))),
        ("an octet", rarest(&mut alone(true))),
        ("the last chip of each block", rarest(&mut last(false))),
        ("octet", rarest(&mut last(true))),
        ("the first as read by each", rarest(&mut read(false))),
        ("the second", rarest(&mut read(true))),
        ("twice, by each", rarest(&mut [0, 1].into_iter().chain(NUMBERS).map(|number| Itself { number }))),
    ];
    seen.into_iter().zip(EACH).map(|((shown, count), least)| (shown, count, least)).collect()
}

/// Shows how often each was met of comparisons; what is short of it.
pub fn compared(total: &Outcome) -> Vec<String> {
    let count = |what: Compared| total.held.get(&Held::Compares(what)).copied().unwrap_or(0);
    let lists =
        |octets: bool| LISTS.map(|(what, shown, least)| (shown, count(what(octets)), least[usize::from(octets)]));
    let mut short = ways("compare", "lists of chips", &lists(false));
    short.extend(ways("compare", "lists of octets", &lists(true)));
    short.extend(ways("compare", "each of many", &each(&count)));
    short.extend(ways("compare", "beside other calls", &REST.map(|(what, shown, least)| (shown, count(what), least))));
    short
}
