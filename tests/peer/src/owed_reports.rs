//! What a whole run owes of the month's report: recordings of each kind, rate and refusal, each number at its limit and
//! above it, leads beside the smallest, lists of each length, texts with each line and number of digits.

use crate::bridge::Outcome;
use crate::families::pairs;
use crate::owed::{ways, Way};
use crate::relations::Held;
use crate::report::ENTRIES;
use crate::reported::Led::{First, Larger, Same, Smaller};
use crate::reported::Reported::{
    self, Above, Accepted, AtLimit, Behind, Digits, Led, LedByZero, Line, ListLed, Listed, Longest, Refused, Room,
    Some as OfSome, TextLed, Unpaired,
};

/// What is owed, by its name.
type Row = (Reported, &'static str, u64);

/// How often one more must be accepted of each kind and rate, and how often refused with each number, where no frame
/// was accepted before and where one was.
const ACCEPTED: u64 = 110;
const REFUSED: [(u64, &str, u64, u64); 10] = [
    (1, "1", 85, 600),
    (8, "8", 70, 620),
    (9, "9", 3, 24),
    (10, "10", 3, 36),
    (11, "11", 2, 40),
    (12, "12", 2, 28),
    (13, "13", 1, 14),
    (14, "14", 3, 12),
    (15, "15", 4, 29),
    (16, "16", 4, 19),
];

/// How often one more must be counted with an entry at its limit, and how often not, for it alone, one above its limit
/// and more.
const LIMITS: [u64; 3] = [240, 6, 18];

const ADDED: [Row; 20] = [
    (Longest(10), "4,095 octets at 10", 2),
    (Longest(20), "at 20", 4),
    (Longest(55), "at 55", 4),
    (Longest(110), "at 110", 4),
    (Reported::AboveSeveral, "above several limits", 4),
    (OfSome { some: 0, accepted: true }, "some 0, a frame", 130),
    (OfSome { some: 1, accepted: true }, "1", 490),
    (OfSome { some: 2, accepted: true }, "2 and more", 270),
    (OfSome { some: 0, accepted: false }, "some 0, refused", 180),
    (OfSome { some: 1, accepted: false }, "1", 1_300),
    (OfSome { some: 2, accepted: false }, "2 and more", 110),
    (Led(First), "first lead", 120),
    (Led(Smaller), "smaller", 190),
    (Led(Same), "same", 48),
    (Led(Larger), "larger", 420),
    (LedByZero(First), "lead of 0, first", 14),
    (LedByZero(Smaller), "smaller", 58),
    (LedByZero(Same), "same", 54),
    (Reported::BehindRefused, "first behind refused ones", 9),
    (Reported::KeptOn, "kept on", 1_561),
];

const LISTED: [Row; 19] = [
    (Listed(0), "of 0", 1),
    (Listed(1), "of 1", 48),
    (Listed(999), "of 999", 2),
    (Listed(1000), "of 1,000", 7),
    (Listed(1001), "of 1,001", 14),
    (Listed(1300), "of 1,300", 1),
    (Behind { accepted: true }, "a frame behind 1,000", 4),
    (Behind { accepted: false }, "a refused one behind", 20),
    (Reported::Apart, "counts apart", 9),
    (ListLed { zero: false, first: true }, "lead of the first", 15),
    (ListLed { zero: false, first: false }, "of another", 40),
    (ListLed { zero: true, first: true }, "lead of 0 of the first", 7),
    (ListLed { zero: true, first: false }, "of another", 37),
    (Unpaired { kinds: true, over: false }, "more kinds", 7),
    (Unpaired { kinds: false, over: false }, "fewer", 7),
    (Unpaired { kinds: true, over: true }, "more kinds above 1,000", 4),
    (Unpaired { kinds: false, over: true }, "fewer", 4),
    (Reported::ListKept, "as one after the other", 25),
    (Reported::ListCut, "as its first 1,000", 14),
];

const TOLD: [Row; 15] = [
    (Room(0), "no room", 30),
    (Room(6), "one octet", 2),
    (Room(1), "an octet short", 480),
    (Room(2), "shorter", 115),
    (Room(3), "just enough", 500),
    (Room(4), "one more", 180),
    (Room(5), "more", 310),
    (TextLed { some: 0, frames: false }, "no lead", 200),
    (TextLed { some: 0, frames: true }, "none, with frames", 40),
    (TextLed { some: 1, frames: true }, "a lead", 220),
    (TextLed { some: 1, frames: false }, "without frames", 120),
    (TextLed { some: 2, frames: true }, "some 2 and more", 380),
    (TextLed { some: 2, frames: false }, "without frames", 7),
    (Reported::LongestText, "longest", 9),
    (Reported::ReadBack, "read back", 1_000),
];

/// How often each number's line must stand alone, and how often numbers of 1 to 20 digits.
const LINE: u64 = 12;
const DIGITS: u64 = 320;

/// Shows how often each was met of reports; what is short of it.
pub fn reports(total: &Outcome) -> Vec<String> {
    let count = |what: Reported| total.held.get(&Held::Reports(what)).copied().unwrap_or(0);
    let rarest = |of: &mut dyn Iterator<Item = Reported>| of.map(count).min().unwrap_or(0);
    let rows =
        |rows: &[Row]| rows.iter().map(|(what, shown, least)| (*shown, count(*what), *least)).collect::<Vec<Way>>();
    let codes = |(kind, rate): (crate::frame::Kind, crate::bits::Rate)| (kind.number(), u64::from(rate.code()));
    let each_pair = rarest(&mut pairs().map(codes).map(|(kind, rate)| Accepted { kind, rate }));
    let mut added = vec![("each kind and rate", each_pair, ACCEPTED)];
    for (number, shown, first, behind) in REFUSED {
        added.push((shown, count(Refused { number, behind: false }), first));
        added.push(("behind a frame", count(Refused { number, behind: true }), behind));
    }
    let entries = || 0..ENTRIES - 3;
    added.push(("each at its limit", rarest(&mut entries().map(AtLimit)), LIMITS[0]));
    let above = |by_one: bool| entries().map(move |entry| Above { entry, by_one });
    added.push(("one above", rarest(&mut above(true)), LIMITS[1]));
    added.push(("more above", rarest(&mut above(false)), LIMITS[2]));
    added.extend(rows(&ADDED));
    let mut told = rows(&TOLD);
    told.push(("each line alone", rarest(&mut (1..18).map(Line)), LINE));
    told.push(("1 to 20 digits", rarest(&mut (1..21).map(Digits)), DIGITS));
    let mut short = ways("report", "one recording more", &added);
    short.extend(ways("report", "lists", &rows(&LISTED)));
    short.extend(ways("report", "texts", &told));
    short
}
