//! What a whole run owes: so many calls, each number of each op and part at least so often, with the clock bit and
//! without it, and no other number at all; fronts that tell of each kind and rate, recordings alike in the front that
//! are refused with each number, and full reads that go together with fronts in each way; symbols of 11 Mbit/s that are
//! decided among words of one score, in each way; smallest leads in each part at each rate, shared ones, ties and those
//! that refused reads keep; starts found of each kind and rate, at each remainder of 512, early, late and neither,
//! behind offsets refused with each number; reasons, comparisons, reads as the guides of 1997 read, reports, stores,
//! spoiled frames and rows as `owed_reasons`, `owed_compared`, `owed_guides`, `owed_reports`, `owed_stores`,
//! `owed_spoiled` and `owed_laid` have them; and no family that spends a third of all calls on one number.

use crate::bits::Rate;
use crate::bridge::Outcome;
use crate::calls::{Met, Part};
use crate::decided::Decided::{self, Against, Among, ApartIn, At, Beside, ByPhase, OfEnds};
use crate::families::pairs;
use crate::leads::Lead::{
    self, Above, Alone, At as LeadAt, From, InBoth, InFront, Kept, Next, OfAllowed, Shared, Tied,
};
use crate::leads::Stands::{First, Header, Payload, Preamble};
use crate::owed_compared::compared;
use crate::owed_guides::guides;
use crate::owed_laid::laid;
use crate::owed_reasons::reasons;
use crate::owed_reports::reports;
use crate::owed_spoiled::spoiled;
use crate::owed_stores::stores;
use crate::relations::Held;
use crate::starts::Start::{self, Early, Found, Late, Missed, Passed, ReadRefused};

const CALLS: u64 = 350_000;

struct Owed {
    op: &'static str,
    part: Part,
    shown: &'static str,
    least: &'static [Least],
}

/// A number, and how often it must be answered at least without the clock bit and with it. A 0 stands where the bit
/// isn't read: before the CRC is found right.
type Least = (u64, u64, u64);

const fn owed(op: &'static str, part: Part, shown: &'static str, least: &'static [Least]) -> Owed {
    Owed { op, part, shown, least }
}

const OWED: [Owed; 47] = [
    owed(
        "write",
        Part::Front,
        "before the frame",
        &[(1, 5_700, 5_900), (2, 1_000, 1_100), (3, 20, 70), (4, 100, 110), (5, 80, 90)],
    ),
    owed("write", Part::Payload, "to 300 octets", &[(0, 1_600, 2_600), (6, 200, 200)]),
    owed("write", Part::LongPayload, "above 300 octets", &[(0, 430, 400), (6, 10, 10)]),
    owed(
        "read hard",
        Part::Front,
        "front",
        &[
            (1, 4_500, 0),
            (8, 2_200, 0),
            (9, 5_000, 0),
            (10, 2_600, 0),
            (11, 1_200, 0),
            (12, 1_100, 0),
            (13, 1_800, 1_700),
            (14, 1_700, 1_600),
            (15, 850, 910),
        ],
    ),
    owed(
        "read hard",
        Part::LongFront,
        "front, 6,001 and more",
        &[(1, 8, 0), (9, 16, 0), (10, 26, 0), (11, 70, 0), (12, 8, 0), (13, 4, 6), (14, 6, 2), (15, 22, 16)],
    ),
    owed(
        "read hard",
        Part::Payload,
        "payload to 300 octets",
        &[(0, 5_100, 5_000), (9, 1_200, 1_100), (10, 230, 240), (16, 770, 660), (17, 230, 250)],
    ),
    owed(
        "read hard",
        Part::LongPayload,
        "payload above 300",
        &[(0, 140, 130), (9, 200, 200), (10, 10, 10), (16, 1_800, 380), (17, 80, 80)],
    ),
    owed("read hard", Part::FarPlace, "places from 65,536", &[(9, 20, 10), (10, 4, 5)]),
    owed(
        "read soft",
        Part::Front,
        "front",
        &[
            (1, 1_400, 0),
            (7, 660, 0),
            (8, 410, 0),
            (9, 1_700, 0),
            (10, 420, 0),
            (11, 190, 0),
            (12, 220, 0),
            (13, 20, 20),
            (14, 180, 160),
            (15, 140, 130),
        ],
    ),
    owed(
        "read soft",
        Part::LongFront,
        "front, 6,001 and more",
        &[(1, 12, 0), (7, 10, 0), (9, 8, 0), (10, 8, 0), (11, 8, 0), (12, 8, 0), (13, 4, 6), (14, 6, 2), (15, 22, 16)],
    ),
    owed(
        "read soft",
        Part::Payload,
        "payload to 300 octets",
        &[(0, 2_100, 2_100), (9, 120, 110), (10, 100, 100), (16, 160, 160), (17, 90, 90)],
    ),
    owed(
        "read soft",
        Part::LongPayload,
        "payload above 300",
        &[(0, 90, 80), (9, 70, 50), (10, 7, 8), (16, 60, 60), (17, 20, 30)],
    ),
    owed("read soft", Part::FarPlace, "places from 65,536", &[(9, 7, 4), (10, 2, 3)]),
    // No 9: no byte is unusable.
    owed(
        "read bytes",
        Part::Front,
        "front",
        &[
            (1, 1_200, 0),
            (7, 800, 0),
            (8, 710, 0),
            (10, 1_400, 0),
            (11, 850, 0),
            (12, 790, 0),
            (13, 130, 140),
            (14, 420, 580),
            (15, 180, 190),
        ],
    ),
    owed(
        "read bytes",
        Part::LongFront,
        "front, 6,001 and more",
        &[(1, 8, 0), (7, 75, 0), (10, 11, 0), (11, 34, 0), (12, 16, 0), (13, 4, 6), (14, 6, 2), (15, 22, 16)],
    ),
    owed(
        "read bytes",
        Part::Payload,
        "payload to 300 octets",
        &[(0, 4_300, 4_400), (10, 350, 360), (16, 410, 400), (17, 100, 110)],
    ),
    owed(
        "read bytes",
        Part::LongPayload,
        "payload above 300",
        &[(0, 100, 110), (10, 8, 7), (16, 100, 70), (17, 30, 30)],
    ),
    owed("read bytes", Part::FarPlace, "places from 65,536", &[(10, 3, 4)]),
    // No 7 and no 17, and of the payload no 9 and no 10.
    owed(
        "read front",
        Part::Front,
        "front",
        &[
            (1, 4_500, 0),
            (8, 2_200, 0),
            (9, 5_000, 0),
            (10, 2_700, 0),
            (11, 1_300, 0),
            (12, 1_200, 0),
            (13, 1_800, 1_700),
            (14, 1_700, 1_700),
            (15, 860, 910),
        ],
    ),
    owed(
        "read front",
        Part::LongFront,
        "front, 6,001 and more",
        &[(1, 8, 0), (9, 16, 0), (10, 26, 0), (11, 70, 0), (12, 8, 0), (13, 4, 6), (14, 6, 2), (15, 22, 16)],
    ),
    owed("read front", Part::Payload, "payload to 300 octets", &[(0, 6_500, 6_500), (16, 1_500, 700)]),
    owed("read front", Part::LongPayload, "payload above 300", &[(0, 1_100, 1_100), (16, 14_000, 1_100)]),
    // No 8 to 17: a find tells of none of them.
    owed("find", Part::Front, "none found", &[(1, 100, 0), (18, 70, 0), (19, 700, 0)]),
    owed("find", Part::LongFront, "none in 6,001 or more", &[(19, 38, 0)]),
    owed("find", Part::Payload, "to 300 octets", &[(0, 500, 560)]),
    owed("find", Part::LongPayload, "above 300 octets", &[(0, 8, 4)]),
    // No 7: a hard recording is one row.
    owed(
        "why",
        Part::Front,
        "front",
        &[
            (1, 5_300, 0),
            (8, 4_600, 0),
            (9, 8_600, 0),
            (10, 3_200, 0),
            (11, 7_500, 0),
            (12, 4_400, 0),
            (13, 2_300, 2_300),
            (14, 2_800, 2_800),
            (15, 20_000, 20_000),
        ],
    ),
    owed(
        "why",
        Part::LongFront,
        "front, 6,001 and more",
        &[(1, 10, 0), (9, 14, 0), (10, 61, 0), (11, 68, 0), (12, 14, 0), (13, 4, 5), (14, 6, 4), (15, 20, 14)],
    ),
    owed(
        "why",
        Part::Payload,
        "payload to 300 octets",
        &[(0, 6_900, 7_200), (9, 2_600, 1_900), (10, 490, 700), (16, 2_300, 1_700), (17, 690, 740)],
    ),
    owed(
        "why",
        Part::LongPayload,
        "payload above 300",
        &[(0, 3_200, 3_100), (9, 290, 290), (10, 32, 28), (16, 11_000, 9_800), (17, 2_700, 2_800)],
    ),
    owed("why", Part::FarPlace, "places from 65,536", &[(9, 20, 17), (10, 13, 9)]),
    // The number is that of the first recording.
    owed(
        "compare",
        Part::Front,
        "front",
        &[
            (1, 230, 0),
            (8, 6_500, 0),
            (9, 120, 0),
            (10, 540, 0),
            (11, 100, 0),
            (12, 75, 0),
            (13, 38, 36),
            (14, 30, 32),
            (15, 26, 32),
        ],
    ),
    owed("compare", Part::LongFront, "front, 6,001 and more", &[(9, 70, 0), (10, 1, 0)]),
    owed(
        "compare",
        Part::Payload,
        "payload to 300 octets",
        &[(0, 1_250, 850), (9, 45, 30), (10, 30, 40), (16, 75, 65), (17, 170, 120)],
    ),
    owed("compare", Part::LongPayload, "payload above 300", &[(0, 45, 30), (9, 3, 4), (16, 1, 5), (17, 7, 6)]),
    owed("compare", Part::FarPlace, "places from 65,536", &[(9, 0, 2)]),
    // No 1 and no 7, and the clock bit only with 13 and 14.
    owed(
        "read 1997",
        Part::Front,
        "front",
        &[
            (8, 420, 0),
            (9, 1_300, 0),
            (10, 790, 0),
            (11, 430, 0),
            (12, 235, 0),
            (13, 1_900, 1_350),
            (14, 660, 1_200),
            (15, 150, 0),
        ],
    ),
    owed(
        "read 1997",
        Part::LongFront,
        "front, 6,001 and more",
        &[(9, 75, 0), (10, 47, 0), (11, 19, 0), (12, 8, 0), (13, 160, 105), (14, 38, 110), (15, 10, 0)],
    ),
    owed(
        "read 1997",
        Part::Payload,
        "payload to 300 octets",
        &[(0, 480, 0), (9, 450, 0), (10, 35, 0), (16, 95, 0), (17, 30, 0)],
    ),
    owed(
        "read 1997",
        Part::LongPayload,
        "payload above 300",
        &[(0, 73, 0), (9, 9, 0), (10, 4, 0), (16, 36, 0), (17, 10, 0)],
    ),
    owed("read 1997", Part::FarPlace, "places from 65,536", &[(9, 3, 0), (10, 4, 0)]),
    // No refusal of a recording: these are counted.
    owed("report add", Part::Front, "one recording more", &[(0, 2_500, 0), (31, 1_000, 0)]),
    owed("report list", Part::Front, "lists", &[(0, 120, 0), (7, 22, 0), (31, 24, 0)]),
    owed("report text", Part::Front, "texts", &[(0, 1_000, 0), (17, 650, 0)]),
    owed("store write", Part::Front, "stores written", &[(0, 190, 0), (28, 2_800, 0), (29, 62, 0)]),
    owed(
        "store read",
        Part::Front,
        "stores read",
        &[
            (0, 3_500, 0),
            (21, 12_000, 0),
            (22, 530, 0),
            (23, 2_600, 0),
            (24, 14_500, 0),
            (25, 950, 0),
            (26, 1_000, 0),
            (27, 780, 0),
            (28, 1_650, 0),
        ],
    ),
    owed(
        "store change",
        Part::Front,
        "stores changed",
        &[
            (0, 470, 0),
            (21, 1_950, 0),
            (22, 530, 0),
            (23, 550, 0),
            (24, 2_200, 0),
            (25, 1_900, 0),
            (26, 270, 0),
            (27, 200, 0),
            (28, 6_500, 0),
            (30, 3_300, 0),
        ],
    ),
];

/// How often a front must tell of each kind and rate, without the clock bit and with it.
const TELLS: u64 = 900;

/// How often each way in which answers go together must be seen.
const HELD: [(Held, &str, u64); 6] = [
    (Held::AlikeInFront, "alike in the front", 3_100),
    (Held::AlikeCut, "alike and cut", 960),
    (Held::RefusedAlike, "refused alike", 29_700),
    (Held::ReadAlike, "read alike", 10_500),
    (Held::SpoiledInPart, "spoiled in the part", 3_300),
    (Held::ShortOfRoom, "short of room", 660),
];

/// How often two recordings alike in the front must be refused alike, with each number.
const ALIKE: [(u64, u64); 9] = [(1, 1_500), (8, 570), (9, 8), (10, 9), (11, 70), (12, 11), (13, 8), (14, 8), (15, 8)];

/// Shows how often something was seen of each kind and rate, without the clock bit and with it; what is short of it.
pub fn of_each_pair(op: &str, title: &str, least: u64, count: impl Fn(u64, u64, u64) -> u64) -> Vec<String> {
    let (mut words, mut short) = (Vec::new(), Vec::new());
    for (kind, rate) in pairs() {
        let (kind, rate) = (kind.number(), u64::from(rate.code()));
        let counts = [0, 1].map(|clock| count(kind, rate, clock));
        words.push(format!("{kind} {rate}: {} {}", counts[0], counts[1]));
        if counts.iter().any(|count| *count < least) {
            short.push(format!("{op}, {title}, kind {kind}, rate {rate}: {counts:?} times, {least} owed each"));
        }
    }
    println!("{op:<10}  {title:<21}  {}", words.join(", "));
    short
}

/// Shows how often fronts told of each kind and rate and how often answers went together; what is short of it.
fn held(total: &Outcome) -> Vec<String> {
    let count = |held: Held| total.held.get(&held).copied().unwrap_or(0);
    let tells = |kind: u64, rate: u64, clock: u64| count(Held::Tells { kind, rate, clock });
    let mut short = of_each_pair("read front", "kinds and rates told", TELLS, tells);
    let alike = |number: u64| count(Held::AlikeRefused { number });
    println!(
        "read front  alike and refused      {}",
        ALIKE.map(|(number, _)| format!("{number}: {}", alike(number))).join(", ")
    );
    let rare = ALIKE.into_iter().filter(|(number, least)| alike(*number) < *least);
    short.extend(
        rare.map(|(number, least)| format!("alike and refused with {number} {} times, {least} owed", alike(number))),
    );
    let seen = HELD.map(|(held, shown, _)| format!("{shown}: {}", count(held)));
    println!("read front  beside other reads     {}", seen.join(", "));
    let rare = HELD.into_iter().filter(|(held, _, least)| count(*held) < *least);
    short.extend(rare.map(|(held, shown, least)| format!("{shown} {} times, {least} owed", count(held))));
    short
}

/// The full reads, in the order of the numbers below.
const READS: [&str; 3] = ["read hard", "read soft", "read bytes"];

/// How often symbols of 11 Mbit/s must be decided in each way, by each full read.
const DECIDED: [(Decided, &str, [u64; 3]); 21] = [
    (Among(2), "of 2", [2_400, 6_100, 6_600]),
    (Among(3), "of 3", [460, 410, 590]),
    (Among(4), "of 4", [5_600, 4_700, 5_000]),
    (Among(256), "of 256", [2_300, 1_900, 2_300]),
    (ByPhase(1), "by p1", [4_900, 2_200, 2_900]),
    (ByPhase(2), "by p2", [1_300, 3_000, 3_100]),
    (ByPhase(3), "by p3", [850, 2_500, 2_600]),
    (ByPhase(4), "by p4", [720, 2_300, 2_400]),
    (ApartIn(1), "p1 apart", [2_800, 3_300, 3_700]),
    (ApartIn(2), "p2 apart", [7_400, 8_100, 8_300]),
    (ApartIn(3), "p3 apart", [6_200, 7_300, 7_800]),
    (ApartIn(4), "p4 apart", [5_600, 6_900, 7_400]),
    (Against(1, 2), "p1 against p2", [4_300, 2_900, 3_100]),
    (Against(1, 3), "p1 against p3", [6_100, 3_700, 4_100]),
    (Against(1, 4), "p1 against p4", [7_200, 3_800, 4_100]),
    (Against(2, 3), "p2 against p3", [2_600, 1_600, 1_700]),
    (Against(2, 4), "p2 against p4", [3_100, 1_500, 1_600]),
    (Against(3, 4), "p3 against p4", [1_600, 780, 800]),
    (OfEnds, "of largest values", [17_000, 3_700, 2_600]),
    (Beside { smaller: false }, "a step before", [2_600, 750, 710]),
    (Beside { smaller: true }, "a step behind", [2_500, 690, 980]),
];

/// How often words must tie at each place among 64 symbols, by each full read.
const AT_EACH: u64 = 79;

/// A way that is owed, by its name, how often it was seen, and how often it must be.
pub type Way = (&'static str, u64, u64);

/// Shows how often each way was seen; what is short of it.
pub fn ways(op: &str, title: &str, ways: &[Way]) -> Vec<String> {
    let words: Vec<String> = ways.iter().map(|(shown, count, _)| format!("{shown}: {count}")).collect();
    println!("{op:<10}  {title:<21}  {}", words.join(", "));
    let rare = ways.iter().filter(|(_, count, least)| count < least);
    rare.map(|(shown, count, least)| format!("{op}, {title}, {shown}: {count} times, {least} owed")).collect()
}

/// Shows how often symbols of 11 Mbit/s were decided in each way; what is short of it.
fn decided(total: &Outcome) -> Vec<String> {
    let mut short = Vec::new();
    for (at, op) in READS.into_iter().enumerate() {
        let count = |what: Decided| total.seen.get(&(op, what)).copied().unwrap_or(0);
        let mut seen = DECIDED.map(|(what, shown, least)| (shown, count(what), least[at])).to_vec();
        let rarest = (0..64).map(|place| count(At(place))).min().unwrap_or(0);
        seen.push(("at each of 64 places", rarest, AT_EACH));
        short.extend(ways(op, "words that tie", &seen));
    }
    short
}

/// How often the smallest leads must stand in each way, by each full read; a rate code is the payload's. Hard chips and
/// bytes are too small for the largest leads, hard words of 11 Mbit/s have several next, and no byte is unusable.
const LEADS: [(Lead, &str, [u64; 3]); 49] = [
    (Alone(First, 10), "first at 10", [7, 5, 7]),
    (Alone(First, 20), "first at 20", [14, 13, 16]),
    (Alone(First, 55), "first at 55", [14, 12, 15]),
    (Alone(First, 110), "first at 110", [16, 16, 16]),
    (Alone(Preamble, 10), "preamble at 10", [150, 81, 100]),
    (Alone(Preamble, 20), "preamble at 20", [170, 190, 140]),
    (Alone(Preamble, 55), "preamble at 55", [96, 80, 72]),
    (Alone(Preamble, 110), "preamble at 110", [240, 220, 280]),
    (Alone(Header, 10), "header at 10", [37, 42, 43]),
    (Alone(Header, 20), "header at 20", [66, 82, 81]),
    (Alone(Header, 55), "header at 55", [56, 46, 59]),
    (Alone(Header, 110), "header at 110", [95, 93, 200]),
    (Alone(Payload, 10), "payload at 10", [290, 210, 600]),
    (Alone(Payload, 20), "payload at 20", [530, 630, 1_200]),
    (Alone(Payload, 55), "payload at 55", [500, 790, 1_400]),
    (Alone(Payload, 110), "payload at 110", [1_000, 1_100, 1_900]),
    (Shared(First), "shared from the first", [2_400, 690, 1_100]),
    (Shared(Preamble), "from the preamble", [480, 160, 210]),
    (Shared(Header), "from the header", [44, 39, 49]),
    (Shared(Payload), "in the payload", [5_900, 2_300, 3_600]),
    (InBoth, "in front and payload", [2_500, 780, 1_100]),
    (Tied(First), "0 in the first", [17, 14, 53]),
    (Tied(Preamble), "0 in the preamble", [240, 91, 140]),
    (Tied(Header), "0 in the header", [51, 58, 82]),
    (Tied(Payload), "0 in the payload", [3_400, 1_500, 3_900]),
    (OfAllowed, "of allowed words", [2_300, 1_400, 1_800]),
    (Next(10, 1), "next a quarter on", [740, 690, 820]),
    (Next(10, 3), "three quarters on", [590, 660, 1_000]),
    (Next(55, 1), "next in p1 at 55", [2, 84, 140]),
    (Next(55, 2), "in p2 at 55", [21, 45, 36]),
    (Next(55, 4), "in p4 at 55", [28, 46, 46]),
    (Next(55, 0), "in some at 55", [93, 430, 640]),
    (Next(110, 2), "in p2 at 110", [0, 43, 46]),
    (Next(110, 3), "in p3 at 110", [0, 43, 46]),
    (Next(110, 4), "in p4 at 110", [0, 43, 45]),
    (Next(110, 0), "in some at 110", [0, 730, 930]),
    (From(256), "from symbol 256", [130, 110, 130]),
    (From(32_768), "from symbol 32,768", [2, 2, 2]),
    (Above(32_767), "above 32,767", [0, 290, 0]),
    (Above(65_535), "above 65,535", [0, 68, 0]),
    (Kept(9), "kept by 9", [2_700, 380, 0]),
    (Kept(10), "by 10", [3_100, 640, 2_000]),
    (Kept(11), "by 11", [1_200, 200, 460]),
    (Kept(12), "by 12", [1_200, 240, 770]),
    (Kept(13), "by 13", [3_500, 78, 290]),
    (Kept(14), "by 14", [3_400, 350, 1_200]),
    (Kept(15), "by 15", [1_800, 290, 410]),
    (Kept(16), "by 16", [3_600, 450, 960]),
    (Kept(17), "by 17", [670, 250, 290]),
];

/// How often one symbol alone must have the smallest lead, for each symbol of a front, and for each place among 64 in
/// payloads of Barker symbols and of 5.5 and 11 Mbit/s.
const LEAD_AT_EACH: [u64; 5] = [1, 1, 3, 2, 2];

/// The rarest of them.
fn lead_at_each(count: &impl Fn(Lead) -> u64) -> [Way; 5] {
    let rarest =
        |places: usize, of: &dyn Fn(usize) -> Lead| (0..places).map(|place| count(of(place))).min().unwrap_or(0);
    [
        ("each of a long front", rarest(192, &|symbol| InFront(0, symbol)), LEAD_AT_EACH[0]),
        ("of a short front", rarest(96, &|symbol| InFront(1, symbol)), LEAD_AT_EACH[1]),
        ("each of 64 Barker", rarest(64, &|place| LeadAt(10, place)), LEAD_AT_EACH[2]),
        ("of 64 at 55", rarest(64, &|place| LeadAt(55, place)), LEAD_AT_EACH[3]),
        ("of 64 at 110", rarest(64, &|place| LeadAt(110, place)), LEAD_AT_EACH[4]),
    ]
}

/// Shows how often the smallest leads stood in each way; what is short of it.
fn leads(total: &Outcome) -> Vec<String> {
    let mut short = Vec::new();
    for (at, op) in READS.into_iter().enumerate() {
        let count = |what: Lead| total.won.get(&(op, what)).copied().unwrap_or(0);
        short.extend(ways(op, "smallest leads", &LEADS.map(|(what, shown, least)| (shown, count(what), least[at]))));
        short.extend(ways(op, "smallest lead alone", &lead_at_each(&count)));
    }
    short
}

/// How often each must be seen of finds, and of reads behind them.
const STARTS: [(Start, &str, u64); 42] = [
    (Start::First, "offset 0", 40),
    (Start::Last, "last offset", 500),
    (Start::Far, "above 4,000", 35),
    (Start::BehindUnusable, "behind unusable", 540),
    (Start::FrontLast, "front last", 39),
    (Start::SameStart, "same start", 270),
    (Start::FewerOffsets, "fewer offsets", 150),
    (Start::NoneTwice, "none twice", 300),
    (Start::Told, "told", 370),
    (Start::ToldCut, "cut", 70),
    (Start::Read, "read", 260),
    (ReadRefused(9), "refused with 9", 37),
    (ReadRefused(10), "with 10", 1),
    (ReadRefused(16), "with 16", 60),
    (ReadRefused(17), "with 17", 65),
    (Passed(9), "passed over by 9", 130),
    (Passed(10), "by 10", 160),
    (Passed(11), "by 11", 110),
    (Passed(12), "by 12", 7),
    (Passed(13), "by 13", 7),
    (Passed(14), "by 14", 6),
    (Passed(15), "by 15", 3),
    (Start::ReadPassed, "in full too", 130),
    (Start::EachPassed, "each before it", 120),
    (Missed(8), "none, by 8", 76),
    (Missed(9), "by 9", 75),
    (Missed(10), "by 10", 150),
    (Missed(11), "by 11", 100),
    (Missed(12), "by 12", 5),
    (Missed(13), "by 13", 4),
    (Missed(14), "by 14", 4),
    (Missed(15), "by 15", 3),
    (Start::EachMissed, "each tried", 260),
    (Start::AsSent { rate: 10 }, "as sent at 10", 8),
    (Start::AsSent { rate: 20 }, "at 20", 18),
    (Start::AsSent { rate: 55 }, "at 55", 19),
    (Start::AsSent { rate: 110 }, "at 110", 15),
    (Early { rate: 10, by: 10, same: true }, "10 early at 10, same payload", 5),
    (Early { rate: 20, by: 10, same: true }, "at 20, same", 9),
    (Early { rate: 55, by: 10, same: false }, "at 55, another", 10),
    (Early { rate: 110, by: 10, same: false }, "at 110, another", 11),
    (Start::EarlyBehindLost, "10 early behind lost chips", 12),
];

/// How often a start must be found so many chips early, at any rate.
const EARLY: [(u64, &str, u64); 4] = [(2, "2 early", 10), (4, "4 early", 3), (6, "6 early", 2), (8, "8 early", 6)];

/// How often a start must be found so many chips late: at 1 and 2 Mbit/s, whose payloads are Barker symbols too, and at
/// 5.5 and 11 Mbit/s.
const LATE: [(u64, &str, u64, u64); 5] =
    [(2, "2 late", 6, 4), (4, "4 late", 4, 10), (6, "6 late", 4, 2), (8, "8 late", 4, 8), (10, "10 late", 4, 3)];

/// How often a start must be found of each kind and rate, without the clock bit and with it, and at each remainder of
/// 512.
const FOUND: u64 = 60;
const FOUND_AT_EACH: u64 = 1;

/// Shows how often starts were found in each way; what is short of it.
fn starts(total: &Outcome) -> Vec<String> {
    let count = |start: Start| total.held.get(&Held::Finds(start)).copied().unwrap_or(0);
    let found = |kind: u64, rate: u64, clock: u64| count(Found { kind, rate, clock });
    let mut short = of_each_pair("find", "kinds and rates found", FOUND, found);
    let mut seen = STARTS.map(|(start, shown, least)| (shown, count(start), least)).to_vec();
    for (by, shown, least) in EARLY {
        let early = |rate: Rate, same: bool| count(Early { rate: u64::from(rate.code()), by, same });
        let each = Rate::ALL.into_iter().map(|rate| early(rate, false) + early(rate, true));
        seen.push((shown, each.sum(), least));
    }
    for (by, shown, barker, cck) in LATE {
        let late = |rates: [u64; 2]| rates.map(|rate| count(Late { rate, by })).iter().sum();
        seen.push((shown, late([10, 20]), barker));
        seen.push(("at 55 and 110", late([55, 110]), cck));
    }
    let rarest = (0..512).map(|rest| count(Start::At(rest))).min().unwrap_or(0);
    seen.push(("at each remainder of 512", rarest, FOUND_AT_EACH));
    short.extend(ways("find", "beside other calls", &seen));
    short
}

/// Shows how often each number came, and whether what is owed was met. `largest` is the family that answered one number
/// most often, with how often.
pub fn met(total: &Outcome, largest: (u64, &str)) -> Result<(), String> {
    let mut short = Vec::new();
    println!("numbers, how often without the clock bit and with it");
    for Owed { op, part, shown, least } in &OWED {
        let mut words = Vec::new();
        for (number, without, with) in *least {
            let count = |clock: bool| {
                let met = Met { op, part: *part, number: *number, clock };
                total.met.get(&met).copied().unwrap_or(0)
            };
            let counts = [count(false), count(true)];
            words.push(format!("{number}: {} {}", counts[0], counts[1]));
            if counts[0] < *without || counts[1] < *with || (*with == 0 && counts[1] > 0) {
                short.push(format!("{op}, {shown}, answered {number} {counts:?} times, [{without}, {with}] owed"));
            }
        }
        println!("{op:<10}  {shown:<21}  {}", words.join(", "));
    }
    for (Met { op, part, number, .. }, count) in &total.met {
        let owes = |owed: &&Owed| owed.op == *op && owed.part == *part;
        let listed = OWED.iter().find(owes).is_some_and(|owed| owed.least.iter().any(|least| least.0 == *number));
        if !listed {
            short.push(format!("{op} answered {number} {count} times where it can't"));
        }
    }
    for of_total in [held, decided, leads, starts, reasons, compared, guides, reports, stores, spoiled, laid] {
        short.extend(of_total(total));
    }
    if total.calls < CALLS {
        short.push(format!("{} calls made, {CALLS} owed", total.calls));
    }
    if 3 * largest.0 >= total.calls {
        short.push(format!("{} answers one number {} times, a third of all calls", largest.1, largest.0));
    }
    if short.is_empty() {
        Ok(())
    } else {
        Err(short.join("; "))
    }
}
