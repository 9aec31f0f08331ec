//! What a whole run owes of reads as the guides of 1997 read: each SIGNAL and each SERVICE refused, with a LENGTH that
//! a payload has and with one that none has; 8 to 12 before 13 and 14; short fronts; answers that are those of our hard
//! read, with each number, and 13 and 14 beside each other answer of it; frames that were written, as sent and spoiled;
//! and the smallest lead in each part.

use crate::bits::Rate;
use crate::bridge::Outcome;
use crate::guides::Guided::{self, Alike, Apart, Before, Service, ShortFront, Signal};
use crate::leads::{Lead, Stands};
use crate::owed::{ways, Way};
use crate::refusals::{CRC, ENDS, FRONT, GROWTH, LENGTH, OCTET_BUFFER, SERVICE, SFD, SIGNAL, UNUSABLE};
use crate::relations::Held;
use crate::spoils::Spoiled;

/// What is owed, by its name.
type Row = (Guided, &'static str, u64);

/// How often each SIGNAL that is no rate must be refused, each SERVICE but 0 at 10 and at 20, each SERVICE at 55 and at
/// 110: with a LENGTH that a payload has, and as often with one that none has.
const REFUSED: [(&str, u64); 5] =
    [("each SIGNAL", 1), ("each SERVICE at 10", 1), ("at 20", 1), ("at 55", 1), ("at 110", 1)];

/// The rarest SIGNAL, and the rarest SERVICE at each rate.
fn refused(count: &impl Fn(Guided) -> u64, no_length: bool) -> [u64; 5] {
    let rarest = |of: &mut dyn Iterator<Item = Guided>| of.map(count).min().unwrap_or(0);
    let unknown = |signal: &u8| Rate::of_code(u64::from(*signal)).is_none();
    let services = |rate: u8, from: u8| (from..=255).map(move |service| Service { rate, service, no_length });
    [
        rarest(&mut (0..=255).filter(unknown).map(|signal| Signal { signal, no_length })),
        rarest(&mut services(10, 1)),
        rarest(&mut services(20, 1)),
        rarest(&mut services(55, 0)),
        rarest(&mut services(110, 0)),
    ]
}

const BEFORE: [Row; 12] = [
    (Before { number: FRONT, later: SIGNAL }, "8 before 13", 72),
    (Before { number: UNUSABLE, later: SIGNAL }, "9", 580),
    (Before { number: GROWTH, later: SIGNAL }, "10", 500),
    (Before { number: SFD, later: SIGNAL }, "11", 230),
    (Before { number: CRC, later: SIGNAL }, "12", 120),
    (Before { number: FRONT, later: SERVICE }, "8 before 14", 30),
    (Before { number: UNUSABLE, later: SERVICE }, "9", 330),
    (Before { number: GROWTH, later: SERVICE }, "10", 150),
    (Before { number: SFD, later: SERVICE }, "11", 90),
    (Before { number: CRC, later: SERVICE }, "12", 60),
    (ShortFront { number: FRONT }, "a short front, 8", 32),
    (ShortFront { number: GROWTH }, "10", 130),
];

const ALIKE: [Row; 13] = [
    (Alike { number: 0, payload: false }, "accepted", 530),
    (Alike { number: FRONT, payload: false }, "8", 420),
    (Alike { number: UNUSABLE, payload: false }, "9", 1_350),
    (Alike { number: GROWTH, payload: false }, "10", 820),
    (Alike { number: SFD, payload: false }, "11", 410),
    (Alike { number: CRC, payload: false }, "12", 240),
    (Alike { number: SIGNAL, payload: false }, "13", 1_200),
    (Alike { number: SERVICE, payload: false }, "14", 1_400),
    (Alike { number: LENGTH, payload: false }, "15", 160),
    (Alike { number: ENDS, payload: false }, "16", 120),
    (Alike { number: OCTET_BUFFER, payload: false }, "17", 40),
    (Alike { number: UNUSABLE, payload: true }, "9 of the payload", 340),
    (Alike { number: GROWTH, payload: true }, "10", 31),
];

const APART: [Row; 12] = [
    (Apart { number: SIGNAL, ours: 0 }, "13, ours accepted", 570),
    (Apart { number: SIGNAL, ours: SERVICE }, "14", 1_350),
    (Apart { number: SIGNAL, ours: LENGTH }, "15", 80),
    (Apart { number: SIGNAL, ours: ENDS }, "16", 180),
    (Apart { number: SIGNAL, ours: OCTET_BUFFER }, "17", 63),
    (Apart { number: SIGNAL, ours: UNUSABLE }, "9", 106),
    (Apart { number: SERVICE, ours: 0 }, "14, ours accepted", 270),
    (Apart { number: SERVICE, ours: LENGTH }, "15", 38),
    (Apart { number: SERVICE, ours: ENDS }, "16", 82),
    (Apart { number: SERVICE, ours: OCTET_BUFFER }, "17", 28),
    (Apart { number: SERVICE, ours: UNUSABLE }, "9", 205),
    (Apart { number: SERVICE, ours: GROWTH }, "10", 20),
];

/// How often a frame that was written must be read at each rate, without the clock bit and with it: as sent, whole and
/// with room; and otherwise.
const SENT: [u64; 2] = [17, 16];

/// How often the smallest lead must be that of one symbol alone, at 10 and at 20.
const LEADS: [(Stands, &str, [u64; 2]); 4] = [
    (Stands::First, "the first symbol's", [7, 7]),
    (Stands::Preamble, "of the preamble", [16, 17]),
    (Stands::Header, "of the header", [10, 10]),
    (Stands::Payload, "of the payload", [27, 29]),
];

/// The rarest rate and clock bit of frames that were written.
fn sent(count: &impl Fn(Spoiled) -> u64) -> [Way; 2] {
    let frames = || Rate::ALL.into_iter().flat_map(|rate| [0, 1].map(|clock| (u64::from(rate.code()), clock)));
    let of = |as_sent: bool| frames().map(move |(rate, clock)| Spoiled::By1997 { rate, clock, as_sent });
    let rarest = |as_sent: bool| of(as_sent).map(count).min().unwrap_or(0);
    [("each as sent", rarest(true), SENT[0]), ("otherwise", rarest(false), SENT[1])]
}

/// How often the smallest lead must be a tie of the payload's.
const TIED: u64 = 12;

/// Shows how often each was met of reads as the guides of 1997 read; what is short of it.
pub fn guides(total: &Outcome) -> Vec<String> {
    let op = "read 1997";
    let held = |what: Held| total.held.get(&what).copied().unwrap_or(0);
    let count = |what: Guided| held(Held::Guides(what));
    let rows =
        |rows: &[Row]| -> Vec<Way> { rows.iter().map(|(what, shown, least)| (*shown, count(*what), *least)).collect() };
    let mut short = Vec::new();
    for (title, no_length) in [("13 and 14", false), ("with no LENGTH", true)] {
        let seen = REFUSED.into_iter().zip(refused(&count, no_length));
        short.extend(ways(op, title, &seen.map(|((shown, least), seen)| (shown, seen, least)).collect::<Vec<Way>>()));
    }
    short.extend(ways(op, "8 to 12 come first", &rows(&BEFORE)));
    short.extend(ways(op, "as a hard read", &rows(&ALIKE)));
    short.extend(ways(op, "not as a hard read", &rows(&APART)));
    short.extend(ways(op, "frames written", &sent(&|what| held(Held::Spoils(what)))));
    let won = |lead: Lead| total.won.get(&(op, lead)).copied().unwrap_or(0);
    for (at, rate) in [10, 20].into_iter().enumerate() {
        let title = ["smallest lead at 10", "at 20"][at];
        let seen = LEADS.map(|(stands, shown, least)| (shown, won(Lead::Alone(stands, rate)), least[at]));
        short.extend(ways(op, title, &seen));
    }
    short.extend(ways(op, "a lead of 0", &[("in the payload", won(Lead::Tied(Stands::Payload)), TIED)]));
    short
}
