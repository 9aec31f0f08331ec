//! What a whole run owes of reasons: each number as a full read has it, with the same room and with one of more than 32
//! bits; each octet, SIGNAL and rest of SERVICE that can be found, growths by 1 and by 3 in each part, CRCs of zeros
//! and of ones, LENGTHs of each sort, rooms about n, and those refusals that show 0 and 0.

use crate::bits::Rate;
use crate::bridge::Outcome;
use crate::families::KINDS;
use crate::frame::Kind;
use crate::owed::{ways, Way};
use crate::reasons::Reasoned::{
    self, Alike, AsRead, AsReadWide, Cut, Grown, Left, Nothing, Octet, Otherwise, Outside, Short, Signal, Wide,
    WideRefused,
};
use crate::reasons::Room::{ByMore, ByOne, None as NoRoom};
use crate::reasons::Stands::{First, Header, Last, Payload, Sfd, Sync};
use crate::relations::Held;

/// What is owed, by its name.
type Row = (Reasoned, &'static str, u64);

/// How often each number must be that of a full read, with the same room, and with room for every payload in the one
/// and 2^32 octets or more in the other; and how often the second, whatever was read before.
const NUMBERS: [(u64, &str, u64, u64, u64); 12] = [
    (0, "0", 13_000, 600, 0),
    (1, "1", 5_000, 80, 80),
    (8, "8", 2_300, 44, 770),
    (9, "9", 8_000, 210, 2_000),
    (10, "10", 3_300, 68, 460),
    (11, "11", 1_400, 32, 1_500),
    (12, "12", 1_200, 28, 780),
    (13, "13", 3_600, 24, 290),
    (14, "14", 3_100, 21, 630),
    (15, "15", 1_800, 17, 9_900),
    (16, "16", 3_700, 110, 5_400),
    (17, "17", 770, 0, 0),
];

const GROWTHS: [Row; 12] = [
    (Grown { at: Sync, by: 1 }, "by 1 in SYNC", 1_200),
    (Grown { at: Sync, by: 3 }, "by 3", 1_300),
    (Grown { at: Sfd, by: 1 }, "by 1 in the SFD", 160),
    (Grown { at: Sfd, by: 3 }, "by 3", 130),
    (Grown { at: Header, by: 1 }, "by 1 in the header", 130),
    (Grown { at: Header, by: 3 }, "by 3", 140),
    (Grown { at: First, by: 1 }, "by 1 first in the payload", 150),
    (Grown { at: First, by: 3 }, "by 3", 140),
    (Grown { at: Payload, by: 1 }, "by 1 in it", 380),
    (Grown { at: Payload, by: 3 }, "by 3", 370),
    (Grown { at: Last, by: 1 }, "by 1 last in it", 110),
    (Grown { at: Last, by: 3 }, "by 3", 100),
];

const SHOWN: [Row; 25] = [
    (Alike { worked_out: true, all: 0 }, "a CRC of zeros worked out", 5),
    (Alike { worked_out: true, all: 0xFFFF }, "of ones", 5),
    (Alike { worked_out: false, all: 0 }, "of zeros read", 5),
    (Alike { worked_out: false, all: 0xFFFF }, "of ones", 5),
    (Nothing(13), "0 and 0 by 13", 65),
    (Nothing(15), "by 15", 100),
    (Outside { rate: 10, n: 0 }, "n 0 at 10", 39),
    (Outside { rate: 20, n: 0 }, "at 20", 46),
    (Outside { rate: 55, n: 0 }, "at 55", 26),
    (Outside { rate: 110, n: 0 }, "at 110", 25),
    (Outside { rate: 110, n: -1 }, "n -1", 10),
    (Outside { rate: 10, n: 1 }, "n above 4,095 at 10", 510),
    (Outside { rate: 20, n: 1 }, "at 20", 870),
    (Outside { rate: 55, n: 1 }, "at 55", 1_500),
    (Outside { rate: 110, n: 1 }, "at 110", 3_200),
    (Otherwise { rate: 10 }, "another LENGTH at 10", 20_000),
    (Otherwise { rate: 20 }, "at 20", 8_900),
    (Otherwise { rate: 55 }, "at 55", 2_800),
    (Otherwise { rate: 110 }, "at 110", 2_800),
    (Cut { far: false }, "ended before 65,536 chips", 25_000),
    (Cut { far: true }, "behind", 42),
    (Short(NoRoom), "no room", 370),
    (Short(ByOne), "an octet short", 3_500),
    (Short(ByMore), "shorter", 3_100),
    (Wide { less: true }, "room of 2^32 and less than n", 3_200),
];

/// How often a good read must have room of 2^32 and n or more, each kind that is none must come and each up to 9, each
/// unusable octet in the front and in the payload, each SIGNAL that is no rate of a kind, and each rest of SERVICE at a
/// rate.
const WIDE: u64 = 580;
const EACH_KIND: [u64; 2] = [400, 2];
const EACH_OCTET: [u64; 2] = [16, 11];
const EACH_SIGNAL: u64 = 3;
const EACH_REST: u64 = 5;

/// The SIGNALs that are no rate of a kind.
fn no_rates() -> impl Iterator<Item = Reasoned> {
    let all = Kind::BOTH.into_iter().flat_map(|kind| (0..=255).map(move |signal| (kind, signal)));
    all.filter(|(kind, signal)| !Rate::of_code(u64::from(*signal)).is_some_and(|rate| kind.has(rate)))
        .map(|(kind, signal)| Signal { kind: kind.number(), signal })
}

/// What SERVICE can have beside the bits allowed: 2 and, at 11 Mbit/s, 7.
fn rests() -> impl Iterator<Item = Reasoned> {
    let all = Rate::ALL.into_iter().flat_map(|rate| (1..=255).map(move |service| (rate, service)));
    all.filter(|(rate, service)| service & 4 == 0 && (*rate != Rate::Mbit11 || service & 0x80 == 0))
        .map(|(rate, service)| Left { rate: rate.code(), service })
}

/// Shows how often each was met of reasons; what is short of it.
pub fn reasons(total: &Outcome) -> Vec<String> {
    let count = |what: Reasoned| total.held.get(&Held::Reasons(what)).copied().unwrap_or(0);
    let rarest = |of: &mut dyn Iterator<Item = Reasoned>| of.map(count).min().unwrap_or(0);
    let rows = |rows: &[Row]| rows.iter().map(|(what, shown, least)| (*shown, count(*what), *least)).collect();
    let as_read = NUMBERS.map(|(number, shown, least, _, _)| (shown, count(AsRead(number)), least));
    let as_read_wide = NUMBERS.map(|(number, shown, _, least, _)| (shown, count(AsReadWide(number)), least));
    let wide = NUMBERS.map(|(number, shown, _, _, least)| (shown, count(WideRefused(number)), least));
    let mut shown: Vec<Way> = rows(&SHOWN);
    shown.push(("and no less", count(Wide { less: false }), WIDE));
    shown.push(("each kind", rarest(&mut KINDS[2..].iter().map(|kind| Reasoned::Kind(*kind))), EACH_KIND[0]));
    shown.push(("to 9", rarest(&mut (2..=9).map(Reasoned::Kind)), EACH_KIND[1]));
    let octets = |payload: bool| (5..=255).map(move |octet| Octet { payload, octet });
    shown.push(("each octet in the front", rarest(&mut octets(false)), EACH_OCTET[0]));
    shown.push(("in the payload", rarest(&mut octets(true)), EACH_OCTET[1]));
    shown.push(("each SIGNAL", rarest(&mut no_rates()), EACH_SIGNAL));
    shown.push(("each rest of SERVICE", rarest(&mut rests()), EACH_REST));
    let mut short = ways("why", "as a full read", &as_read);
    short.extend(ways("why", "with room of 2^32", &as_read_wide));
    short.extend(ways("why", "refused, of 2^32", &wide));
    short.extend(ways("why", "growths", &rows(&GROWTHS)));
    short.extend(ways("why", "what is shown", &shown));
    short
}
