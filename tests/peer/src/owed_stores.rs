//! What a whole run owes of stores: each refusal beside each later one that can hold with it and at each entry,
//! versions, unknown tags, lengths of bodies, offsets, rooms, values of a change and numbers that are good in their
//! lowest bits, and answers that go together.

use crate::bridge::Outcome;
use crate::owed::{ways, Way};
use crate::relations::Held;
use crate::store::{FIRST_HIGH, MOST_ENTRIES};
use crate::stored::Stored::{
    self, At, Before, Beside, Body, ChangedBack, Count, Entries, Far, High, LeftAll, Long, Mends, Passed, RefusedAlike,
    Room, Same, Setting, Stands, Together, Value, Version, WideTag, WideValue, WideWritten,
};
use crate::stored::CUTS;

/// What is owed, by its name.
type Row = (Stored, &'static str, u64);

/// How often a refusal must be given although the next one holds too, by a read and by a change.
const NEIGHBOURS: [(u64, u64, &str, u64, u64); 7] = [
    (21, 22, "21 before 22", 4_200, 800),
    (22, 23, "22 before 23", 370, 370),
    (23, 24, "23 before 24", 300, 300),
    (24, 25, "24 before 25", 1_150, 120),
    (25, 26, "25 before 26", 510, 1_450),
    (26, 27, "26 before 27", 780, 25),
    (27, 28, "27 before 28", 36, 80),
];

/// How often each must be given although one that is not the next holds too: by a read, by a change, and by a change
/// whose tag is refused with 30. Without a whole table no more than 22 can be asked, without a setting not 28.
const LATER: [u64; 3] = [11, 17, 22];

const READ: [Row; 6] = [
    (Version(0), "version 0", 5),
    (Version(1), "1", 950),
    (Version(2), "2", 1_600),
    (Version(255), "255", 11),
    (Far { setting: true, high: 1 }, "a setting from 256 on", 160),
    (Long(3384), "the longest", 1),
];

/// How often each must be met of good reads: each version, each tag passed over, each number of entries, each length of
/// a body that is passed over, and each high octet of such a body's offset; and each tag refused with 25.
const EACH: [u64; 6] = [2, 7, 9, 3, 1, 3];

/// How often each must be met of refused reads: 22 of each number of entries, 21 of each table that is an octet short,
/// 23 and 24 at each of 16 entries, and 27 of each setting at each length.
const EACH_REFUSED: [u64; 5] = [1, 1, 9, 13, 1];

const CHANGED: [Row; 13] = [
    (Before("store change", 30, 28), "30 before 28", 95),
    (Same { tag: 1 }, "the same kind", 23),
    (Same { tag: 2 }, "rate", 13),
    (Same { tag: 3 }, "phase", 44),
    (Together { tag: 1 }, "short with 10, by the kind", 1),
    (Together { tag: 2 }, "by the rate", 3),
    (ChangedBack { tag: 1 }, "a kind read back", 45),
    (ChangedBack { tag: 2 }, "a rate", 49),
    (ChangedBack { tag: 3 }, "a phase", 60),
    (LeftAll(28), "left by 28", 6_200),
    (LeftAll(30), "by 30", 3_300),
    (RefusedAlike(28), "as the read before it, by 28", 290),
    (RefusedAlike(21), "by 21", 1_900),
];

/// How often each octet value must be asked for each setting, and each setting and each tag with a number that is good
/// in its lowest bits; how often a change must be refused as the read before it, with each number; how often each
/// setting must be changed to what would put a refused store right, and each unknown tag where it stands.
const EACH_CHANGE: [u64; 6] = [7, 200, 200, 90, 8, 1];

const WRITTEN: [Row; 8] = [
    (Before("store write", 28, 29), "28 before 29", 200),
    (Stored::WrittenBack, "read back", 130),
    (Stored::Serves, "a frame by settings read", 50),
    (Beside(6), "beside a frame refused with none of 1, 2, 3, 5", 28),
    (Beside(1), "with 1", 1_100),
    (Beside(2), "with 2", 120),
    (Beside(3), "with 3", 8),
    (Beside(5), "with 5", 28),
];

/// How often each room from 0 to 20 must be met, with settings that are allowed and with others, and more; how often
/// each number must be good in its lowest bits.
const EACH_WRITE: [u64; 3] = [4, 12, 210];

/// Each refusal with each later one but the next, where both can hold.
fn later(op: &'static str) -> impl Iterator<Item = Stored> {
    let pairs = (22..=26).flat_map(|number| (number + 2..=28).map(move |later| (number, later)));
    pairs.filter(|pair| *pair != (26, 28)).map(move |(number, later)| Before(op, number, later))
}

/// What is owed of reads; the rarest of many ways stands for all.
fn read(count: &impl Fn(Stored) -> u64) -> Vec<Way> {
    let rarest = |of: &mut dyn Iterator<Item = Stored>| of.map(count).min().unwrap_or(0);
    let mut rows = READ.map(|(what, shown, least)| (shown, count(what), least)).to_vec();
    rows.push(("each version", rarest(&mut (0..=255).map(Version)), EACH[0]));
    let unknown = (0..FIRST_HIGH).filter(|tag| !(1..=3).contains(tag));
    rows.push(("each tag passed over", rarest(&mut unknown.map(Passed)), EACH[1]));
    rows.push(("3 to 16 entries", rarest(&mut (3..=MOST_ENTRIES).map(Entries)), EACH[2]));
    rows.push(("each body", rarest(&mut (0..=255).map(Body)), EACH[3]));
    rows.push(("each offset", rarest(&mut (0..=12).map(|high| Far { setting: false, high })), EACH[4]));
    rows.push(("each high tag", rarest(&mut (FIRST_HIGH..=255).map(High)), EACH[5]));
    rows
}

/// What is owed of refused reads, likewise.
fn refused(count: &impl Fn(Stored) -> u64) -> Vec<Way> {
    let rarest = |of: &mut dyn Iterator<Item = Stored>| of.map(count).min().unwrap_or(0);
    let many = |entries| Count { number: 22, entries };
    let short = |entries| Count { number: 21, entries };
    let bodies = (1..=3).flat_map(|tag| (0..=255).filter(|len| *len != 1).map(move |len| Setting { tag, len }));
    vec![
        ("22 of each number", rarest(&mut (17..=255).map(many)), EACH_REFUSED[0]),
        ("21 of each", rarest(&mut (1..=255).map(short)), EACH_REFUSED[1]),
        ("23 at each of 16", rarest(&mut (1..16).map(|entry| At { number: 23, entry })), EACH_REFUSED[2]),
        ("24 at each", rarest(&mut (0..=16).map(|entry| At { number: 24, entry })), EACH_REFUSED[3]),
        ("27 of each length", rarest(&mut { bodies }), EACH_REFUSED[4]),
    ]
}

fn changed(count: &impl Fn(Stored) -> u64) -> Vec<Way> {
    let rarest = |of: &mut dyn Iterator<Item = Stored>| of.map(count).min().unwrap_or(0);
    let mut rows = CHANGED.map(|(what, shown, least)| (shown, count(what), least)).to_vec();
    let mut values = (1..=3).flat_map(|tag| (0..=255).map(move |value| Value { tag, value }));
    rows.push(("each value", rarest(&mut values), EACH_CHANGE[0]));
    let cuts = || (1..=3).flat_map(|tag| CUTS.map(|bits| (tag, bits)));
    rows.push(("wide values", rarest(&mut cuts().map(|(tag, bits)| WideValue { tag, bits })), EACH_CHANGE[1]));
    rows.push(("wide tags", rarest(&mut cuts().map(|(tag, bits)| WideTag { tag, bits })), EACH_CHANGE[2]));
    rows.push(("as the read by each", rarest(&mut (21..=28).map(RefusedAlike)), EACH_CHANGE[3]));
    let of_tag = |number| Before("store change", number, 30);
    rows.push(("each before 30", rarest(&mut (21..=28).map(of_tag)), LATER[2]));
    rows.push(("would put right", rarest(&mut (1..=3).map(|tag| Mends { tag })), EACH_CHANGE[4]));
    let mut unknown = (0..u64::from(FIRST_HIGH)).filter(|tag| !(1..=3).contains(tag)).map(|tag| Stands { tag });
    rows.push(("each unknown that stands", rarest(&mut unknown), EACH_CHANGE[5]));
    rows
}

fn written(count: &impl Fn(Stored) -> u64) -> Vec<Way> {
    let rarest = |of: &mut dyn Iterator<Item = Stored>| of.map(count).min().unwrap_or(0);
    let mut rows = WRITTEN.map(|(what, shown, least)| (shown, count(what), least)).to_vec();
    let rooms = |good: bool| (0..=21).map(move |octets| Room { octets, good });
    rows.push(("each room", rarest(&mut rooms(true)), EACH_WRITE[0]));
    rows.push(("refused", rarest(&mut rooms(false)), EACH_WRITE[1]));
    let mut wide = (0..3).flat_map(|at| CUTS.map(|bits| WideWritten { at, bits }));
    rows.push(("wide numbers", rarest(&mut wide), EACH_WRITE[2]));
    rows
}

/// Shows how often each was met of stores; what is short of it.
pub fn stores(total: &Outcome) -> Vec<String> {
    let count = |what: Stored| total.held.get(&Held::Stores(what)).copied().unwrap_or(0);
    let order = |op: &'static str, of_change: bool| {
        let next = NEIGHBOURS.map(|(number, later, shown, of_read, changed)| {
            (shown, count(Before(op, number, later)), if of_change { changed } else { of_read })
        });
        let each = later(op).map(count).min().unwrap_or(0);
        ways(op, "refusals beside later", &[&next[..], &[("each later", each, LATER[usize::from(of_change)])]].concat())
    };
    let mut short = order("store read", false);
    short.extend(order("store change", true));
    short.extend(ways("store read", "what is read", &read(&count)));
    short.extend(ways("store read", "what is refused", &refused(&count)));
    short.extend(ways("store change", "what is changed", &changed(&count)));
    short.extend(ways("store write", "what is written", &written(&count)));
    short
}
