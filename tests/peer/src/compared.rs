//! What is met of comparisons, by what is expected of them, and how they go together with full reads of the same
//! recordings, with their own lists, with the comparison the other way round, and with the frames that were written,
//! whatever this program expects.

use crate::bits::Rate;
use crate::calls::{Answer, Call};
use crate::compare_calls::{trimmed, CompareCall, Rows};
use crate::comparing::{differences, Entry};
use crate::frame::Kind;
use crate::relations::Held;
use crate::spoiling::keeps_limits;
use std::collections::BTreeMap;

/// What was met of a comparison, or was seen to hold of one. A list is that of the octets, or else of the chips.
#[derive(Clone, Copy, PartialEq, Eq, PartialOrd, Ord)]
pub enum Compared {
    /// A list of one entry or more beside the places of its row.
    Places {
        octets: bool,
        fit: Fit,
    },
    /// One list has entries and fits, the other has and doesn't: the one that fits.
    FitsAlone {
        octets: bool,
    },
    /// One recording alone is refused, with this number.
    Refused {
        second: bool,
        number: u64,
    },
    /// Both are, the first with this number and the second with this one.
    BothRefused {
        numbers: [u64; 2],
    },
    /// Both are accepted, of this kind, the first with this rate; whether the rates are one.
    Accepted {
        kind: u64,
        rate: u64,
        alike: bool,
    },
    /// A recording is longer than the other, or a payload than the other; no list goes on behind the shorter one.
    Longer {
        octets: bool,
        second: bool,
    },
    /// A kind that is none, with chips that differ.
    NoKind,
    /// An octet listed, of the first recording or of the second.
    Octet {
        second: bool,
        octet: u8,
    },
    /// The only index listed, as its place in a block of 64.
    Alone {
        octets: bool,
        place: usize,
    },
    /// The last index that is compared is listed, of a row with so many behind its last whole block of 64.
    Last {
        octets: bool,
        rest: usize,
    },
    /// All that is compared differs, one or more.
    All {
        octets: bool,
    },
    /// An index of 2^k or more is listed in the row, for k of 8, 16 and 20.
    Far {
        bits: u32,
    },
    /// 2^k entries or more, in a list that fits or not.
    Many {
        octets: bool,
        bits: u32,
        fits: bool,
    },
    /// Chips differ behind both frames; alone: only there.
    BehindFrames {
        alone: bool,
    },
    /// The record and the octets are those of a full read with as much room, refused with this number.
    AsRead {
        second: bool,
        number: u64,
    },
    /// The list applied to the first gives the second, as far as both go.
    Gives {
        octets: bool,
    },
    /// A list that does not fit left its row zeros.
    LeftZeros {
        octets: bool,
    },
    /// One recording twice, with as much room, refused with this number; or with other room.
    Itself {
        number: u64,
    },
    ItselfOtherwise,
    /// Recordings of one frame that was written or of two, both within the limits: the octets listed are those at which
    /// the payloads differ.
    Sent {
        frames: Frames,
    },
    /// The comparison the other way round has the same entries exchanged; whether both are accepted.
    Exchanged {
        accepted: bool,
    },
}

/// Frames that were written: one, two of one rate, or two of different rates.
#[derive(Clone, Copy, PartialEq, Eq, PartialOrd, Ord)]
pub enum Frames {
    One,
    Two,
    TwoRates,
}

/// The entries of a list by the places of its row: three times as many, one more or two, one or two too few, an entry
/// too few, no places at all, and much room or little.
#[derive(Clone, Copy, PartialEq, Eq, PartialOrd, Ord)]
pub enum Fit {
    Exactly,
    OneMore,
    TwoMore,
    Roomy,
    OneShort,
    TwoShort,
    EntryShort,
    Short,
    Empty,
}

impl Fit {
    fn of(entries: u64, places: usize) -> Fit {
        match (places, places as i64 - 3 * entries as i64) {
            (0, _) => Fit::Empty,
            (_, 0) => Fit::Exactly,
            (_, 1) => Fit::OneMore,
            (_, 2) => Fit::TwoMore,
            (_, -1) => Fit::OneShort,
            (_, -2) => Fit::TwoShort,
            (_, -3) => Fit::EntryShort,
            (_, more) => {
                if more > 0 {
                    Fit::Roomy
                } else {
                    Fit::Short
                }
            }
        }
    }
}

/// The powers of 2 that an index or a number of entries may be cut to.
pub const FAR: [u32; 3] = [8, 16, 20];

/// A comparison as it is met: its call, the numbers that are answered, and what its rows hold.
struct Seen<'a> {
    call: &'a CompareCall,
    records: [&'a [u64]; 2],
    /// The entries of both lists.
    entries: [u64; 2],
    n: [u64; 2],
    rows: &'a Rows,
}

impl<'a> Seen<'a> {
    fn of(call: &'a CompareCall, numbers: &'a [u64], rows: &'a Rows) -> Seen<'a> {
        let [chips, octets, one, other] = numbers[18..].try_into().expect("four numbers behind the records");
        let records = [&numbers[..9], &numbers[9..18]];
        Seen { call, records, entries: [chips, octets], n: [one, other], rows }
    }

    fn accepted(&self) -> bool {
        self.records.iter().all(|record| record[0] == 0)
    }

    fn fits(&self, list: usize) -> bool {
        self.entries[list].saturating_mul(3) <= self.call.places[list] as u64
    }

    /// How many chips or octets both have.
    fn both(&self, list: usize) -> u64 {
        let lens = if list == 0 { [0, 1].map(|side| self.call.recordings[side].len() as u64) } else { self.n };
        lens[0].min(lens[1])
    }

    /// The entries of a list that fits, the zeros at the row's end put back.
    fn list(&self, list: usize) -> Vec<Entry> {
        let mut row = self.rows.lists[list].clone();
        row.resize(3 * self.entries[list] as usize, 0);
        row.chunks(3).map(|entry| entry.try_into().expect("three places")).collect()
    }
}

/// Counts what is met of a comparison, by what is expected of it.
pub fn count(call: &Call, expected: &Answer, held: &mut BTreeMap<Held, u64>) {
    let Call::Compare(call) = call else { return };
    let rows = Rows::of(&expected.buffer);
    let seen = Seen::of(call, &expected.numbers, &rows);
    let mut met = readings(&seen);
    met.extend(lengths(&seen));
    for list in 0..2 {
        met.extend(listed(&seen, list));
    }
    let alone = |list: usize| seen.fits(list) && !seen.fits(1 - list) && seen.entries[list] > 0;
    met.extend((0..2).filter(|list| alone(*list)).map(|list| Compared::FitsAlone { octets: list == 1 }));
    met.into_iter().for_each(|what| *held.entry(Held::Compares(what)).or_default() += 1);
}

fn readings(seen: &Seen) -> Vec<Compared> {
    let [first, second] = seen.records;
    let mut met = vec![match (first[0], second[0]) {
        (0, 0) => Compared::Accepted { kind: seen.call.kind, rate: first[2], alike: first[2] == second[2] },
        (0, number) => Compared::Refused { second: true, number },
        (number, 0) => Compared::Refused { second: false, number },
        (one, other) => Compared::BothRefused { numbers: [one, other] },
    }];
    if seen.call.kind > 1 && seen.entries[0] > 0 {
        met.push(Compared::NoKind);
    }
    if seen.accepted() && seen.fits(0) {
        let (used, all) = (first[5].max(second[5]), seen.list(0));
        let in_frames = all.iter().filter(|entry| entry[0] < used).count();
        met.extend((in_frames < all.len()).then_some(Compared::BehindFrames { alone: in_frames == 0 }));
    }
    met
}

fn lengths(seen: &Seen) -> Vec<Compared> {
    let lens = [0, 1].map(|side| seen.call.recordings[side].len() as u64);
    let differ = [lens, seen.n].into_iter().enumerate().filter(|(_, [one, other])| one != other);
    differ.map(|(list, [one, other])| Compared::Longer { octets: list == 1, second: other > one }).collect()
}

/// Of a list with one entry or more.
fn listed(seen: &Seen, list: usize) -> Vec<Compared> {
    let (octets, entries, both) = (list == 1, seen.entries[list], seen.both(list));
    if entries == 0 {
        return Vec::new();
    }
    let fits = seen.fits(list);
    let mut met = vec![Compared::Places { octets, fit: Fit::of(entries, seen.call.places[list]) }];
    met.extend(FAR.into_iter().filter(|bits| entries >> bits > 0).map(|bits| Compared::Many { octets, bits, fits }));
    met.extend((entries == both).then_some(Compared::All { octets }));
    if !fits {
        return met;
    }
    let entries = seen.list(list);
    let last = entries.last().expect("one entry or more")[0];
    met.extend((entries.len() == 1).then_some(Compared::Alone { octets, place: last as usize % 64 }));
    met.extend((last + 1 == both).then_some(Compared::Last { octets, rest: both as usize % 64 }));
    if octets {
        return met;
    }
    met.extend(FAR.into_iter().filter(|bits| last >> bits > 0).map(|bits| Compared::Far { bits }));
    for [_, one, other] in entries.into_iter().take(300) {
        met.push(Compared::Octet { second: false, octet: one as u8 });
        met.push(Compared::Octet { second: true, octet: other as u8 });
    }
    met
}

/// A full read that was made: its recording and room, and what it answered.
struct Full {
    kind: u64,
    chips: Vec<u8>,
    room: usize,
    numbers: Vec<u64>,
    octets: Vec<u8>,
}

/// A frame that was written: its kind, rate and payload, and its chips.
struct Wrote {
    kind: u64,
    rate: u64,
    payload: Vec<u8>,
    chips: Vec<u8>,
}

impl Wrote {
    /// Whether a recording begins with the frame, within the limits, and there is room for its payload.
    fn stands_in(&self, call: &CompareCall, side: usize) -> bool {
        let (Some(kind), Some(rate)) = (Kind::of_number(self.kind), Rate::of_code(self.rate)) else { return false };
        let recorded = call.recordings[side].get(..self.chips.len());
        let stands = |recorded: &[u8]| keeps_limits(kind, rate, &self.chips, recorded);
        self.kind == call.kind && self.payload.len() <= call.rooms[side] && recorded.is_some_and(stands)
    }
}

/// The last two frames written, the last two full reads of hard recordings, and the last comparison.
#[derive(Default)]
pub struct Compares {
    wrote: [Option<Wrote>; 2],
    full: [Option<Full>; 2],
    last: Option<(CompareCall, Vec<u64>, Rows)>,
}

/// What goes together, or what doesn't.
type Holds = Result<Vec<Compared>, &'static str>;

impl Compares {
    pub fn hold(&mut self, call: &Call, answer: &Answer) -> Holds {
        match call {
            Call::ReadHard { kind, chips, octets_len } => {
                let (numbers, octets) = (answer.numbers.clone(), trimmed(&answer.buffer));
                let full = Full { kind: *kind, chips: chips.clone(), room: *octets_len, numbers, octets };
                self.full.swap(0, 1);
                self.full[1] = Some(full);
                Ok(Vec::new())
            }
            Call::Write { kind, rate, payload, .. } if answer.numbers[0] == 0 => {
                let frame = answer.buffer.get(..answer.numbers[1] as usize);
                let chips = frame.ok_or("a write tells of more chips than its buffer has")?.to_vec();
                self.wrote.swap(0, 1);
                self.wrote[1] = Some(Wrote { kind: *kind, rate: *rate, payload: payload.clone(), chips });
                Ok(Vec::new())
            }
            Call::Compare(call) => {
                let rows = Rows::of(&answer.buffer);
                let seen = Seen::of(call, &answer.numbers, &rows);
                let mut holds = self.reads(&seen)?;
                for list in 0..2 {
                    holds.extend(gives(&seen, list)?);
                }
                holds.extend(itself(&seen)?);
                holds.extend(self.exchanged(&seen)?);
                holds.extend(self.sent(&seen)?);
                self.last = Some((call.clone(), answer.numbers.clone(), rows));
                Ok(holds)
            }
            _ => Ok(Vec::new()),
        }
    }

    /// The records and the octets are those of full reads.
    fn reads(&self, seen: &Seen) -> Holds {
        let CompareCall { kind, recordings, rooms, .. } = seen.call;
        let mut holds = Vec::new();
        for (side, full) in (0..2).flat_map(|side| self.full.iter().flatten().map(move |full| (side, full))) {
            if full.kind != *kind || full.room != rooms[side] || full.chips != recordings[side] {
                continue;
            }
            if full.numbers != seen.records[side] || full.octets != seen.rows.octets[side] {
                return Err("a record or octets that are not those of a full read");
            }
            holds.push(Compared::AsRead { second: side == 1, number: full.numbers[0] });
        }
        Ok(holds)
    }

    /// The frames that stand in both recordings, if they do, give the octets that are listed.
    fn sent(&self, seen: &Seen) -> Holds {
        let stands = |side: usize| self.wrote.iter().flatten().find(move |wrote| wrote.stands_in(seen.call, side));
        let (Some(first), Some(second)) = (stands(0), stands(1)) else { return Ok(Vec::new()) };
        let list = differences(&first.payload, &second.payload);
        let n = [first, second].map(|wrote| wrote.payload.len() as u64);
        if !seen.accepted() || seen.n != n || seen.entries[1] != list.len() as u64 {
            return Err("frames within the limits that are not compared as they were sent");
        }
        if seen.fits(1) && seen.list(1) != list {
            return Err("a list that is not that of the payloads sent");
        }
        let frames = match (first.chips == second.chips, first.rate == second.rate) {
            (true, _) => Frames::One,
            (_, true) => Frames::Two,
            _ => Frames::TwoRates,
        };
        Ok(vec![Compared::Sent { frames }])
    }

    /// Beside the comparison before it, if that was the other way round.
    fn exchanged(&self, seen: &Seen) -> Holds {
        let Some((call, numbers, rows)) = self.last.as_ref() else { return Ok(Vec::new()) };
        if call.exchanged() != *seen.call {
            return Ok(Vec::new());
        }
        let before = Seen::of(call, numbers, rows);
        let same = before.entries == seen.entries
            && [before.n[1], before.n[0]] == seen.n
            && [before.records[1], before.records[0]] == seen.records
            && [&rows.octets[1], &rows.octets[0]] == [&seen.rows.octets[0], &seen.rows.octets[1]];
        let turned = |list: usize| before.list(list).into_iter().map(|[index, one, other]| [index, other, one]);
        let alike = |list: usize| !seen.fits(list) || turned(list).eq(seen.list(list));
        if !(same && alike(0) && alike(1)) {
            return Err("not the comparison before it, exchanged");
        }
        Ok(vec![Compared::Exchanged { accepted: seen.accepted() }])
    }
}

/// A list gives the one from the other and has no more than that; one that doesn't fit leaves its row zeros.
fn gives(seen: &Seen, list: usize) -> Holds {
    let octets = list == 1;
    if !seen.fits(list) {
        let zeros = seen.rows.lists[list].is_empty();
        return if zeros { Ok(vec![Compared::LeftZeros { octets }]) } else { Err("a part of a list that doesn't fit") };
    }
    let both = seen.both(list) as usize;
    if seen.entries[list] > both as u64 {
        return Err("more entries than both have");
    }
    let [mut first, second] = [0, 1].map(|side| {
        let row = if octets { &seen.rows.octets[side] } else { &seen.call.recordings[side] };
        row.iter().copied().chain(std::iter::repeat(0)).take(both).collect::<Vec<u8>>()
    });
    let entries = seen.list(list);
    let rising = entries.windows(2).all(|pair| pair[0][0] < pair[1][0]);
    if seen.rows.lists[list].len() as u64 > 3 * seen.entries[list] || !rising {
        return Err("a list with more than its entries, or in another order");
    }
    for [index, one, other] in entries {
        match first.get_mut(index as usize) {
            Some(octet) if u64::from(*octet) == one && one != other && other < 256 => *octet = other as u8,
            _ => return Err("an entry that is no difference"),
        }
    }
    if first != second {
        return Err("a list that doesn't give the one from the other");
    }
    Ok(if seen.entries[list] > 0 { vec![Compared::Gives { octets }] } else { Vec::new() })
}

/// One recording twice has no difference.
fn itself(seen: &Seen) -> Holds {
    let CompareCall { recordings, rooms, .. } = seen.call;
    if recordings[0] != recordings[1] {
        return Ok(Vec::new());
    }
    let ([first, second], [one, other]) = (seen.records, &seen.rows.octets);
    let alike = rooms[0] == rooms[1];
    if seen.entries != [0, 0] || alike && (first != second || one != other) {
        return Err("a recording that differs from itself");
    }
    Ok(vec![if alike { Compared::Itself { number: first[0] } } else { Compared::ItselfOtherwise }])
}
