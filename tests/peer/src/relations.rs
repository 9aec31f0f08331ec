//! How the answers over one hard recording go together, whatever this program expects of each: what its front tells,
//! what full reads answer, also as the guides of 1997 read, why they are refused, and what is found in it; and how
//! comparisons, reports and stores go together, and recordings of frames with what was written.

use crate::bits::Rate;
use crate::calls::{Answer, Call};
use crate::compared::{Compared, Compares};
use crate::frame::Kind;
use crate::guides::{Guided, Guides};
use crate::kept::Reports;
use crate::reasons::{self, FullRead, Reasoned};
use crate::refusals::{ENDS, GROWTH, OCTET_BUFFER, UNUSABLE};
use crate::reported::Reported;
use crate::spoils::{Spoiled, Spoils};
use crate::starts::{Sought, Start};
use crate::stored::{Stored, Stores};
use std::collections::BTreeMap;

/// What was seen to hold.
#[derive(Clone, Copy, PartialEq, Eq, PartialOrd, Ord)]
pub enum Held {
    /// A front tells of this kind and rate, without the clock bit or with it, and of a part that isn't empty.
    Tells { kind: u64, rate: u64, clock: u64 },
    /// Two recordings alike in the front, both long enough, have one answer.
    AlikeInFront,
    /// Two recordings alike in a front that is refused with this number have one answer, whatever stands behind it.
    AlikeRefused { number: u64 },
    /// Two recordings alike in the front, one ending in the payload and the other no longer, have one answer.
    AlikeCut,
    /// A full read is refused as the front is, with the same place and LENGTH.
    RefusedAlike,
    /// A full read answers what the front told.
    ReadAlike,
    /// A full read refuses a chip or a symbol of the part.
    SpoiledInPart,
    /// A full read with room for less than n octets is refused with 17.
    ShortOfRoom,
    /// This, of a find or of a read behind it.
    Finds(Start),
    /// This, of a call that asks why.
    Reasons(Reasoned),
    /// This, of a comparison of two recordings.
    Compares(Compared),
    /// This, of a read as the guides of 1997 read.
    Guides(Guided),
    /// This, of a call of the month's report.
    Reports(Reported),
    /// This, of a call of a store.
    Stores(Stored),
    /// This, of a recording of a frame that was written.
    Spoils(Spoiled),
}

/// What the front of a recording told, and what the last full read of it answered, if there was one.
struct Told {
    kind: u64,
    chips: Vec<u8>,
    numbers: [u64; 9],
    full: Option<FullRead>,
}

/// The last read of a front, the last find, the last full reads and comparison, the last reports, stores and frames
/// written, to which those calls are held that follow them.
#[derive(Default)]
pub struct Relations {
    last: Option<Told>,
    sought: Option<Sought>,
    compares: Compares,
    guides: Guides,
    reports: Reports,
    stores: Stores,
    spoils: Spoils,
}

impl Relations {
    /// Holds an answer to the one before it and counts what held, or says what doesn't go together.
    pub fn hold(&mut self, call: &Call, answer: &Answer, held: &mut BTreeMap<Held, u64>) -> Result<(), &'static str> {
        let mut count = |what: Option<Held>| what.into_iter().for_each(|what| *held.entry(what).or_default() += 1);
        match call {
            Call::ReadFront { kind, chips } => {
                let numbers = answer.numbers[..].try_into().expect("nine numbers");
                let told = Told { kind: *kind, chips: chips.clone(), numbers, full: None };
                let alone = told.alone(&answer.buffer);
                let beside = self.last.as_ref().map_or(Ok(None), |last| last.beside(&told));
                self.last = Some(told);
                count(alone?);
                count(beside?);
            }
            Call::ReadHard { kind, chips, octets_len } => {
                if let Some(told) = self.last.as_mut().filter(|told| told.kind == *kind && told.chips == *chips) {
                    let room = *octets_len as u64;
                    told.full = Some(FullRead::new(room, &answer.numbers));
                    count(Some(told.read(&answer.numbers, room)?));
                }
            }
            Call::Why { kind, chips, room } => {
                let numbers = answer.numbers[..].try_into().expect("four numbers");
                let told = self.last.as_ref().filter(|told| told.kind == *kind && told.chips == *chips);
                count(reasons::alone(*kind, chips, *room, &numbers)?.map(Held::Reasons));
                count(told.map_or(Ok(None), |told| told.reason(*room, &numbers))?.map(Held::Reasons));
            }
            Call::Report(call) => {
                self.reports.hold(call, answer)?.into_iter().for_each(|what| count(Some(Held::Reports(what))));
            }
            _ => {}
        }
        self.compares.hold(call, answer)?.into_iter().for_each(|what| count(Some(Held::Compares(what))));
        count(self.guides.hold(call, answer)?.map(Held::Guides));
        count(self.stores.hold(call, answer)?.map(Held::Stores));
        self.spoils.hold(call, answer)?.into_iter().for_each(|spoil| count(Some(Held::Spoils(spoil))));
        self.starts(call, answer)?.into_iter().for_each(|start| count(Some(Held::Finds(start))));
        Ok(())
    }

    /// What holds of a find, or of a read behind one.
    fn starts(&mut self, call: &Call, answer: &Answer) -> Result<Vec<Start>, &'static str> {
        if let Call::Find { kind, chips, offsets } = call {
            let (sought, holds) = Sought::new(*kind, chips, *offsets, &answer.numbers, self.sought.take());
            self.sought = Some(sought);
            return holds;
        }
        self.sought.as_mut().map_or(Ok(Vec::new()), |sought| sought.read(call, answer))
    }
}

impl Told {
    /// A refusal tells number, place and LENGTH alone. Else the part is the recording's chips from `at` to `used`, and
    /// never empty.
    fn alone(&self, part: &[u8]) -> Result<Option<Held>, &'static str> {
        let [number, _, rate, _, clock, n, used, at, count] = self.numbers;
        if number != 0 {
            let nothing = [rate, clock, n, used, at, count] == [0; 6] && part.is_empty();
            return if nothing { Ok(None) } else { Err("a refusal tells more than number, place and LENGTH") };
        }
        if part.is_empty() || part.len() as u64 != count || self.chips.get(at as usize..used as usize) != Some(part) {
            return Err("the part isn't the recording's chips from at to used");
        }
        Ok(Some(Held::Tells { kind: self.kind, rate, clock }))
    }

    /// The chips of the front; none if the recording is shorter. A kind that is none has an empty front.
    fn front(&self) -> Option<&[u8]> {
        self.chips.get(..Kind::of_number(self.kind).map_or(0, Kind::front_chips))
    }

    /// What must be one answer, of this recording and of another that is alike in the front: a good one if the other is
    /// as long as the frame, a 16 if the other is no longer, and any other refusal.
    fn settles(&self, other: &Told) -> Option<Held> {
        let [number, .., used, _, _] = self.numbers;
        match number {
            0 => (other.chips.len() as u64 >= used).then_some(Held::AlikeInFront),
            ENDS => (other.chips.len() <= self.chips.len()).then_some(Held::AlikeCut),
            _ => Some(Held::AlikeRefused { number }),
        }
    }

    /// Two recordings of one kind, alike in the front or both shorter: if one answer settles the other, they are equal.
    fn beside(&self, other: &Told) -> Result<Option<Held>, &'static str> {
        if self.kind != other.kind || self.front() != other.front() {
            return Ok(None);
        }
        let settled = self.settles(other).or(other.settles(self));
        if settled.is_some() && self.numbers != other.numbers {
            return Err("another answer than of a recording alike in the front");
        }
        Ok(settled.filter(|_| self.chips != other.chips))
    }

    /// A full read of the same recording, by its numbers and its room.
    fn read(&self, numbers: &[u64], room: u64) -> Result<Held, &'static str> {
        let [number, place, rate, length, clock, n, used, at, _] = self.numbers;
        let refused = |number: u64, place: u64| numbers == [number, place, 0, length, 0, 0, 0, 0, 0];
        if number != 0 {
            let same = refused(number, place);
            return if same { Ok(Held::RefusedAlike) } else { Err("a full read isn't refused as the front is") };
        }
        if room < n {
            let same = refused(OCTET_BUFFER, 0);
            return if same { Ok(Held::ShortOfRoom) } else { Err("less room than n isn't refused with 17") };
        }
        let in_part = (at..used).contains(&numbers[1]);
        if numbers[..7] == [0, 0, rate, length, n, used, clock] {
            self.led(numbers[7], numbers[8])
        } else if in_part && (refused(UNUSABLE, numbers[1]) || refused(GROWTH, numbers[1])) {
            Ok(Held::SpoiledInPart)
        } else {
            Err("a full read is neither as the front told nor refused in the part")
        }
    }

    /// A reason for the same recording: refused as the front is, or with 17 by the n that the front told, or not before
    /// the payload; and as the last full read was, if that had as much room.
    fn reason(&self, room: u64, reason: &[u64; 4]) -> Result<Option<Reasoned>, &'static str> {
        let [number, place, _, _, _, n, _, at, count] = self.numbers;
        let as_front = match number {
            0 if room < n => reason[..] == [OCTET_BUFFER, 0, n, room],
            0 => reason[0] == 0 || [UNUSABLE, GROWTH].contains(&reason[0]) && (at..at + count).contains(&reason[1]),
            _ => (reason[0], reason[1]) == (number, place),
        };
        if !as_front {
            return Err("a reason that doesn't go with what the front told");
        }
        self.full.as_ref().map_or(Ok(None), |full| full.beside(room, reason))
    }

    /// The smallest lead of a good read: whole chips, no more than those of the rate's words as they were sent, at a
    /// symbol of the frame.
    fn led(&self, lead: u64, symbol: u64) -> Result<Held, &'static str> {
        let [_, _, rate, _, _, _, _, at, count] = self.numbers;
        let each = Rate::of_code(rate).map_or(11, Rate::chips_per_symbol) as u64;
        let can_be = lead % 1024 == 0 && lead <= lead_as_sent(rate) && symbol < at / 11 + count / each;
        if can_be {
            Ok(Held::ReadAlike)
        } else {
            Err("a lead or a symbol that no hard recording has")
        }
    }
}

/// The smallest lead of a frame whose chips are full and as they were sent, by its rate code.
pub fn lead_as_sent(rate: u64) -> u64 {
    let chips = match Rate::of_code(rate) {
        Some(Rate::Mbit11) => 4,
        Some(Rate::Mbit5_5) => 8,
        _ => 11,
    };
    1024 * chips
}
