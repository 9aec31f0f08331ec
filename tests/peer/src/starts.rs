//! How finds over one recording go together, and how reads from the offsets tried go with them, whatever this program
//! expects of each.

use crate::bits::Rate;
use crate::calls::{Answer, Call};
use crate::chips::LOST;
use crate::frame::Kind;
use crate::refusals::{ENDS, FRONT, GROWTH, KIND, LENGTH, MOST_OCTETS, MOST_OFFSETS, NO_START, OFFSETS, UNUSABLE};
use crate::relations::lead_as_sent;
use crate::symbols::barker;
use std::collections::BTreeSet;

/// What was seen to hold of a find, or of a read behind it.
#[derive(Clone, Copy, PartialEq, Eq, PartialOrd, Ord)]
pub enum Start {
    /// A start is found of this kind and rate, without the clock bit or with it.
    Found { kind: u64, rate: u64, clock: u64 },
    /// One is found at an offset that is so much above a multiple of 512.
    At(u64),
    /// One is found at offset 0.
    First,
    /// One is found at the last offset tried.
    Last,
    /// One is found above offset 4,000.
    Far,
    /// One is found behind unusable chips.
    BehindUnusable,
    /// One is found whose front ends where the recording ends.
    FrontLast,
    /// Two finds over one recording with other numbers of offsets have one start.
    SameStart,
    /// Two finds over one recording, one of fewer offsets than the other's start and refused with 19.
    FewerOffsets,
    /// Two finds over one recording are refused with 19.
    NoneTwice,
    /// From the start the front tells the same.
    Told,
    /// From the start the front is refused with 16.
    ToldCut,
    /// From the start a full read answers the same.
    Read,
    /// From the start a full read is refused with this number, 9 and 10 in the payload.
    ReadRefused(u64),
    /// From an offset before the start the front is refused with this number.
    Passed(u64),
    /// From an offset that was tried, with none found, the front is refused with this number.
    Missed(u64),
    /// From such an offset a full read is refused with one of 8 to 15 too, 9 and 10 in the front.
    ReadPassed,
    /// From each offset before the start, one by one, the front is refused.
    EachPassed,
    /// From each offset that was tried, with none found, one by one, the front is refused.
    EachMissed,
    /// From the start a full read of this rate finds all chips as they were sent: the frame does start there.
    AsSent { rate: u64 },
    /// So many chips behind the start a full read of this rate finds all chips as they were sent: the frame starts
    /// there. A full read from the offset found gives the same payload, or it gives another.
    Early { rate: u64, by: u64, same: bool },
    /// The same, with nothing but lost chips before the frame, ten or more.
    EarlyBehindLost,
    /// So many chips before the start a frame of this rate starts, its chips before the start spoiled or not recorded,
    /// those of its front from there on as they were sent.
    Late { rate: u64, by: u64 },
}

/// The last find, the offsets of its recording from which fronts were refused, and the octets read from its start.
pub struct Sought {
    kind: u64,
    chips: Vec<u8>,
    offsets: u64,
    numbers: [u64; 6],
    refused: BTreeSet<u64>,
    octets: Option<Vec<u8>>,
}

/// Number, rate, LENGTH, clock bit and n of a full read or of a front.
fn told(full: bool, answer: &Answer) -> [u64; 5] {
    let places = if full { [0, 2, 3, 6, 4] } else { [0, 2, 3, 4, 5] };
    places.map(|place| answer.numbers[place])
}

/// The first n octets that a full read left.
fn payload(answer: &Answer, n: u64) -> Vec<u8> {
    answer.buffer.iter().copied().take(n as usize).collect()
}

/// What holds, or what doesn't go together.
type Holds = Result<Vec<Start>, &'static str>;

impl Sought {
    /// A find, alone and beside the one before it: what is seen of it, and what it leaves to be held to.
    pub fn new(kind: u64, chips: &[u8], offsets: u64, numbers: &[u64], last: Option<Sought>) -> (Sought, Holds) {
        let numbers = numbers.try_into().expect("six numbers");
        let mut sought =
            Sought { kind, chips: chips.to_vec(), offsets, numbers, refused: BTreeSet::new(), octets: None };
        let mut holds = sought.alone();
        if let Some(last) = last.filter(|last| last.kind == kind && last.chips == chips) {
            holds = holds.and_then(|alone| Ok(alone.into_iter().chain(sought.beside(&last)?).collect()));
            sought.refused = last.refused;
            holds = holds.map(|seen| seen.into_iter().chain(sought.each()).collect());
        }
        (sought, holds)
    }

    fn front(&self) -> u64 {
        Kind::of_number(self.kind).map_or(0, |kind| kind.front_chips() as u64)
    }

    /// A refusal tells its number alone. 1 and 18 go by the numbers handed in. A start is below the number of offsets,
    /// with a front in the recording.
    fn alone(&self) -> Holds {
        let [number, offset, rate, length, clock, n] = self.numbers;
        let asked = match (self.kind, self.offsets) {
            (0 | 1, 1..=MOST_OFFSETS) => [0, NO_START].contains(&number),
            (0 | 1, _) => number == OFFSETS,
            _ => number == KIND,
        };
        if !asked {
            return Err("a refusal that doesn't go by the kind and the number of offsets");
        }
        if number != 0 {
            let nothing = self.numbers[1..] == [0; 5];
            return if nothing { Ok(Vec::new()) } else { Err("a refusal tells more than its number") };
        }
        let can_be = Rate::of_code(rate).is_some() && length > 0 && clock < 2 && (1..=MOST_OCTETS as u64).contains(&n);
        let end = offset.saturating_add(self.front());
        if !can_be || offset >= self.offsets || end > self.chips.len() as u64 {
            return Err("a start that no recording has");
        }
        Ok(self.found())
    }

    fn found(&self) -> Vec<Start> {
        let [_, offset, rate, _, clock, _] = self.numbers;
        let before = &self.chips[..offset as usize];
        let seen = [
            (offset == 0, Start::First),
            (offset + 1 == self.offsets, Start::Last),
            (offset > 4000, Start::Far),
            (before.iter().any(|chip| *chip > LOST), Start::BehindUnusable),
            (offset + self.front() == self.chips.len() as u64, Start::FrontLast),
        ];
        let always = [Start::Found { kind: self.kind, rate, clock }, Start::At(offset % 512)];
        let late = self.late().map(|by| Start::Late { rate, by });
        let seen = seen.into_iter().filter(|(seen, _)| *seen).map(|(_, start)| start);
        always.into_iter().chain(seen).chain(late).collect()
    }

    /// How many chips behind a frame's first, less than a symbol, the start is, by the rest of the front's symbols. An
    /// odd number behind one symbol's first chip is an even number before the next one's: that start is early.
    fn late(&self) -> Option<u64> {
        let (start, front) = (self.numbers[1] as usize, self.front() as usize);
        let late = |by: &usize| {
            let (first, others) = self.chips[start..start + front - by].split_at(11 - by);
            let begun = (0..4).any(|phase| barker(phase)[*by..] == *first);
            begun && others.chunks(11).all(|symbol| symbol == barker(symbol[0] % 4))
        };
        (2..11).step_by(2).find(late).map(|by| by as u64)
    }

    /// Two finds over one recording: a start is that of every find with more offsets than it, and of no other.
    fn beside(&self, last: &Sought) -> Holds {
        let (found, before) = (self.numbers, last.numbers);
        let fewer = |none: &Sought, start: &[u64; 6]| none.offsets <= start[1];
        let (goes, start) = match (found[0], before[0]) {
            (0, 0) => (found == before, Start::SameStart),
            (0, NO_START) => (fewer(last, &found), Start::FewerOffsets),
            (NO_START, 0) => (fewer(self, &before), Start::FewerOffsets),
            (NO_START, NO_START) => (true, Start::NoneTwice),
            _ => return Ok(Vec::new()),
        };
        match (goes, self.offsets == last.offsets) {
            (true, false) => Ok(vec![start]),
            (true, true) => Ok(Vec::new()),
            _ => Err("two finds over one recording don't go together"),
        }
    }

    /// A read of what a find's recording has from an offset on, if it is one that was tried.
    pub fn read(&mut self, call: &Call, answer: &Answer) -> Holds {
        let (kind, chips) = match call {
            Call::ReadFront { kind, chips } | Call::ReadHard { kind, chips, .. } => (*kind, chips),
            _ => return Ok(Vec::new()),
        };
        let tried = [0, NO_START].contains(&self.numbers[0]);
        if !tried || kind != self.kind || !self.chips.ends_with(chips) {
            return Ok(Vec::new());
        }
        let at = (self.chips.len() - chips.len()) as u64;
        let full = matches!(call, Call::ReadHard { .. });
        match self.numbers {
            [0, start, ..] if at == start => self.read_at_start(full, answer),
            [0, start, ..] if at > start && full => self.read_behind(at, answer),
            [0, start, ..] if at > start => Ok(Vec::new()),
            [NO_START, ..] if at >= self.offsets => Ok(Vec::new()),
            _ => self.read_before(at, full, &answer.numbers),
        }
    }

    /// Whether a read is refused with one of 8 to 15, 9 and 10 in the front.
    fn stops(&self, numbers: &[u64]) -> bool {
        let in_payload = [UNUSABLE, GROWTH].contains(&numbers[0]) && numbers[1] >= self.front();
        (FRONT..=LENGTH).contains(&numbers[0]) && !in_payload
    }

    fn read_before(&mut self, at: u64, full: bool, numbers: &[u64]) -> Holds {
        if !self.stops(numbers) {
            return Err("a read from an offset that was passed over meets none of 8 to 15");
        }
        if full {
            return Ok(vec![Start::ReadPassed]);
        }
        self.refused.insert(at);
        let one = if self.numbers[0] == 0 { Start::Passed(numbers[0]) } else { Start::Missed(numbers[0]) };
        Ok([one].into_iter().chain(self.each()).collect())
    }

    /// Whether each offset before the start, or each that was tried, was seen to be refused.
    fn each(&self) -> Option<Start> {
        let (each, all) = match self.numbers {
            [0, start, ..] => (Start::EachPassed, start),
            [NO_START, ..] => (Start::EachMissed, self.offsets),
            _ => return None,
        };
        (all > 0 && self.refused.range(..all).count() as u64 == all).then_some(each)
    }

    fn read_at_start(&mut self, full: bool, answer: &Answer) -> Holds {
        let [_, start, rate, length, clock, n] = self.numbers;
        let number = answer.numbers[0];
        if told(full, answer) == [0, rate, length, clock, n] {
            if !full {
                return Ok(vec![Start::Told]);
            }
            self.octets = Some(payload(answer, n));
            let as_sent = self.as_sent(start, answer);
            return Ok(if as_sent { vec![Start::Read, Start::AsSent { rate }] } else { vec![Start::Read] });
        }
        let goes = told(full, answer) == [number, 0, length, 0, 0] && !self.stops(&answer.numbers);
        match (goes, full) {
            (true, true) => Ok(vec![Start::ReadRefused(number)]),
            (true, false) if number == ENDS => Ok(vec![Start::ToldCut]),
            _ => Err("a read from the offset found doesn't go with what was found"),
        }
    }

    /// Whether a good read from an offset finds all chips as they were sent, by the front's symbols and by its lead.
    fn as_sent(&self, at: u64, answer: &Answer) -> bool {
        let front = self.chips.get(at as usize..(at + self.front()) as usize);
        let whole = |front: &[u8]| front.chunks(11).all(|symbol| symbol == barker(symbol[0] % 4));
        front.is_some_and(whole) && answer.numbers[7] == lead_as_sent(answer.numbers[2])
    }

    /// A good read from an offset less than a symbol behind the start, with all chips as they were sent.
    fn read_behind(&self, at: u64, answer: &Answer) -> Holds {
        let [_, start, rate, length, clock, n] = self.numbers;
        let by = at - start;
        let alike = told(true, answer) == [0, rate, length, clock, n] && self.as_sent(at, answer);
        let Some(octets) = self.octets.as_ref().filter(|_| by < 11 && alike) else { return Ok(Vec::new()) };
        let mut seen = vec![Start::Early { rate, by, same: payload(answer, n) == *octets }];
        if at >= 10 && self.chips[..at as usize].iter().all(|chip| *chip == LOST) {
            if by != 10 {
                return Err("a frame as it was sent, behind lost chips, isn't found 10 chips early");
            }
            seen.push(Start::EarlyBehindLost);
        }
        Ok(seen)
    }
}
