//! What is met of the calls of the month's report, by what is expected of them: recordings of each sort, limits, leads,
//! lists, texts and their rooms.

use crate::bits::Rate;
use crate::calls::{Answer, Call};
use crate::reading::smallest;
use crate::refusals::{OCTET_BUFFER, ROWS};
use crate::relations::Held;
use crate::report::{Reading, Report, MOST_AIRTIME, MOST_OCTETS_SEEN, MOST_SEEN, NUMBERS};
use crate::report_calls::ReportCall;
use std::collections::BTreeMap;

/// What was met. Entries are counted from 0 in the report's order.
#[derive(Clone, Copy, PartialEq, Eq, PartialOrd, Ord)]
pub enum Reported {
    /// One recording more is accepted, of this kind and rate.
    Accepted { kind: u64, rate: u64 },
    /// One of 4,095 octets is, at this rate.
    Longest(u64),
    /// One more is refused with this number, where no frame was accepted before, or where one was.
    Refused { number: u64, behind: bool },
    /// One more is counted, with this entry at its limit.
    AtLimit(usize),
    /// One more isn't, for this entry alone, one above its limit or more.
    Above { entry: usize, by_one: bool },
    /// One more isn't, for several entries.
    AboveSeveral,
    /// One more is accepted or isn't, where some is so much: 0, 1, 2 for all others.
    Some { some: u64, accepted: bool },
    /// One more is accepted, and its lead is the first, smaller than the one before, the same, or larger.
    Led(Led),
    /// The same, with a lead of 0.
    LedByZero(Led),
    /// The first accepted one has recordings before it, all refused.
    BehindRefused,
    /// A list of so many, 0, 1 and from 999 on.
    Listed(usize),
    /// A list whose counts of neighbouring numbers and whose frames, octets and rates all differ.
    Apart,
    /// A list's smallest lead: whether it is 0, and whether its first recording has it.
    ListLed { zero: bool, first: bool },
    /// A list of more than 1,000, whose first recording behind these would be accepted or refused.
    Behind { accepted: bool },
    /// A list with more kinds than recordings or with fewer, of more than 1,000 or not.
    Unpaired { kinds: bool, over: bool },
    /// A text with so much room: 0, too short by one, otherwise too short, just enough, one more, more; 6 is one octet.
    Room(usize),
    /// A text in which this number's line stands alone among its kind.
    Line(usize),
    /// A text with a number of so many digits.
    Digits(usize),
    /// A text with a lead or without, although the frames say otherwise or as they do.
    TextLed { some: u64, frames: bool },
    /// The longest text.
    LongestText,
    /// The report handed in is the one answered before, and that was of a list of recordings one after the other.
    KeptOn,
    /// A list has the report that its recordings came to one after the other.
    ListKept,
    /// A list of more than 1,000 has the report of its first 1,000, or these have its.
    ListCut,
    /// A text's numbers are those of its report.
    ReadBack,
}

/// A lead beside the smallest one before it.
#[derive(Clone, Copy, PartialEq, Eq, PartialOrd, Ord)]
pub enum Led {
    First,
    Smaller,
    Same,
    Larger,
}

/// What an entry may be at most for one recording more to be counted; the lead's three may be any.
pub fn limit(entry: usize) -> Option<u64> {
    match entry {
        0 => Some(MOST_SEEN - 1),
        1..=4 => Some(MOST_SEEN),
        5..=8 => Some(MOST_OCTETS_SEEN),
        27 => Some(MOST_AIRTIME),
        9..=26 => Some(MOST_SEEN),
        _ => None,
    }
}

/// Counts what is met of a call, by what is expected of it.
pub fn count(call: &Call, expected: &Answer, leads: &[i32], held: &mut BTreeMap<Held, u64>) {
    let Call::Report(call) = call else { return };
    for what in met(call, expected, leads) {
        *held.entry(Held::Reports(what)).or_default() += 1;
    }
}

fn met(call: &ReportCall, expected: &Answer, leads: &[i32]) -> Vec<Reported> {
    match call {
        ReportCall::Add { report, kind, .. } => {
            let after = Report::of_numbers(&expected.numbers[1..]);
            let above = above(report);
            match above[..] {
                [] => counted(report, &after, *kind, leads),
                [(entry, by_one)] => vec![Reported::Above { entry, by_one }],
                _ => vec![Reported::AboveSeveral],
            }
        }
        ReportCall::List { kinds, recordings } => listed(kinds, recordings, expected),
        ReportCall::Empties { .. } => Vec::new(),
        ReportCall::Text { report, room } => told(report, *room, expected),
    }
}

/// The entries above their limits, and whether by one.
fn above(report: &Report) -> Vec<(usize, bool)> {
    let entries = report.numbers().into_iter().enumerate();
    let above = |(entry, number): (usize, u64)| {
        limit(entry).filter(|most| number > *most).map(|most| (entry, number == most + 1))
    };
    entries.filter_map(above).collect()
}

fn counted(before: &Report, after: &Report, kind: u64, leads: &[i32]) -> Vec<Reported> {
    let numbers = before.numbers().into_iter().enumerate();
    let mut met: Vec<Reported> = numbers
        .filter(|(entry, number)| limit(*entry) == Some(*number))
        .map(|(entry, _)| Reported::AtLimit(entry))
        .collect();
    let rate = (0..4).find(|rate| after.frames[*rate] > before.frames[*rate]);
    met.push(Reported::Some { some: before.some.min(2), accepted: rate.is_some() });
    let Some(rate) = rate else {
        let number = (0..NUMBERS).find(|number| after.refused[*number] > before.refused[*number]);
        met.extend(number.map(|number| Reported::Refused { number: number as u64, behind: before.some != 0 }));
        return met;
    };
    let (code, lead) = (u64::from(Rate::ALL[rate].code()), smallest(leads).0);
    met.push(Reported::Accepted { kind, rate: code });
    met.extend((after.octets[rate] - before.octets[rate] == 4095).then_some(Reported::Longest(code)));
    let led = match before.some {
        0 => Led::First,
        _ if lead < before.lead => Led::Smaller,
        _ if lead == before.lead => Led::Same,
        _ => Led::Larger,
    };
    met.push(if lead == 0 { Reported::LedByZero(led) } else { Reported::Led(led) });
    let all_refused = before.seen > 0 && before.refused.iter().fold(0, |sum: u64, count| sum + count) == before.seen;
    met.extend(all_refused.then_some(Reported::BehindRefused));
    met
}

fn listed(kinds: &[u64], recordings: &[Vec<u8>], expected: &Answer) -> Vec<Reported> {
    let (len, most) = (recordings.len(), MOST_SEEN as usize);
    if expected.numbers[0] == ROWS {
        return vec![Reported::Unpaired { kinds: kinds.len() > len, over: len > most || kinds.len() > most }];
    }
    let report = Report::of_numbers(&expected.numbers[1..]);
    let differ = |row: &[u64]| row.windows(2).all(|pair| pair[0] != pair[1]);
    // From 8 to 17, and 1 beside none.
    let apart =
        differ(&report.refused[7..]) && report.refused[1] > 0 && differ(&report.frames) && differ(&report.octets);
    let behind = recordings.get(most).map(|chips| Reading::of(kinds[most], chips).number() == 0);
    let met = [
        (len < 2 || len > 998).then_some(Reported::Listed(len)),
        apart.then_some(Reported::Apart),
        (report.some == 1).then_some(Reported::ListLed { zero: report.lead == 0, first: report.recording == 0 }),
        behind.map(|accepted| Reported::Behind { accepted }),
    ];
    met.into_iter().flatten().collect()
}

/// What is too short, or how much longer than the text.
fn room_of(room: usize, text: usize) -> usize {
    match (room, room as i64 - text as i64) {
        (0, _) => 0,
        (1, _) => 6,
        (_, -1) => 1,
        (_, ..=-2) => 2,
        (_, 0) => 3,
        (_, 1) => 4,
        _ => 5,
    }
}

fn told(report: &Report, room: usize, expected: &Answer) -> Vec<Reported> {
    let text = crate::report::text(report);
    let mut met = vec![Reported::Room(room_of(room, text.len()))];
    if expected.numbers[0] == OCTET_BUFFER {
        return met;
    }
    let lines: Vec<usize> = (1..NUMBERS).filter(|number| report.refused[*number] != 0).collect();
    if let [alone] = lines[..] {
        met.push(Reported::Line(alone));
    }
    let words = text.split_ascii_whitespace().filter(|word| word.starts_with(|first: char| first.is_ascii_digit()));
    met.extend(words.map(|word| Reported::Digits(word.len())));
    met.push(Reported::TextLed { some: report.some.min(2), frames: report.frames != [0; 4] });
    met.extend((text.len() == 980).then_some(Reported::LongestText));
    met
}
