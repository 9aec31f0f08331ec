//! The month's report: what a list of readings comes to, what one recording more makes of any report, and the report's
//! text.
//!
//! Each total is worked out by itself, over the whole list. Nothing is looked for but 7, of a list whose kinds and
//! recordings aren't as many, 31, and 17 of a text.

use crate::bits::Rate;
use crate::chips::Recording;
use crate::reading::{read, Read};
use crate::refusals;

/// Refusals are counted by their numbers, up to 17.
pub const NUMBERS: usize = 18;

/// The report's numbers: seen, frames, octets, refused, airtime and the lead's three.
pub const ENTRIES: usize = 1 + 4 + 4 + NUMBERS + 4;

/// The most recordings that a report sees.
pub const MOST_SEEN: u64 = 1000;

/// What 1,000 recordings come to at most: octets of a rate, and airtime.
pub const MOST_OCTETS_SEEN: u64 = 4_095_000;
pub const MOST_AIRTIME: u64 = 32_952_000;

/// The totals. Frames and octets are in the order of the rates.
#[derive(Clone, Default, PartialEq, Eq, Debug)]
pub struct Report {
    pub seen: u64,
    pub frames: [u64; 4],
    pub octets: [u64; 4],
    pub refused: [u64; NUMBERS],
    pub airtime: u64,
    /// Whether a frame was accepted.
    pub some: u64,
    pub lead: u64,
    pub recording: u64,
}

impl Report {
    pub fn numbers(&self) -> Vec<u64> {
        let last = [self.airtime, self.some, self.lead, self.recording];
        [&[self.seen], &self.frames[..], &self.octets, &self.refused, &last].concat()
    }

    pub fn of_numbers(numbers: &[u64]) -> Report {
        let part = |from: usize| numbers[from..from + 4].try_into().expect("four numbers");
        let refused = numbers[9..9 + NUMBERS].try_into().expect("as many as there are");
        let [airtime, some, lead, recording] = part(9 + NUMBERS);
        Report { seen: numbers[0], frames: part(1), octets: part(5), refused, airtime, some, lead, recording }
    }

    /// Whether the report is below the limits, so that one recording more is counted.
    fn counts_one_more(&self) -> bool {
        self.seen < MOST_SEEN
            && self.frames.iter().chain(&self.refused).all(|count| *count <= MOST_SEEN)
            && self.octets.iter().all(|octets| *octets <= MOST_OCTETS_SEEN)
            && self.airtime <= MOST_AIRTIME
    }
}

/// What a full read with room for 4,095 octets answers, and the kind as it was handed in.
pub struct Reading {
    kind: u64,
    read: Read,
}

impl Reading {
    pub fn of(kind: u64, chips: &[u8]) -> Reading {
        let mut octets = [0; refusals::MOST_OCTETS];
        Reading { kind, read: read(kind, Recording::Hard(chips), &mut octets) }
    }

    pub fn number(&self) -> u64 {
        self.read.number
    }

    /// The leads of the symbols that were decided; no part of a report.
    pub fn take_leads(&mut self) -> Vec<i32> {
        std::mem::take(&mut self.read.leads)
    }

    fn accepted(&self) -> bool {
        self.read.number == 0
    }

    fn at(&self, rate: Rate) -> bool {
        self.accepted() && self.read.rate == u64::from(rate.code())
    }

    fn airtime(&self) -> u64 {
        let front = if self.kind == 0 { 192 } else { 96 };
        front + self.read.length
    }
}

/// The report of a list of readings.
pub fn report_of(readings: &[Reading]) -> Report {
    let accepted = || readings.iter().filter(|reading| reading.accepted());
    let at = |rate: Rate| readings.iter().filter(move |reading| reading.at(rate));
    let refused = |number: u64| readings.iter().filter(move |reading| number > 0 && reading.read.number == number);
    let smallest = accepted().map(|reading| reading.read.lead).min();
    let first = |lead: u64| readings.iter().position(|reading| reading.accepted() && reading.read.lead == lead);
    Report {
        seen: readings.len() as u64,
        frames: Rate::ALL.map(|rate| at(rate).count() as u64),
        octets: Rate::ALL.map(|rate| at(rate).map(|reading| reading.read.n).sum()),
        refused: std::array::from_fn(|number| refused(number as u64).count() as u64),
        airtime: accepted().map(Reading::airtime).sum(),
        some: u64::from(smallest.is_some()),
        lead: smallest.unwrap_or(0),
        recording: smallest.and_then(first).unwrap_or(0) as u64,
    }
}

/// One recording more than a report has, whatever made the report; with 31 it stays as it stood. The recording's number
/// is how many were seen before it. The lead's three numbers stay, whatever they are, unless it has a smaller lead or
/// is the first frame.
pub fn one_more(report: &Report, reading: Reading) -> (u64, Report) {
    if !report.counts_one_more() {
        return (refusals::REPORT, report.clone());
    }
    let more = report_of(&[reading]);
    let sum = |old: &[u64], new: &[u64]| -> Vec<u64> { old.iter().zip(new).map(|(old, new)| old + new).collect() };
    let summed = sum(&report.numbers()[..ENTRIES - 3], &more.numbers()[..ENTRIES - 3]);
    let closer = more.some == 1 && (report.some == 0 || more.lead < report.lead);
    let led = if closer { [1, more.lead, report.seen] } else { [report.some, report.lead, report.recording] };
    (0, Report::of_numbers(&[&summed[..], &led].concat()))
}

/// A whole list at once: the first 1,000 of it are read.
pub fn report_list(kinds: &[u64], recordings: &[Vec<u8>]) -> (u64, Report) {
    if kinds.len() != recordings.len() {
        return (refusals::ROWS, Report::default());
    }
    let all = kinds.iter().zip(recordings).take(MOST_SEEN as usize);
    let readings: Vec<Reading> = all.map(|(kind, chips)| Reading::of(*kind, chips)).collect();
    let number = if recordings.len() > readings.len() { refusals::REPORT } else { 0 };
    (number, report_of(&readings))
}

/// A list of so many kinds 0 and recordings of no chips.
pub fn report_of_empties(kinds: usize, recordings: usize) -> (u64, Report) {
    if kinds != recordings {
        return (refusals::ROWS, Report::default());
    }
    let seen = recordings.min(MOST_SEEN as usize);
    let readings: Vec<Reading> = (0..seen).map(|_| Reading::of(0, &[])).collect();
    (if recordings > seen { refusals::REPORT } else { 0 }, report_of(&readings))
}

/// The text's lines, each ending with a line feed.
pub fn text(report: &Report) -> String {
    let rates = Rate::ALL.into_iter().zip(report.frames).zip(report.octets);
    let rates = rates.map(|((rate, frames), octets)| format!("rate {} frames {frames} octets {octets}", rate.code()));
    let numbers = (1..NUMBERS).filter(|number| report.refused[*number] != 0);
    let numbers = numbers.map(|number| format!("refused {number} count {}", report.refused[number]));
    let lead = match report.some {
        0 => "lead none".to_string(),
        _ => format!("lead {} recording {}", report.lead, report.recording),
    };
    let lines = rates.chain(numbers).chain([format!("airtime {}", report.airtime), lead]);
    lines.map(|line| line + "\n").collect()
}

/// Fills a lent buffer with the text and zeros after it: the number, and the text's octets.
pub fn report_text(report: &Report, buffer: &mut [u8]) -> (u64, u64) {
    buffer.fill(0);
    let text = text(report);
    match buffer.get_mut(..text.len()) {
        None => (refusals::OCTET_BUFFER, 0),
        Some(start) => {
            start.copy_from_slice(text.as_bytes());
            (0, text.len() as u64)
        }
    }
}
