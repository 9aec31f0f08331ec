//! The month's report over lists of recordings: kept one after the other, and of whole lists.

use super::refused::{
    wrong_reading, CRC, ENDS, FRONT, FRONT_GROWTH, FRONT_UNUSABLE, KIND, LENGTH, SERVICE, SFD, SIGNAL,
};
use super::refused::{ROWS, WRONGS};
use super::{any_pair, pairs, Draft, Out, Recorder, KINDS};
use crate::bits::Rate;
use crate::calls::Call;
use crate::chips::LOST;
use crate::frame::Kind;
use crate::random::Random;
use crate::report::{report_of, text, Reading, Report, MOST_SEEN};
use crate::report_calls::ReportCall;

/// A recording with its kind as it is handed in.
pub type Recorded = (u64, Vec<u8>);

/// A frame as sent.
pub fn sent(kind: Kind, rate: Rate, n: usize, random: &mut Random) -> Recorded {
    (kind.number(), Draft::random(kind, rate, n, random).chips())
}

fn any_sent(random: &mut Random) -> Recorded {
    let (kind, rate) = any_pair(random);
    sent(kind, rate, random.within(1, 12), random)
}

/// The smallest lead of a frame as sent, in full chips.
fn most_lead(rate: Rate) -> usize {
    match rate {
        Rate::Mbit1 | Rate::Mbit2 => 11,
        Rate::Mbit5_5 => 8,
        Rate::Mbit11 => 4,
    }
}

/// A frame of any kind with a smallest lead of so many full chips, 0 to 11, by chips of its first symbol that are lost.
/// All phases of its preamble are even, so that the symbol goes with the next one however it is decided.
pub fn led_by(lead: usize, random: &mut Random) -> Recorded {
    let fit: Vec<(Kind, Rate)> = pairs().filter(|(_, rate)| lead <= most_lead(*rate)).collect();
    let (kind, rate) = random.pick(&fit);
    let (n, phase) = (random.within(1, 9), random.pick(&[0, 2]));
    let mut chips = Draft { phase, ..Draft::random(kind, rate, n, random) }.chips();
    chips[..11 - lead].fill(LOST);
    (kind.number(), chips)
}

/// A frame with a symbol of 11 Mbit/s lost: its lead is 0, and it is accepted.
fn lost_symbol(random: &mut Random) -> Recorded {
    let (kind, n) = (random.pick(&Kind::BOTH), random.within(1, 9));
    let (number, mut chips) = sent(kind, Rate::Mbit11, n, random);
    let place = kind.front_chips() + 8 * random.below(n);
    chips[place..place + 8].fill(LOST);
    (number, chips)
}

/// A frame with a few chips changed to others, lost ones too: whatever comes of it.
fn spoiled(random: &mut Random) -> Recorded {
    let (kind, mut chips) = any_sent(random);
    for _ in 0..random.within(1, 60) {
        let place = random.below(chips.len());
        chips[place] = random.below(5) as u8;
    }
    (kind, chips)
}

fn wrong(set: usize, random: &mut Random) -> Recorded {
    match wrong_reading(set, Recorder::Hard, random) {
        Call::ReadHard { kind, chips, .. } => (kind, chips),
        _ => (0, Vec::new()),
    }
}

/// The refusals that can come, each with what is wrong then.
pub const REFUSED: [(u64, usize); 10] = [
    (1, KIND),
    (8, FRONT),
    (9, FRONT_UNUSABLE),
    (10, FRONT_GROWTH),
    (11, SFD),
    (12, CRC),
    (13, SIGNAL),
    (14, SERVICE),
    (15, LENGTH),
    (16, ENDS),
];

/// A recording refused with a number.
pub fn refused_with((number, what): (u64, usize), random: &mut Random) -> Recorded {
    loop {
        let (kind, chips) = wrong(1 << what, random);
        if Reading::of(kind, &chips).number() == number {
            return (kind, chips);
        }
    }
}

/// A recording that is refused before a chip is looked at: by its kind, or by its length.
pub fn cheap(random: &mut Random) -> Recorded {
    let chips = vec![random.below(6) as u8; random.pick(&[0, 1, 2, 7, 30])];
    let kind = if random.once_in(2) { random.pick(&KINDS[2..]) } else { random.below(2) as u64 };
    (kind, chips)
}

/// Any of these, two things wrong at once too, and a frame under the other kind.
pub fn any_recorded(random: &mut Random) -> Recorded {
    match random.below(8) {
        0 | 1 => any_sent(random),
        2 => led_by(random.below(12), random),
        3 => spoiled(random),
        4 => lost_symbol(random),
        5 => {
            let (kind, chips) = any_sent(random);
            (1 - kind, chips)
        }
        _ => {
            let set = 1 << random.below(WRONGS) | 1 << random.below(WRONGS);
            wrong(set & !(1 << ROWS), random)
        }
    }
}

pub fn shuffle<T>(row: &mut [T], random: &mut Random) {
    for at in (1..row.len()).rev() {
        row.swap(at, random.below(at + 1));
    }
}

/// A list in which no two numbers are refused as often as each other, and no two rates have as many frames or octets.
pub fn apart(random: &mut Random) -> Vec<Recorded> {
    let (mut counts, mut frames): (Vec<usize>, Vec<usize>) = ((1..=10).collect(), (1..=4).collect());
    shuffle(&mut counts, random);
    shuffle(&mut frames, random);
    let mut list = Vec::new();
    for (refused, count) in REFUSED.into_iter().zip(counts) {
        list.extend((0..count).map(|_| refused_with(refused, random)));
    }
    for (rate, count) in Rate::ALL.into_iter().zip(frames) {
        for _ in 0..count {
            let fit: Vec<Kind> = Kind::BOTH.into_iter().filter(|kind| kind.has(rate)).collect();
            let (kind, n) = (random.pick(&fit), 5 * count + random.below(3));
            list.push(sent(kind, rate, n, random));
        }
    }
    shuffle(&mut list, random);
    list
}

/// Leads in full chips, one after the other; 99 stands for a refused recording.
const LEADS: [&[usize]; 9] = [
    &[5],
    &[0],
    &[99, 99, 99, 5, 5, 3, 99, 3, 3, 0, 0, 2],
    &[0, 0, 99, 0, 1, 11],
    &[99, 0, 99, 0],
    &[11, 11, 10, 10, 9, 8, 7, 6, 5, 4, 3, 2, 1, 1, 0, 0],
    &[1, 2, 3, 4, 5, 6, 7, 8, 9, 10, 11, 1, 2],
    &[99, 99, 4, 99, 4, 4],
    &[99],
];

fn led_list(leads: &[usize], random: &mut Random) -> Vec<Recorded> {
    let one = |lead: &usize| if *lead == 99 { cheap(random) } else { led_by(*lead, random) };
    leads.iter().map(one).collect()
}

pub fn add(report: &Report, (kind, chips): &Recorded) -> Call {
    Call::Report(ReportCall::Add { report: report.clone(), kind: *kind, chips: chips.clone() })
}

pub fn list(of: &[Recorded]) -> Call {
    let (kinds, recordings) = of.iter().cloned().unzip();
    Call::Report(ReportCall::List { kinds, recordings })
}

/// A list kept one recording after the other, each time beside the report of those before it; then the whole list at
/// once, and the text.
fn keep(out: &mut Out, of: &[Recorded]) {
    let readings: Vec<Reading> = of.iter().map(|(kind, chips)| Reading::of(*kind, chips)).collect();
    let seen = |count: usize| report_of(&readings[..count.min(MOST_SEEN as usize)]);
    for (before, recorded) in of.iter().enumerate() {
        out.call(add(&seen(before), recorded));
    }
    let report = seen(of.len());
    out.call(list(&of[..of.len().min(MOST_SEEN as usize)]));
    let room = text(&report).len();
    out.call(Call::Report(ReportCall::Text { report, room }));
}

pub fn report_kept(out: &mut Out) {
    for _ in 0..out.cases(3) {
        let of = apart(&mut out.random);
        keep(out, &of);
    }
    for leads in LEADS {
        let of = led_list(leads, &mut out.random);
        keep(out, &of);
    }
    for _ in 0..out.cases(12) {
        let of: Vec<Recorded> = (0..out.random.within(1, 50)).map(|_| any_recorded(&mut out.random)).collect();
        keep(out, &of);
    }
    let of = thousand(1003, &mut out.random);
    keep(out, &of);
}

/// So many recordings, most of them refused at once. Among the first 1,000 the smallest lead is 3 full chips, and the
/// 999th and 1,000th are frames; what stands behind them has smaller leads.
fn thousand(len: usize, random: &mut Random) -> Vec<Recorded> {
    let mut list: Vec<Recorded> = (0..len).map(|_| cheap(random)).collect();
    for _ in 0..25 {
        let at = random.below(len.min(998));
        list[at] = led_by(random.within(4, 11), random);
    }
    let last = [(997, 5), (998, 4), (999, 3), (1000, 2), (1001, 1)];
    for (at, lead) in last.into_iter().filter(|(at, _)| *at < len) {
        list[at] = led_by(lead, random);
    }
    list
}

/// Kinds and recordings that aren't as many as each other.
fn unpaired(out: &mut Out, of: &[Recorded], kinds: usize, recordings: usize) {
    let kinds = of.iter().map(|(kind, _)| *kind).cycle().take(kinds).collect();
    let recordings = of.iter().map(|(_, chips)| chips.clone()).cycle().take(recordings).collect();
    out.call(Call::Report(ReportCall::List { kinds, recordings }));
}

/// Lists of none, of one of each sort, and of some.
fn short_lists(out: &mut Out) {
    for _ in 0..8 {
        out.call(list(&[]));
    }
    for kind in KINDS {
        for chips in [any_sent(&mut out.random).1, Vec::new()] {
            out.call(list(&[(kind, chips)]));
        }
    }
    for refused in REFUSED {
        let one = refused_with(refused, &mut out.random);
        out.call(list(&[one]));
    }
    for lead in 0..12 {
        let one = led_by(lead, &mut out.random);
        out.call(list(&[one]));
    }
    for _ in 0..out.cases(40) {
        let of: Vec<Recorded> = (0..out.random.within(2, 20)).map(|_| any_recorded(&mut out.random)).collect();
        out.call(list(&of));
    }
    for _ in 0..out.cases(6) {
        let of = apart(&mut out.random);
        out.call(list(&of));
    }
}

/// Lists of about 1,000: a list, and its first 1,000. What is 1,001st is a frame or is refused.
fn long_lists(out: &mut Out) {
    for len in [999, 1000, 1001, 1002, 1300] {
        let of = thousand(len, &mut out.random);
        out.call(list(&of));
        out.call(list(&of[..len.min(1000)]));
    }
    for refused in REFUSED {
        let mut of = thousand(1001, &mut out.random);
        of[1000] = refused_with(refused, &mut out.random);
        out.call(list(&of));
    }
    // Nothing but a frame behind 1,000, nothing behind them, and nothing at all.
    let mut of = thousand(1001, &mut out.random);
    let empty = || (out.random.below(3) as u64, Vec::new());
    let empties: Vec<Recorded> = std::iter::repeat_with(empty).take(16_384).collect();
    of[..1000].clone_from_slice(&empties[..1000]);
    out.call(list(&of));
    of = thousand(1003, &mut out.random);
    of[1000..].clone_from_slice(&empties[1000..1003]);
    out.call(list(&of));
    out.call(list(&of[..1001]));
    // So long that a narrower length is less than 1,000.
    for len in [1000, 1001, 1024, 1025, 1279, 1280, 2047, 2048, 4099, 8192, 16_384] {
        out.call(list(&empties[..len]));
    }
}

/// Lists that name a recording again, whole, its first chips or its last, and then the whole once more; all of them may
/// stand in one row.
fn named_twice(out: &mut Out) {
    for case in 0..out.cases(40) {
        let (kind, chips) = any_sent(&mut out.random);
        let cut = out.random.below(chips.len());
        let again = [chips.clone(), chips[..cut].to_vec(), chips[cut..].to_vec()][case % 3].clone();
        let (behind, whole) = (any_recorded(&mut out.random), || (kind, chips.clone()));
        out.call(list(&[whole(), (kind, again.clone()), whole(), behind, whole(), (1 - kind, again)]));
    }
}

/// Lists of one recording over and over: octets and airtime past 2^16 and 2^20, and counts of frames and of refusals
/// past 255.
fn large_totals(out: &mut Out) {
    let kind = |rate| if rate == Rate::Mbit1 { Kind::Long } else { Kind::Short };
    for (rate, times) in [(Rate::Mbit11, 17), (Rate::Mbit5_5, 257), (Rate::Mbit1, 3), (Rate::Mbit1, 32)] {
        let one = sent(kind(rate), rate, 4095, &mut out.random);
        out.call(list(&vec![one; times]));
    }
    for rate in Rate::ALL {
        let one = sent(kind(rate), rate, 1, &mut out.random);
        out.call(list(&vec![one; 300]));
    }
    for some in REFUSED.chunks(3) {
        let of = some.iter().flat_map(|refused| vec![refused_with(*refused, &mut out.random); 260]);
        let of: Vec<Recorded> = of.collect();
        out.call(list(&of));
    }
}

/// Frames of 13 to 4,094 octets, a few sizes of each kind and rate, as a list and one by one.
fn each_size(out: &mut Out) {
    for (kind, rate) in pairs() {
        let sizes = [(13, 64), (65, 300), (301, 1022), (1027, 2000), (2001, 3000), (3001, 4094)];
        let of = sizes.map(|(least, most)| sent(kind, rate, out.random.within(least, most), &mut out.random));
        out.call(list(&of));
        let one = out.random.below(of.len());
        out.call(add(&Report::default(), &of[one]));
    }
}

pub fn report_lists(out: &mut Out) {
    short_lists(out);
    long_lists(out);
    named_twice(out);
    let of: Vec<Recorded> = (0..12).map(|_| any_recorded(&mut out.random)).collect();
    for (kinds, recordings) in [(0, 1), (1, 0), (1, 2), (2, 1), (5, 6), (6, 5), (12, 11), (11, 12), (0, 12), (12, 0)] {
        unpaired(out, &of, kinds, recordings);
    }
    let of = thousand(1300, &mut out.random);
    for (kinds, recordings) in [(999, 1000), (1000, 999), (1000, 1001), (1001, 1000), (1001, 1002), (1002, 1001)] {
        unpaired(out, &of, kinds, recordings);
    }
    for (kinds, recordings) in [(0, 1001), (1001, 0), (44, 300), (300, 44), (1300, 1044), (1044, 1300)] {
        unpaired(out, &of, kinds, recordings);
    }
    // Frames of the longest payload, at each rate.
    for (kind, rate) in pairs() {
        let longest = sent(kind, rate, 4095, &mut out.random);
        let one = any_recorded(&mut out.random);
        out.call(list(&[one, longest]));
    }
    large_totals(out);
    each_size(out);
}
