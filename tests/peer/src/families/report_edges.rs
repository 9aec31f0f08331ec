//! Any report that C can hand in: one recording more at the limits of each of its numbers, and its text.

use super::report::{add, any_recorded, cheap, led_by, refused_with, sent, Recorded, REFUSED};
use super::widths::far_size;
use super::{pairs, Out};
use crate::calls::Call;
use crate::random::Random;
use crate::report::{text, Report, ENTRIES, MOST_AIRTIME, MOST_OCTETS_SEEN, MOST_SEEN};
use crate::report_calls::ReportCall;
use crate::reported::limit;
use std::collections::BTreeSet;

/// Where the lead's three numbers begin.
const SOME: usize = ENTRIES - 3;

/// Numbers from which on a narrower one would not do.
const WIDE: [u64; 9] = [255, 256, 1 << 16, 1 << 31, 1 << 32, (1 << 32) + 1, 1 << 40, u64::MAX - 1, u64::MAX];

/// All zeros but for one entry.
pub fn only(entry: usize, number: u64) -> Report {
    with(&Report::default(), entry, number)
}

pub fn with(report: &Report, entry: usize, number: u64) -> Report {
    let mut numbers = report.numbers();
    numbers[entry] = number;
    Report::of_numbers(&numbers)
}

/// Each number as large as it may be; some is yes.
pub fn at_limits() -> Report {
    let numbers: Vec<u64> = (0..ENTRIES).map(|entry| limit(entry).unwrap_or(1)).collect();
    Report::of_numbers(&numbers)
}

/// Recordings to be added to any report: two that are refused and frames of each rate.
fn some_recorded(random: &mut Random) -> Vec<Recorded> {
    let mut of = vec![(2, Vec::new()), (0, vec![9; 3])];
    of.extend(pairs().map(|(kind, rate)| sent(kind, rate, 1, random)));
    of
}

/// Each entry at its limit and beside it, alone and with all others at theirs.
fn limits(out: &mut Out) {
    let of = some_recorded(&mut out.random);
    for entry in 0..SOME {
        let most = limit(entry).expect("a limit of each but the lead's");
        let others =
            [most - 1, most, most + 1, most + 2, 2 * most, MOST_SEEN + 1, MOST_OCTETS_SEEN + 1, MOST_AIRTIME + 1];
        for number in others.into_iter().chain(WIDE).chain([(1 << 32) + most, (1 << 63) + most]) {
            let (refused, accepted) = (&of[out.random.below(2)], &of[out.random.within(2, of.len() - 1)]);
            out.call(add(&only(entry, number), refused));
            out.call(add(&with(&at_limits(), entry, number), refused));
            if number <= most + 1 {
                out.call(add(&with(&at_limits(), entry, number), accepted));
            }
        }
    }
    // All at their limits, with each recording and each refusal.
    for recorded in &of {
        out.call(add(&at_limits(), recorded));
        out.call(add(&with(&at_limits(), 0, MOST_SEEN), recorded));
    }
    for refused in REFUSED {
        let recorded = refused_with(refused, &mut out.random);
        out.call(add(&at_limits(), &recorded));
        out.call(add(&Report::default(), &recorded));
    }
    let numbers = vec![u64::MAX; ENTRIES];
    out.call(add(&Report::of_numbers(&numbers), &of[2]));
}

/// What was seen, at its limit and beside it, with frames and with refused recordings.
fn seen(out: &mut Out) {
    let of = some_recorded(&mut out.random);
    for seen in [0, 1, 254, 255, 256, 511, 512, 997, 998, 999, 1000, 1001, 1002, 1023, 1024, 1 << 16, 1 << 32, u64::MAX]
    {
        for recorded in &of {
            out.call(add(&only(0, seen), recorded));
            let led = Report { some: 1, lead: 12 * 1024, recording: 3, ..only(0, seen) };
            out.call(add(&led, recorded));
        }
    }
}

/// Any yes or no, any lead and any recording, with frames whose leads are smaller, the same and larger, and without.
fn leads(out: &mut Out) {
    for some in [0, 1, 2, 3, 255, 256, 1 << 32, 1 << 40, 1 << 63, u64::MAX] {
        for lead in [0, 1, 1023, 1024, 2047, 2048, 2049, 3 * 1024, 11 * 1024, 1 << 32, u64::MAX] {
            let recording = out.random.pick(&[0, 1, 7, 999, 1000, 1 << 33, u64::MAX]);
            let seen = out.random.pick(&[0, 0, 1, 8, 999]);
            let report = Report { seen, some, lead, recording, ..Report::default() };
            let recorded = cheap(&mut out.random);
            out.call(add(&report, &recorded));
            for full in [0, 1, 2, 3] {
                if full == 2 || lead % 1024 != 0 || full * 1024 == lead {
                    let recorded = led_by(full as usize, &mut out.random);
                    out.call(add(&report, &recorded));
                }
            }
        }
    }
}

/// Numbers that are any, most of them below the limits.
fn any_report(random: &mut Random) -> Report {
    let numbers: Vec<u64> = (0..ENTRIES)
        .map(|entry| match limit(entry) {
            Some(most) if !random.once_in(60) => random.below(most as usize + 1) as u64,
            _ => random.pick(&WIDE) >> random.below(30),
        })
        .collect();
    Report::of_numbers(&numbers)
}

pub fn report_edges(out: &mut Out) {
    limits(out);
    seen(out);
    leads(out);
    for _ in 0..out.cases(150) {
        let (report, recorded) = (any_report(&mut out.random), any_recorded(&mut out.random));
        out.call(add(&report, &recorded));
    }
    // Frames of the longest payload, to all zeros and to numbers that are at their limits.
    for (kind, rate) in pairs() {
        let longest = sent(kind, rate, 4095, &mut out.random);
        out.call(add(&Report::default(), &longest));
        out.call(add(&at_limits(), &longest));
    }
    for _ in 0..out.cases(3) {
        let (report, (kind, mut chips)) = (any_report(&mut out.random), any_recorded(&mut out.random));
        chips.resize(far_size(&mut out.random), 0);
        out.call(add(&report, &(kind, chips)));
    }
}

/// The text of a report with room for none of it, for one octet less, for just it, for one more and for much more.
fn told(out: &mut Out, report: &Report, rooms: &[i64]) {
    let len = text(report).len() as i64;
    for room in rooms.iter().map(|more| (len + more).max(0) as usize).collect::<BTreeSet<usize>>() {
        out.call(Call::Report(ReportCall::Text { report: report.clone(), room }));
    }
}

const ROOMS: [i64; 7] = [-2000, -9, -1, 0, 1, 7, 2000];

/// Powers of ten and their neighbours, those of two, and numbers of one digit over and over.
fn numbers() -> Vec<u64> {
    let tens = (0..20).map(|digits| 10_u64.pow(digits)).flat_map(|ten| [ten - 1, ten, ten + 1]);
    let twos = (0..64).map(|bits| 1 << bits).flat_map(|two: u64| [two - 1, two]);
    let digits = (1..10).map(|digit| digit * 1_111_111_111_111_111_111);
    tens.chain(twos).chain(digits).chain([u64::MAX - 1, u64::MAX, 9_876_543_210, 10_203_040_506_070_809_000]).collect()
}

/// Each number below 10,000, as a count of a refusal or as the airtime.
fn small_numbers(out: &mut Out) {
    for first in (0..10_000).step_by(16) {
        let numbers: Vec<u64> = (first..).take(ENTRIES).collect();
        told(out, &Report::of_numbers(&numbers), &[0]);
    }
}

/// Each entry alone, beside a lead, and all but it.
fn each_entry(out: &mut Out) {
    for entry in 0..ENTRIES {
        for number in [1, 7, 10, 1000, u64::MAX] {
            told(out, &only(entry, number), if number == 1 { &ROOMS } else { &[-1, 0] });
            let led = with(&only(SOME, 1), entry, number);
            told(out, &led, &[-1, 1]);
        }
        told(out, &with(&Report::of_numbers(&[8; ENTRIES]), entry, 0), &[0]);
    }
}

pub fn report_text(out: &mut Out) {
    told(out, &Report::default(), &ROOMS);
    told(out, &Report::of_numbers(&[u64::MAX; ENTRIES]), &ROOMS);
    told(out, &at_limits(), &ROOMS);
    // Each room up to that of the longest text, and one more.
    for room in 1..982 {
        for report in [Report::default(), at_limits()] {
            out.call(Call::Report(ReportCall::Text { report, room }));
        }
    }
    each_entry(out);
    for number in numbers() {
        let entry = out.random.below(ENTRIES);
        told(out, &Report::of_numbers(&[number; ENTRIES]), &[-1, 0]);
        told(out, &with(&at_limits(), entry, number), &[3]);
    }
    small_numbers(out);
    // All numbers differ, so that no two can stand in each other's place.
    for _ in 0..out.cases(60) {
        let bits = out.random.below(64);
        let numbers: Vec<u64> = (0..ENTRIES)
            .map(|_| u64::from_le_bytes(out.random.octets(8).try_into().expect("eight octets")) >> bits)
            .collect();
        let more = out.random.within(0, 40) as i64 - 20;
        told(out, &Report::of_numbers(&numbers), &[0, more]);
        let report = any_report(&mut out.random);
        told(out, &report, &[0, more]);
    }
    for _ in 0..out.cases(3) {
        let (report, room) = (any_report(&mut out.random), far_size(&mut out.random));
        out.call(Call::Report(ReportCall::Text { report, room }));
    }
}
