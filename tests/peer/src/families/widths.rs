//! Numbers and lengths that are good ones in their lowest bits: each call with rows of 2^16, 2^20, 2^22 and 2^24
//! elements and a few more, and with each bit more of each of its numbers. Behind a frame stand zeros, of which a long
//! row costs next to nothing.

use super::finding::{Before, Scene};
use super::report::{add, list, sent, Recorded};
use super::report_edges::{at_limits, only, with};
use super::written::frame_len;
use super::{pairs, soft_rows, Draft, Out, Recorder};
use crate::bits::Rate;
use crate::calls::Call;
use crate::frame::Kind;
use crate::laid::WIDTHS;
use crate::random::Random;
use crate::report::{text, Report, ENTRIES};
use crate::report_calls::ReportCall;

/// A size about 2^16, 2^20 or 2^24, for families that draw theirs at random.
pub fn far_size(random: &mut Random) -> usize {
    (1 << random.pick(&[16, 16, 16, 16, 16, 20, 20, 24])) + random.below(5000) - 2500
}

/// A payload that is none, and room that is more than enough: short of the frame in its lowest bits, and not.
fn wide_write(out: &mut Out, kind: Kind, wide: usize) {
    let rates: Vec<Rate> = Rate::ALL.into_iter().filter(|rate| kind.has(*rate)).collect();
    let (rate, n) = (out.random.pick(&rates), out.random.within(1, 20));
    let code = u64::from(rate.code());
    let mut payload = out.random.octets(n);
    let frame = frame_len(kind, rate, n);
    let room = wide + out.random.below(frame) + if kind == Kind::Long { 0 } else { frame };
    out.over_aa(Call::write(kind.number(), code, 1, 0, payload.clone(), room));
    payload.resize(wide + n, 0);
    out.call(Call::write(kind.number(), code, 2, 1, payload, frame));
}

/// The same room in a write that is refused, and in reads that are: what they fill is all of it. The widest of hard
/// recordings only.
fn wide_refused(out: &mut Out, kind: Kind, wide: usize) {
    let few = out.random.below(100);
    out.over_aa(Call::write(kind.number(), 110, 4, 0, vec![1], wide + few));
    let recorders = if wide > 1 << 20 { &Recorder::ALL[..1] } else { &Recorder::ALL };
    for recorder in recorders {
        let draft = Draft::random(kind, Rate::Mbit11, 3, &mut out.random);
        out.over_aa(recorder.reading(kind.number(), draft.front(), wide + few));
    }
}

/// Rows of odd length: bytes, and samples of which one row has one more.
fn wide_odd(out: &mut Out, kind: Kind, wide: usize) {
    let chips = Draft::random(kind, Rate::Mbit11, 3, &mut out.random).chips();
    let Call::ReadBytes { mut bytes, .. } = Recorder::Bytes.reading(0, chips.clone(), 0) else { return };
    bytes.resize(wide + 2 * out.random.below(chips.len()) + 1, 0);
    out.call(Call::bytes(kind.number(), bytes, 3));
    let (mut i, mut q) = soft_rows(&chips, 1.0);
    i.resize(wide + chips.len() + 1, 0.0);
    q.resize(wide + chips.len(), 0.0);
    out.call(Call::soft(kind.number(), (i, q), 3));
}

/// A frame with zeros behind it, of fewer chips than the front in its length's lowest bits, by each recorder; so many
/// bytes too.
fn wide_recording(out: &mut Out, kind: Kind, wide: usize) {
    let draft = Draft::random(kind, Rate::Mbit11, 3, &mut out.random);
    let (chips, few) = (draft.chips(), out.random.below(kind.front_chips()));
    let mut long = chips.clone();
    long.resize(wide + few, 0);
    out.call(Call::hard(kind.number(), long.clone(), 3));
    // Of rows that aren't as long as each other only the lowest bits are; what is behind is not looked at.
    let (mut i, q) = soft_rows(&chips, 1.0);
    i.resize(wide + chips.len(), 0.0);
    out.call(Call::soft(kind.number(), (i.clone(), q.clone()), 3));
    let mut q = [q, vec![0.0; wide]].concat();
    i.truncate(wide + few);
    q.truncate(wide + few);
    out.call(Call::soft(kind.number(), (i, q), 3));
    for len in [wide + 2 * few, 2 * (wide + few)] {
        let Call::ReadBytes { mut bytes, .. } = Recorder::Bytes.reading(0, chips.clone(), 0) else { continue };
        bytes.resize(len, 0);
        out.call(Call::bytes(kind.number(), bytes, 3));
    }
}

/// Room that is short of the payload in its lowest bits; of bytes it is not, but what is behind the payload is 2^k.
fn wide_room(out: &mut Out, kind: Kind, wide: usize) {
    let draft = Draft::random(kind, Rate::Mbit5_5, 9, &mut out.random);
    for (recorder, more) in [(Recorder::Hard, 0), (Recorder::Soft, 0), (Recorder::Bytes, 9)] {
        let room = wide + more + out.random.below(9);
        out.over_aa(recorder.reading(kind.number(), draft.chips(), room));
    }
    let room = wide + out.random.below(text(&Report::default()).len());
    out.over_aa(Call::Report(ReportCall::Text { report: Report::default(), room }));
}

/// A frame to be found, a recording more, and one of a list, all with zeros behind; lists of recordings of no chips.
fn wide_search(out: &mut Out, kind: Kind, wide: usize) {
    let few = out.random.below(kind.front_chips());
    let mut scene = Scene::new(kind, Rate::Mbit2, Before::Stopped, 7, &mut out.random);
    scene.chips.resize(wide + few, 0);
    out.call(scene.find(20));
    let (number, mut chips) = sent(kind, Rate::Mbit5_5, 2, &mut out.random);
    chips.resize(wide + few, 0);
    out.call(add(&Report::default(), &(number, chips.clone())));
    out.call(list(&[(number, chips)]));
    let few = out.random.below(1000);
    for (kinds, recordings) in [(wide + few, wide + few), (few, wide + few), (wide + few, few)] {
        out.call(Call::Report(ReportCall::Empties { kinds, recordings }));
    }
}

/// Shows: a length that is cut to 16, 20, 22 or 24 bits, of a payload and of a chip buffer; and of what is filled where
/// a write or a read is refused.
pub fn wide_writes(out: &mut Out) {
    for wide in WIDTHS.map(|bits| 1 << bits) {
        Kind::BOTH.into_iter().for_each(|kind| wide_write(out, kind, wide));
    }
    for wide in [1 << 16, 1 << 20] {
        Kind::BOTH.into_iter().for_each(|kind| wide_refused(out, kind, wide));
    }
    wide_refused(out, Kind::Short, 1 << 24);
}

/// The same of recordings, by each recorder and from the front alone; the widest of one kind.
pub fn wide_recordings(out: &mut Out) {
    for wide in WIDTHS.map(|bits| 1 << bits) {
        wide_recording(out, Kind::Long, wide);
        if wide < 1 << 20 {
            wide_recording(out, Kind::Short, wide);
        }
    }
    for wide in [1 << 16, 1 << 20] {
        Kind::BOTH.into_iter().for_each(|kind| wide_odd(out, kind, wide));
    }
}

/// The same of octet buffers, of full reads and of a text.
pub fn wide_rooms(out: &mut Out) {
    for wide in WIDTHS.map(|bits| 1 << bits) {
        wide_room(out, Kind::Short, wide);
    }
    wide_room(out, Kind::Long, 1 << 16);
    wide_room(out, Kind::Long, 1 << 20);
}

/// The same of recordings to search and to count, of lists and of their kinds.
pub fn wide_searches(out: &mut Out) {
    for wide in WIDTHS.map(|bits| 1 << bits) {
        wide_search(out, Kind::Long, wide);
        wide_search(out, Kind::Short, wide);
    }
}

/// Each bit of 64 more in a good number.
pub fn bits_more(good: u64) -> impl Iterator<Item = u64> {
    (0..64).map(move |bit| good ^ 1 << bit)
}

/// A good write, with a bit more in its kind, its rate, its phase and its clock.
fn write_bits(out: &mut Out) {
    for (kind, rate) in pairs() {
        let room = frame_len(kind, rate, 1);
        let good = [kind.number(), u64::from(rate.code()), u64::from(out.random.phase()), out.random.below(2) as u64];
        for at in 0..good.len() {
            for number in bits_more(good[at]) {
                let mut numbers = good;
                numbers[at] = number;
                let [kind, rate, phase, clock] = numbers;
                let payload = out.random.octets(1);
                out.call(Call::write(kind, rate, phase, clock, payload, room));
            }
        }
    }
}

/// A frame to be found, with a bit more in its kind and in the number of offsets; one recording more, and one of a
/// list, by their kinds.
fn kind_bits(out: &mut Out) {
    for kind in Kind::BOTH {
        let scene = Scene::new(kind, Rate::Mbit11, Before::Stopped, 3, &mut out.random);
        let of: Vec<Recorded> = (0..2).map(|_| sent(kind, Rate::Mbit11, 1, &mut out.random)).collect();
        for number in bits_more(kind.number()) {
            out.call(Call::find(number, scene.chips.clone(), 5));
            out.call(add(&Report::default(), &(number, of[0].1.clone())));
            out.call(list(&[of[0].clone(), (number, of[1].1.clone())]));
        }
        for offsets in bits_more(5).chain(bits_more(4096)) {
            out.call(Call::find(kind.number(), scene.chips.clone(), offsets));
        }
    }
}

/// A report with a bit more in each of its numbers: one recording more, and its text.
fn report_bits(out: &mut Out) {
    let refused = (2, Vec::new());
    let accepted = sent(Kind::Short, Rate::Mbit11, 1, &mut out.random);
    for entry in 0..ENTRIES {
        // A lead below the frame's, which is kept by any yes; of the yes itself each bit alone.
        let (of_lead, some) = (entry + 3 >= ENTRIES, u64::from(entry + 3 > ENTRIES));
        let led = Report { some, lead: 100, recording: 7, ..Report::default() };
        let report = if of_lead { led } else { at_limits() };
        for (bit, number) in bits_more(report.numbers()[entry]).enumerate() {
            let recorded = if of_lead { &accepted } else { &refused };
            out.call(add(&with(&report, entry, number), recorded));
            let report = only(entry, 1 << bit);
            let room = 200 + out.random.below(2);
            out.call(Call::Report(ReportCall::Text { report, room }));
        }
    }
}

/// Shows: a number of which one bit is lost, in any call.
pub fn bits_of_numbers(out: &mut Out) {
    write_bits(out);
    kind_bits(out);
    report_bits(out);
}
