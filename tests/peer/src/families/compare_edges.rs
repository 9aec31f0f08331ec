//! Two recordings compared, at edges: lengths, places of differences, rows about their lists, every octet, wide rows.

use super::compare::{ask, some_places};
use super::{Draft, Out};
use crate::bits::Rate;
use crate::calls::Call;
use crate::compare_calls::CompareCall;
use crate::comparing::differences;
use crate::frame::Kind;
use crate::laid::WIDTHS;

/// Phases alike in two recordings of these lengths, but for these places, as far as a recording goes.
fn alike_but(out: &mut Out, lens: [usize; 2], places: &[usize]) {
    let most = lens[0].max(lens[1]);
    let chips: Vec<u8> = (0..most).map(|_| out.random.phase()).collect();
    let mut other = chips.clone();
    for place in places.iter().filter(|place| **place < most) {
        other[*place] = (other[*place] + out.random.within(1, 4) as u8) % 5;
    }
    let recordings = [chips[..lens[0]].to_vec(), other[..lens[1]].to_vec()];
    let chip_places = some_places(differences(&recordings[0], &recordings[1]).len(), &mut out.random);
    let (kind, octet_places) = (out.random.pick(&[0, 0, 1]), out.random.below(4));
    ask(out, CompareCall::new(kind, recordings, [chip_places, octet_places], [0, 2]));
}

/// Lengths about blocks of 64.
const LENS: [usize; 13] = [0, 1, 2, 62, 63, 64, 65, 66, 127, 128, 129, 192, 193];

/// Recordings of each two of these lengths: alike; unlike in the first chip, about the shorter's end, about blocks.
fn every_two_lengths(out: &mut Out) {
    for lens in LENS.into_iter().flat_map(|one| LENS.map(|other| [one, other])) {
        let end = lens[0].min(lens[1]);
        alike_but(out, lens, &[]);
        alike_but(out, lens, &[end]);
        if end > 0 {
            let some = out.random.pick(&[0, 62, 63, 64, 65, 127, 128]).min(end - 1);
            [0, end - 1, some].into_iter().for_each(|place| alike_but(out, lens, &[place, end]));
        }
    }
}

/// Frames with chips behind them: unlike there alone, at the first chip, the last one, and about the frame's end.
fn behind_frames(out: &mut Out) {
    for (rate, n) in [(Rate::Mbit11, 3), (Rate::Mbit2, 2)] {
        let frame = Draft::random(Kind::Short, rate, n, &mut out.random).chips();
        let (end, behind) = (frame.len(), out.random.within(60, 140));
        let chips = [frame, out.random.octets(behind)].concat();
        for place in [0, 1, end - 1, end, end + 1, end + 63, end + 64, chips.len() - 1] {
            let mut other = chips.clone();
            other.truncate(out.random.pick(&[chips.len(), place.max(end) + 1]).min(chips.len()));
            let place = place.min(other.len() - 1);
            other[place] ^= 1;
            let places = some_places(1, &mut out.random);
            ask(out, CompareCall::new(1, [chips.clone(), other], [places, 3 * n], [n, n]));
        }
    }
}

/// Each length short of a long front, the last chip and one more unlike.
fn every_length(out: &mut Out) {
    for len in 1..2112 {
        let (any, more) = (out.random.below(len), out.random.pick(&[0, 0, 1, 40]));
        let lens = out.random.pick(&[[len, len + more], [len + more, len]]);
        alike_but(out, lens, &[any, len - 1, len]);
    }
}

/// Recordings of which one chip in 64 differs, alone in its block, at each place of it; the list fits.
fn one_a_block(out: &mut Out) {
    let chips: Vec<u8> = (0..66_000).map(|_| out.random.below(256) as u8).collect();
    for place in 0..64 {
        let mut other = chips[..chips.len() - place].to_vec();
        let each = other.iter_mut().skip(place).step_by(64);
        let entries = each.map(|chip| *chip ^= out.random.within(1, 255) as u8).count();
        out.alone(Call::Compare(CompareCall::new(0, [chips.clone(), other], [3 * entries, 0], [0, 0])));
    }
}

/// Shows: a chip that is not compared, or one too many, at an edge of a block or of a recording.
pub fn compare_lengths(out: &mut Out) {
    every_two_lengths(out);
    for place in 0..260 {
        alike_but(out, [260, 260], &[place]);
        alike_but(out, [260, 261], &[place, place + 1]);
        alike_but(out, [place + 1, place + 1], &[place]);
    }
    for first in [0, 31, 62, 63, 64, 127] {
        for second in first + 1..first + 70 {
            alike_but(out, [200, 200], &[first, second]);
        }
    }
    behind_frames(out);
    every_length(out);
    one_a_block(out);
    for place in [0, 511, 512, 1023, 1024, 1055, 2047, 2048, 2111] {
        alike_but(out, [2111, 2111], &[place]);
        alike_but(out, [2112, 2113], &[place]);
    }
}

/// Two frames of which so many octets differ, the rows of both lists of each size about what they need.
fn sizes_about(out: &mut Out, differ: usize) {
    let payload = out.random.octets(differ + 2);
    let mut other = payload.clone();
    other[1..=differ].iter_mut().for_each(|octet| *octet ^= out.random.within(1, 255) as u8);
    let phase = out.random.phase();
    let [a, b] = [payload, other].map(|payload| Draft::new(Kind::Short, Rate::Mbit11, phase, payload).chips());
    let about = |entries: usize| (0..3).chain((3 * entries).saturating_sub(4)..=3 * entries + 4);
    let n = differ + 2;
    for chips in about(differences(&a, &b).len()) {
        for octets in about(differ) {
            out.alone(Call::Compare(CompareCall::new(1, [a.clone(), b.clone()], [chips, octets], [n, n])));
        }
    }
}

/// Shows: a list cut at what fits, one that is said not to fit, one that takes the other with it, a row not cleared.
pub fn compare_rows(out: &mut Out) {
    [0, 1, 2, 9].into_iter().for_each(|differ| sizes_about(out, differ));
    for entries in (0..=300).chain([511, 512, 513, 1023, 1024, 1025, 4095, 4096, 4097]) {
        let (len, first) = (entries + 70, out.random.below(70));
        let chips: Vec<u8> = (0..len).map(|_| out.random.below(256) as u8).collect();
        let mut other = chips.clone();
        other[first..first + entries].iter_mut().for_each(|chip| *chip ^= out.random.within(1, 255) as u8);
        let about = if entries < 13 || entries % 64 < 3 { 4 } else { 1 };
        let few = (0..3).filter(|_| about > 1);
        for places in few.chain((3 * entries).saturating_sub(about)..=3 * entries + about).chain([3 * len]) {
            let call = CompareCall::new(0, [chips.clone(), other.clone()], [places, entries % 4], [1, 0]);
            out.alone(Call::Compare(call));
        }
    }
}

/// Two recordings of any kind with room for all differences, and with too little.
fn whole(out: &mut Out, recordings: [Vec<u8>; 2]) {
    let entries = differences(&recordings[0], &recordings[1]).len();
    for places in [3 * entries, (3 * entries).saturating_sub(1)] {
        ask(out, CompareCall::new(0, recordings.clone(), [places, 3], [1, 1]));
    }
}

/// Shows: octets above 4 not compared, taken for one another, or shown otherwise.
pub fn compare_octets(out: &mut Out) {
    let each: Vec<u8> = (0..=255).collect();
    for bit in 0..8 {
        whole(out, [each.clone(), each.iter().map(|octet| octet ^ 1 << bit).collect()]);
    }
    for by in [1, 2, 4, 5, 251, 255] {
        whole(out, [each.clone(), each.iter().map(|octet| octet.wrapping_add(by)).collect()]);
    }
    for octet in 0..=255 {
        let among = out.random.within(1, 70);
        let mut chips: Vec<u8> = (0..among).map(|_| out.random.phase()).collect();
        let other = chips.clone();
        chips[out.random.below(among)] = octet;
        let way = out.random.once_in(2);
        whole(out, if way { [chips, other] } else { [other, chips] });
    }
    let all = |high: bool| (0..=0xFFFF).map(|two: u32| (two >> if high { 8 } else { 0 }) as u8).collect();
    whole(out, [all(true), all(false)]);
}

/// A short frame with about so many zeros behind it, twice, but for a few chips: about powers of 2, and the last.
fn far_chips(out: &mut Out, wide: usize) {
    let chips = Draft::random(Kind::Short, Rate::Mbit11, 3, &mut out.random).chips();
    let mut first = chips.clone();
    first.resize(wide + out.random.below(1000), 0);
    let mut second = first.clone();
    second.resize(first.len() + out.random.below(100), 0);
    let powers = [8, 10, 15, 16, 17, 19, 20, 23, 24].into_iter().map(|bits| 1 << bits);
    let about =
        powers.flat_map(|place: usize| [place - 1, place, place + 1]).chain([first.len() - 20, first.len() - 1]);
    let mut entries = 0;
    for place in about.filter(|place| *place < first.len()) {
        second[place] ^= out.random.within(1, 7) as u8;
        entries += 1;
    }
    let recordings = if out.random.once_in(2) { [second, first] } else { [first, second] };
    out.alone(Call::Compare(CompareCall::new(1, recordings, [3 * entries, 9], [3, 3])));
}

/// Recordings of which all chips differ, with so many places for their list.
fn all_differ(out: &mut Out, chips: usize, places: usize) {
    let first: Vec<u8> = (0..chips).map(|_| out.random.below(256) as u8).collect();
    let second = first.iter().map(|octet| octet ^ out.random.within(1, 255) as u8).collect();
    out.alone(Call::Compare(CompareCall::new(0, [first, second], [places, 0], [2, 2])));
}

/// A frame with zeros behind it, 2^16 chips and more, beside itself, in rows of their own and with chips behind it.
fn one_twice(out: &mut Out) {
    let mut chips = Draft::random(Kind::Short, Rate::Mbit11, 3, &mut out.random).chips();
    chips.resize(70_000, 0);
    let more = [chips.clone(), vec![1; 9]].concat();
    for other in [chips.clone(), more] {
        out.alone(Call::Compare(CompareCall::new(1, [chips.clone(), other], [3, 3], [3, 3])));
    }
}

/// A frame of 2^16 chips and more beside itself with an unusable chip about its end, either first.
fn refused_far(out: &mut Out) {
    let chips = Draft::random(Kind::Long, Rate::Mbit1, 800, &mut out.random).chips();
    for place in [65_535, 65_536, chips.len() - 1] {
        let mut other = chips.clone();
        other[place] = 9;
        let call = CompareCall::new(0, [chips.clone(), other], [3, 0], [800, 800]);
        out.alone(Call::Compare(call.exchanged()));
        out.alone(Call::Compare(call));
    }
}

/// Wide rows where one recording is refused, or both.
fn refused_wide(out: &mut Out) {
    let good = Draft::random(Kind::Short, Rate::Mbit11, 2, &mut out.random).chips();
    let cut = good[..900].to_vec();
    for recordings in [[good.clone(), cut.clone()], [cut.clone(), good], [cut.clone(), cut]] {
        for row in 0..4 {
            let mut lens = [3, 6, 2, 2];
            lens[row] = (1 << 16) + 1;
            let (places, rooms) = ([lens[0], lens[1]], [lens[2], lens[3]]);
            out.over_aa(Call::Compare(CompareCall::new(1, recordings.clone(), places, rooms)));
        }
    }
}

/// Rows of so many elements and a few more, one of the four after the other.
fn wide_rows(out: &mut Out, wide: usize) {
    let chips = [(); 2].map(|()| Draft::random(Kind::Short, Rate::Mbit11, 2, &mut out.random).chips());
    let entries = differences(&chips[0], &chips[1]).len();
    for row in 0..4 {
        let mut lens = [3 * entries, 6, 2, 2];
        lens[row] = wide + out.random.below(2);
        let (places, rooms) = ([lens[0], lens[1]], [lens[2], lens[3]]);
        out.over_aa(Call::Compare(CompareCall::new(1, chips.clone(), places, rooms)));
    }
}

/// Shows: a length, an index or a number of entries cut to 8, 16, 20, 22 or 24 bits.
pub fn compare_wide(out: &mut Out) {
    WIDTHS.into_iter().for_each(|bits| far_chips(out, 1 << bits));
    for chips in [255, 256, 257, 21_845, 21_846, 65_535, 65_536, 65_537] {
        [3 * chips, 3 * chips - 1, 5, 0].into_iter().for_each(|places| all_differ(out, chips, places));
    }
    all_differ(out, (1 << 20) + 3, 3 * (1 << 20) + 9);
    all_differ(out, (1 << 22) + 3, 0);
    all_differ(out, (1 << 24) + 3, 5);
    one_twice(out);
    refused_wide(out);
    refused_far(out);
    WIDTHS.into_iter().for_each(|bits| wide_rows(out, 1 << bits));
}
