//! Finding the start where chips are spoiled, where the recording ends early, and where other fronts stand before.

use super::finding::{unusable, Before, Scene, ALL};
use super::refused::{wrong_reading, CRC, FRONT_GROWTH, LENGTH, SERVICE, SFD, SIGNAL};
use super::{any_pair, pairs, turn, Draft, Out, Recorder};
use crate::bits::Rate;
use crate::calls::Call;
use crate::chips::LOST;
use crate::frame::{front_bits, number_of, Header, Kind};

/// Chips replaced at random, one in so many, over all of a recording; lost ones too.
fn replaced(out: &mut Out) {
    for (kind, rate) in pairs() {
        for one_in in [1000, 200, 50] {
            for case in 0..out.cases(3) {
                let (before, start) = (out.random.pick(&Before::ALL), out.random.within(0, 600));
                let mut scene = Scene::new(kind, rate, before, start, &mut out.random);
                let values = if case % 3 == 0 { 5 } else { 4 };
                for chip in &mut scene.chips {
                    if out.random.once_in(one_in) {
                        *chip = out.random.below(values) as u8;
                    }
                }
                scene.seek(out, start + 20);
            }
        }
    }
}

/// Symbols of the front whose words tie: lost, or five chips turned against five others.
fn tied(out: &mut Out) {
    for case in 0..out.cases(45) {
        let start = out.random.within(1, 100);
        let mut scene = Scene::any(Before::Stopped, start, &mut out.random);
        for _ in 0..out.random.within(1, 3) {
            let at = start + 11 * out.random.below(scene.kind.front_chips() / 11);
            let (lost, by) = (out.random.below(11), out.random.within(1, 3) as u8);
            if case % 3 == 0 {
                scene.chips[at..at + 11].fill(LOST);
            } else {
                (1..6).for_each(|k| turn(&mut scene.chips[at + (lost + k) % 11..][..1], by));
                scene.chips[at + lost] = LOST;
            }
        }
        scene.seek(out, start + 20);
    }
}

/// All chips turned from a symbol of the front on, at the edges of its parts and behind it: one growth is odd, or one
/// bit is another.
fn grown(out: &mut Out) {
    for kind in Kind::BOTH {
        let (header, front) = (kind.bits_before_header(), kind.front_chips() / 11);
        let any = [out.random.below(header - 16), out.random.within(header, front - 1)];
        let edges = [1, 2, header - 17, header - 16, header - 1, header, header + 1, front - 2, front - 1, front];
        for (case, symbol) in edges.into_iter().chain(any).enumerate() {
            for by in 1..4 {
                let (before, start) = (Before::ALL[(case + by as usize) % 5], out.random.within(10, 60));
                let rate = out.random.pick(&[Rate::Mbit2, Rate::Mbit5_5, Rate::Mbit11]);
                let mut scene = Scene::new(kind, rate, before, start, &mut out.random);
                turn(&mut scene.chips[start + 11 * symbol..], by);
                scene.seek(out, start + 20);
            }
        }
    }
}

/// Headers with a right CRC, LENGTH and SERVICE at the edges of what a writer makes.
fn headers(out: &mut Out) {
    for (kind, rate) in pairs() {
        let most = rate.length_of(4095).0 as u16;
        let near = [(1, 0), (1, 128), (most, 0), (most, 128), (most + 1, 0), (most + 1, 128)];
        let far = [(0, 0), (0, 128), (0, 132), (0xFFFF, 0), (8, 4), (8, 132), (8, 1), (8, 8), (8, 64), (8, 255)];
        for (length, service) in near.into_iter().chain(far) {
            let header = Header { signal: rate.code(), service, length };
            let draft = Draft::random(kind, rate, 1, &mut out.random).with_header(header);
            let start = out.random.within(1, 20);
            let scene = Scene::of(&draft, Before::Stopped, start, &mut out.random);
            out.call(scene.find(start + 1));
        }
    }
}

/// Fronts of which few chips of each symbol are left, behind lost chips and one that is unusable: the SFD is right from
/// the unusable chip on too, where the front is refused, and the start is the very next offset.
fn sparse(out: &mut Out) {
    for case in 0..out.cases(24) {
        let (kind, rate) = any_pair(&mut out.random);
        let start = if case < 8 { 41 } else { out.random.within(20, 300) };
        let mut scene = Scene::new(kind, rate, Before::Lost, start, &mut out.random);
        scene.chips[start - 1] = unusable(&mut out.random);
        let left: Vec<usize> = match case % 3 {
            0 => vec![2, 5, 6, 8, 9],
            _ => (0..11).filter(|chip| ![0, 1, 3, 4, 7, 10].contains(chip) || out.random.once_in(4)).collect(),
        };
        for place in (0..kind.front_chips()).filter(|place| !left.contains(&(place % 11))) {
            scene.chips[start + place] = LOST;
        }
        scene.seek(out, start + 20);
    }
}

/// The same where the front one chip early is refused for its header or for an odd growth of its SYNC, and the unusable
/// chip stands before that. Read a chip early, a header of whole symbols is another one. In SYNC one symbol gets chips
/// of an odd phase beside its five, which score 5 from the start on, a tie that the right phase wins, and 6 a chip
/// early.
fn refused_for_more(out: &mut Out) {
    for case in 0..out.cases(24) {
        let (kind, rate) = any_pair(&mut out.random);
        let (start, phase) = (out.random.within(20, 300), out.random.pick(&[0, 2]));
        let draft = Draft { phase, ..Draft::random(kind, rate, 2, &mut out.random) };
        let mut scene = Scene::of(&draft, Before::Lost, start, &mut out.random);
        scene.chips[start - 2] = unusable(&mut out.random);
        let header = 11 * kind.bits_before_header();
        let few = if case % 2 == 0 { header } else { kind.front_chips() };
        for place in (0..few).filter(|place| ![2, 5, 6, 8, 9].contains(&(place % 11))) {
            scene.chips[start + place] = LOST;
        }
        if case % 2 == 1 {
            let before = start + 11 * out.random.within(2, kind.bits_before_header() - 24) - 1;
            let odd = [(0, 1), (1, 3), (2, 1), (4, 3), (5, 1), (8, 3)];
            odd.into_iter().for_each(|(place, chip)| scene.chips[before + place] = chip);
        }
        scene.seek(out, start + 20);
    }
}

/// SFDs one after the other, as a payload of 1 Mbit/s, the last with a right header: most of 4,096 offsets' fronts that
/// can be are refused before it.
fn many_sfds(out: &mut Out) {
    for count in [3, 8, 18, 18] {
        let mut first = Draft::random(Kind::Long, Rate::Mbit1, 8, &mut out.random);
        first.crc ^= 1 << out.random.below(16);
        let last = octets_of(&Draft::random(Kind::Long, Rate::Mbit11, 2, &mut out.random));
        first.payload = [last[..2].repeat(count), last].concat();
        let start = out.random.within(0, 60);
        Scene::of(&first, Before::Lost, start, &mut out.random).seek(out, ALL);
    }
}

/// Fronts that tell of 13 to 300 octets, with few behind them.
fn some_octets(out: &mut Out) {
    for (kind, rate) in pairs() {
        for (least, most) in [(13, 64), (65, 300)] {
            let (n, start) = (out.random.within(least, most), out.random.within(0, 60));
            let many = Draft::random(kind, rate, n, &mut out.random).header;
            let draft = Draft::random(kind, rate, 3, &mut out.random).with_header(many);
            Scene::of(&draft, Before::Lost, start, &mut out.random).seek(out, ALL);
        }
    }
}

/// Any SYNC bits, which aren't compared.
fn any_sync(out: &mut Out) {
    for case in 0..out.cases(30) {
        let (kind, rate) = any_pair(&mut out.random);
        let mut draft = Draft::random(kind, rate, 2, &mut out.random);
        draft.sync.iter_mut().for_each(|bit| *bit = out.random.below(2) as u8);
        let start = out.random.within(0, 200);
        Scene::of(&draft, Before::ALL[case % 5], start, &mut out.random).seek(out, start + 20);
    }
}

/// A chip unusable about either end of the front, so that starts of less than 10 chips early are found; before the
/// front, in it and behind it. A second frame behind it is found where the first isn't.
fn about_front(out: &mut Out) {
    for kind in Kind::BOTH {
        let front = kind.front_chips();
        let start = out.random.within(20, 90);
        let about = (start - 12..=start + 1).chain(start + front - 12..=start + front + 1);
        let any = [out.random.below(start - 12), out.random.within(start + 2, start + front - 13)];
        for (case, place) in about.chain(any).enumerate() {
            let rate = out.random.pick(&[Rate::Mbit2, Rate::Mbit5_5, Rate::Mbit11]);
            let before = [Before::Lost, Before::Phases, Before::Constant][case % 3];
            let mut scene = Scene::new(kind, rate, before, start, &mut out.random);
            scene.chips[place] = unusable(&mut out.random);
            scene.chips.extend(Scene::new(kind, rate, before, 40, &mut out.random).chips);
            scene.seek(out, ALL);
            out.call(scene.front(start));
        }
    }
}

/// Frames without their first chips: behind 30 lost ones, one of a frame's first chips unusable, and recordings that
/// begin so many chips into the frame. They are found late.
fn begun(out: &mut Out) {
    for (kind, rate) in pairs() {
        for first in [1, 2, 4, 6, 8, 10] {
            let mut scene = Scene::new(kind, rate, Before::Lost, 30, &mut out.random);
            scene.chips[30 + first - 1] = if first == 1 { 5 } else { unusable(&mut out.random) };
            scene.seek(out, 60);
            if first > 1 {
                let mut scene = Scene::new(kind, rate, Before::Lost, 0, &mut out.random);
                scene.chips.drain(..first);
                scene.seek(out, 30);
            }
        }
    }
}

/// Recordings that end in the front's last symbol or in the payload, and payloads that a full read refuses.
fn behind_front(out: &mut Out) {
    for (kind, rate) in pairs() {
        let (before, start) = (out.random.pick(&[Before::Lost, Before::Stopped]), out.random.within(10, 60));
        let scene = Scene::new(kind, rate, before, start, &mut out.random);
        let (front, end) = (scene.behind_front(), scene.chips.len());
        let any = out.random.within(front, end - 1);
        for len in [front - 11, front - 10, front - 9, front - 1, front, front + 1, any] {
            Scene { kind, start, chips: scene.chips[..len].to_vec() }.seek(out, ALL);
        }
        // A chip unusable, all of them, and a symbol turned.
        for case in 0..4 {
            let (mut chips, each) = (scene.chips.clone(), rate.chips_per_symbol());
            let symbol = front + each * out.random.below((end - front) / each);
            match case {
                0 => chips[front] = unusable(&mut out.random),
                1 => chips[front..].fill(unusable(&mut out.random)),
                _ => turn(&mut chips[symbol..symbol + each], 1),
            }
            Scene { kind, start, chips }.seek(out, ALL);
        }
        // A front that tells of many octets, with few behind it.
        for n in [out.random.within(301, 4000), 4095] {
            let many = Draft::random(kind, rate, n, &mut out.random).header;
            let draft = Draft::random(kind, rate, 3, &mut out.random).with_header(many);
            Scene::of(&draft, before, start, &mut out.random).seek(out, ALL);
        }
    }
}

/// A front that is wrong in one way, or in two, before a right one: none is found if it is the last one tried.
fn wrong_before(out: &mut Out) {
    const WRONG: [usize; 6] = [FRONT_GROWTH, SFD, CRC, SIGNAL, SERVICE, LENGTH];
    for first in WRONG {
        for case in 0..out.cases(6) {
            let second = if case % 4 == 0 { out.random.pick(&WRONG) } else { first };
            let wrong = wrong_reading(1 << first | 1 << second, Recorder::Hard, &mut out.random);
            let Call::ReadHard { kind, chips: wrong, .. } = wrong else { continue };
            let kind = Kind::BOTH[kind as usize];
            let (before, start) = (out.random.pick(&Before::ALL), out.random.within(0, 60));
            let right = Draft::random(kind, Rate::Mbit11, 2, &mut out.random);
            let chips = [before.chips(start, &mut out.random), wrong, right.chips()].concat();
            let scene = Scene { kind, start, chips };
            out.call(scene.find(start + 1));
            out.call(scene.front(start));
            scene.seek(out, ALL);
            out.call(scene.front(start));
        }
    }
}

/// The octets of an SFD and a header with its CRC.
fn octets_of(draft: &Draft) -> Vec<u8> {
    let bits = front_bits(&[], draft.sfd, &draft.header, draft.crc);
    bits.chunks(8).map(|bits| number_of(bits) as u8).collect()
}

/// Long fronts that overlap: SFDs and headers follow each other as a payload of 1 Mbit/s would, and what stands before
/// each is its SYNC. All but the last are wrong behind the SFD, or the first is right too.
fn overlapping(out: &mut Out) {
    for case in 0..out.cases(25) {
        let mut payload = Vec::new();
        let mut first = Draft::random(Kind::Long, Rate::Mbit1, 8, &mut out.random);
        for left in (0..case % 5).rev() {
            let mut draft = Draft::random(Kind::Long, Rate::Mbit11, 2, &mut out.random);
            if left > 0 {
                draft.crc ^= 1 << out.random.below(16);
            }
            payload.extend(octets_of(&draft));
        }
        match case % 4 {
            0 => first.crc ^= 1 << out.random.below(16),
            1 => first = first.with_header(Header { signal: 11, service: 0, length: 2 }),
            2 => first = first.with_header(Header { signal: 110, service: 64, length: 2 }),
            _ => {}
        }
        first.payload = payload;
        let (before, start) = (out.random.pick(&Before::ALL), out.random.within(0, 60));
        let scene = Scene::of(&first, before, start, &mut out.random);
        scene.seek(out, ALL);
        out.call(scene.front(start));
    }
}

/// Several frames, of which the first of the kind is found, whatever the other kind's are.
fn several(out: &mut Out) {
    for _ in 0..out.cases(16) {
        let mut chips = Vec::new();
        for _ in 0..out.random.within(2, 3) {
            let (before, gap) = (out.random.pick(&Before::ALL), out.random.within(0, 50));
            chips.extend(Scene::any(before, gap, &mut out.random).chips);
        }
        for kind in Kind::BOTH {
            Scene { kind, start: 0, chips: chips.clone() }.seek(out, ALL);
        }
    }
}

pub fn find_damage(out: &mut Out) {
    replaced(out);
    tied(out);
    grown(out);
    headers(out);
    any_sync(out);
    sparse(out);
    about_front(out);
    begun(out);
    behind_front(out);
    wrong_before(out);
    overlapping(out);
    several(out);
    refused_for_more(out);
    many_sfds(out);
    some_octets(out);
}
