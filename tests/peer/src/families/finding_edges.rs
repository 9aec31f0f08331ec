//! Finding the start at the edges of its numbers, of the recording, and of whatever blocks a search may go by.

use super::finding::{unusable, Before, Scene, ALL};
use super::{Out, KINDS};
use crate::bits::Rate;
use crate::calls::Call;
use crate::finding::find;
use crate::frame::Kind;
use crate::random::Random;
use std::collections::BTreeSet;

/// Numbers of offsets, 1 to 4,096 and others, whatever a narrower number would make of them.
const OFFSETS: [u64; 13] =
    [0, 1, 2, 4095, 4096, 4097, 1 << 16, 1 << 32, (1 << 32) + 1, (1 << 32) + 4096, 1 << 63, (1 << 63) + 2, u64::MAX];

/// Recordings of no chip, of one, of a front less a chip, of a front, and of a frame at offset 0 and at 1.
fn recordings(kind: Kind, random: &mut Random) -> Vec<Vec<u8>> {
    let front = kind.front_chips();
    let frame = Scene::new(kind, Rate::Mbit11, Before::Lost, 0, random).chips;
    let behind = Scene::new(kind, Rate::Mbit2, Before::Stopped, 1, random).chips;
    let cut = [0, 1, front - 1, front].map(|len| frame[..len].to_vec());
    cut.into_iter().chain([frame, behind]).collect()
}

/// Each number of offsets with each kind: all recordings if the kind is one, and some of them if it isn't.
fn numbers(out: &mut Out) {
    for kind in KINDS {
        let alike = if kind % 2 == 0 { Kind::Long } else { Kind::Short };
        for offsets in OFFSETS {
            for chips in recordings(alike, &mut out.random) {
                if Kind::of_number(kind).is_some() || out.random.once_in(6) {
                    out.call(Call::find(kind, chips, offsets));
                }
            }
        }
    }
}

/// A front that ends where the recording ends, a chip before it and a chip behind it, at the last offset tried and at
/// the one behind that.
fn last_front(out: &mut Out, kind: Kind, before: Before, start: usize) {
    let rate = out.random.pick(&[Rate::Mbit2, Rate::Mbit5_5, Rate::Mbit11]);
    let mut scene = Scene::new(kind, rate, before, start, &mut out.random);
    let found = find(kind.number(), &scene.chips, ALL as u64);
    let offset = if found.number == 0 { found.offset as usize } else { start };
    let (end, tried) = (offset + kind.front_chips(), ALL.min(offset + 1));
    scene.chips.truncate(end + 1);
    out.call(scene.find(tried));
    scene.chips.truncate(end);
    if offset > 0 {
        out.call(scene.find(offset.min(ALL)));
    }
    scene.seek(out, tried);
    scene.chips.truncate(end - 1);
    out.call(scene.find(tried));
}

/// Such fronts, and recordings of few chips.
fn lengths(out: &mut Out) {
    for kind in Kind::BOTH {
        for start in [0, 1, 10, 63, 64, 500, 4085, 4094, 4095, 4096, 4106] {
            last_front(out, kind, Before::Stopped, start);
            last_front(out, kind, Before::Lost, start);
        }
        for len in [0, 1, 10, 11, kind.front_chips() - 1, kind.front_chips()] {
            for offsets in [1, 2, ALL] {
                let before = out.random.pick(&Before::ALL);
                let chips = before.chips(len, &mut out.random);
                Scene { kind, start: 0, chips }.seek(out, offsets);
            }
        }
    }
}

/// A start at each remainder of 512, found as the last offset tried: whatever blocks of offsets a search goes by, some
/// of these are a block's first or last.
fn remainders(out: &mut Out) {
    for offset in 0..512 * out.cases(1) {
        let offset = (offset + 512 * out.random.below(2)) % ALL;
        let scene = Scene::any(Before::Stopped, offset, &mut out.random);
        out.call(scene.find(offset + 1));
    }
}

/// Offsets about multiples of 11 and of powers of 2, and the last ones.
fn about_multiples(random: &mut Random) -> BTreeSet<usize> {
    let mut offsets = BTreeSet::from([4031, 4032, 4033, 4090, 4094, 4095]);
    for unit in [11, 64, 128, 256, 512, 704, 1024, 2048] {
        let far = unit * random.within(2048 / unit, 4095 / unit);
        for multiple in [unit, far] {
            offsets.extend((multiple - 2..=multiple + 2).filter(|offset| *offset < ALL));
        }
    }
    offsets
}

/// A start at each of them, found as the last offset tried; missed by one offset fewer, and with the last chip of its
/// front unusable. The first chip behind the front is unusable half of the time.
fn blocks(out: &mut Out) {
    for case in 0..out.cases(1) {
        for (at, offset) in about_multiples(&mut out.random).into_iter().enumerate() {
            let before = if (at + case) % 2 == 0 { Before::Stopped } else { Before::Lost };
            // Behind lost chips it is found 10 chips early.
            let start = if before == Before::Lost { offset + 10 } else { offset };
            let mut scene = Scene::any(before, start, &mut out.random);
            let behind = offset + scene.kind.front_chips();
            if out.random.once_in(2) {
                scene.chips[behind] = unusable(&mut out.random);
            }
            if offset > 0 {
                out.call(scene.find(offset));
            }
            scene.seek(out, offset + 1);
            scene.chips[behind - 1] = unusable(&mut out.random);
            out.call(scene.find(offset + 1));
        }
    }
}

/// Recordings whose length is short of a front in its lowest 16 bits, with a frame and without; and of 2^20 chips and
/// more, above the longest frame and all offsets before it, whose length is short of the front in its lowest 20 bits.
fn widths(out: &mut Out) {
    for kind in Kind::BOTH {
        for (len, start) in [(1 << 16, 0), ((1 << 16) + 1000, 300), ((1 << 17) + 5, 4095), (1 << 16, 4096)] {
            let mut scene = Scene::new(kind, Rate::Mbit5_5, Before::Stopped, start, &mut out.random);
            scene.chips.resize(len, 9);
            scene.seek(out, ALL);
        }
        for (len, start) in [((1 << 20) + 5, 3), ((1 << 20) + 5, 4095), ((1 << 20) + kind.front_chips() + 99, 100)] {
            let mut scene = Scene::new(kind, Rate::Mbit11, Before::Stopped, start, &mut out.random);
            scene.chips.resize(len, 9);
            out.call(scene.find(ALL));
        }
    }
}

/// A start at each multiple of 256 and before it, of either kind, found as the last offset tried.
fn multiples(out: &mut Out) {
    for kind in Kind::BOTH {
        for multiple in (256..ALL).step_by(256) {
            for offset in [multiple - 1, multiple] {
                let scene = Scene::new(kind, Rate::Mbit11, Before::Stopped, offset, &mut out.random);
                out.call(scene.find(offset + 1));
            }
        }
    }
}

pub fn find_edges(out: &mut Out) {
    numbers(out);
    lengths(out);
    remainders(out);
    blocks(out);
    widths(out);
    multiples(out);
}
